// A recipe's chart as a list of nodes in chart order, with the variables that each reads and the limits they are
// compared with, and what is in each loop. Knows nothing of batches, and nothing of drawing. Throws where a forged
// chart has no form of a chart.
"use strict";
const recipes = (() => {
  const SIGNS = { lt: "<", le: "≤", eq: "=", ne: "≠", ge: "≥", gt: ">" };
  const within = node => node.seq ?? node.par ?? node.sel?.map(arm => arm.then) ?? (node.loop ? [node.loop] : []);
  // The node and all in it: a node before the nodes in it, and these from first to last.
  function* nodes(node) {
    yield node;
    for (const each of within(node)) yield* nodes(each);
  }
  // The conditions by which a node decides, in order.
  function conditions(node) {
    if ("step" in node) return node.finish ? [node.finish] : [];
    if ("seq" in node || "par" in node) return [];
    return node.sel ? node.sel.map(arm => arm.when) : [node.until];
  }
  function* tests(condition) {
    if ("const" in condition) return;
    if ("not" in condition) yield* tests(condition.not);
    else if ("all" in condition || "any" in condition) {
      for (const each of condition.all ?? condition.any) yield* tests(each);
    }
    else yield condition;
  }
  // The different variables of some tests, in the order in which they first appear, each with its limits.
  function variables(found) {
    const reads = new Map();
    for (const { role, test, op, value } of found) {
      const key = `${role}.${test}`;
      if (!reads.has(key)) reads.set(key, { role, name: test, limits: [] });
      if (!reads.get(key).limits.some(each => each.op === op && each.value === value)) {
        reads.get(key).limits.push({ op, value });
      }
    }
    return [...reads.values()];
  }
  // A text that is one for one recipe, as `pol` writes it: compact, with the keys in order, and with the settings of
  // each step, none where the line has none.
  function written(value) {
    if (typeof value === "bigint") return String(value);
    if (Array.isArray(value)) return `[${value.map(written).join(",")}]`;
    if (typeof value !== "object" || value === null) return JSON.stringify(value);
    const own = "step" in value && !("settings" in value) ? { ...value, settings: [] } : value;
    return `{${Object.keys(own).sort().map(key => `${JSON.stringify(key)}:${written(own[key])}`).join(",")}}`;
  }
  class Recipe {
    constructor(at, event) {
      this.at = at; this.name = event.recipe; this.roles = event.roles; this.chart = event.chart;
      this.text = written({ chart: this.chart, recipe: this.name, roles: this.roles }); this.sum = null;
      this.nodes = [...nodes(event.chart)];
      this.steps = new Map(this.nodes.filter(node => "step" in node).map(node => [node.step, node]));
      this.numbers = new Map(this.nodes.map((node, number) => [node, number]));
      // Of each loop, by its number, what is in it: steps by their names, other nodes by their numbers.
      const keyOf = node => node.step ?? this.numbers.get(node);
      const loops = this.nodes.filter(node => !("step" in node) && node.loop);
      this.within = new Map(loops.map(node => [this.numbers.get(node), [...nodes(node.loop)].map(keyOf)]));
      this.readsOf = this.nodes.map(node => variables(conditions(node).flatMap(each => [...tests(each)])));
      this.reads = variables(this.nodes.flatMap(node => conditions(node)).flatMap(each => [...tests(each)]));
    }
    stepOf(name) { return this.steps.get(name); }
  }
  const sign = op => SIGNS[op] ?? op;
  // A condition in words and signs. How a value of a role's variable is said is told by the caller.
  function told(condition, said) {
    if ("const" in condition) return String(condition.const);
    if ("not" in condition) return `${words.say("not")} (${told(condition.not, said)})`;
    const list = condition.all ?? condition.any;
    if (!list) return `${condition.role}.${condition.test} ${sign(condition.op)}\u00a0${said(condition)}`;
    return list.map(each => told(each, said)).join(` ${words.say(condition.all ? "and" : "or")} `);
  }
  return { Recipe, sign, told, conditions, tests };
})();
