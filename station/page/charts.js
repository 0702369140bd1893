// The chart of each batch, by the code of the page that draws histories: what that asks of a history and of a batch at
// an entry is answered here by what the station tells of now. Decides nothing.
"use strict";
const charts = (() => {
  const NOW = 0, MOST_OPEN = 3;
  // Recipes as they came, null while one is asked for; the charts that a person opened or closed; what was drawn last.
  const recipesKnown = new Map(), chosen = new Map(), drawn = new WeakMap();
  const named = (list, made) => new Map(list.map(each => [each.name, made(each)]));
  const series = ({ told }) => ({ known: () => (told === null ? NaN : told) });
  const service = ({ view }) => ({ last: () => (view === null ? { state: null, mode: "", mask: 0 }
    : { state: words.state(view.StateCur), mask: view.CommandEn,
      mode: view.Mode === "Automatic" && view.Src === "External" ? "" : `${view.Mode}, ${view.Src}` }) });
  // What a history would tell of the modules.
  function historyOf(live) {
    const module = each => ({ services: named(each.services, service), series: named(each.values, series),
      hold: { span: () => (each.ticket === null ? -1 : 0), style: ["away"] } });
    return {
      modules: new Map(live.modules.map(each => [each.tag, module(each)])),
      kindAt: (tag, name) => live.modules.find(each => each.tag === tag)?.values.find(each => each.name === name)?.kind,
      settings: () => [],
    };
  }
  // What it would tell of an open batch.
  function batchOf(batch, known) {
    const { steps, arms, turns, passed, isStopping } = batch.stands;
    const standing = { steps: new Map(steps), arms: new Map(arms), turns: new Map(turns), passed: new Set(passed),
      isStopping };
    return { known, started: NOW, ended: null, frozen: batch.hold !== null, unheld: batch.unheld ?? null,
      standing: () => standing, waitAt: () => batch.wait, tagOf: role => batch.bind[role] ?? batch.watch[role] };
  }
  async function ask(name) {
    recipesKnown.set(name, null);
    try {
      const given = await fetch(`recipe?name=${encodeURIComponent(name)}`);
      if (given.ok) recipesKnown.set(name, new recipes.Recipe(NOW, await given.json()));
      else recipesKnown.delete(name);
      page.show();
    } catch {
      recipesKnown.delete(name);
    }
  }
  // A recipe; null where it isn't there yet, and then it is asked for.
  function recipeOf(batch) {
    if (!recipesKnown.has(batch.recipe)) ask(batch.recipe);
    return recipesKnown.get(batch.recipe) ?? null;
  }
  // Each branch in which a batch stands: what it waits for there, as `pol` says it, and what the chart has there with
  // what was reported last.
  function branches(batch, live) {
    const said = new Map(batch.waits.map(({ node, wait }) => [node, words.answer(wait)]));
    const known = recipeOf(batch), more = known ? told(batch, known, historyOf(live)) : new Map();
    const nodes = [...new Set([...said.keys(), ...more.keys()])].sort((one, other) => one - other);
    return nodes.map(node => ({ said: said.get(node) ?? "", more: more.get(node) ?? "" }));
  }
  // What a batch waits for: a condition as the chart has it, with what its values were last; else as `pol` says it.
  function waited(batch, wait, live) {
    if (wait.wait === "Frozen") return words.say(batch.hold ? "isHeld" : "isFrozen");
    const known = "node" in wait || wait.wait === "Unmet" ? recipeOf(batch) : null;
    const conditions = known ? recipes.conditions(known.nodes[wait.node] ?? known.stepOf(wait.step)) : [];
    return conditions.length ? untilSo(batch, known, conditions, historyOf(live)) : words.answer(wait);
  }
  function untilSo(batch, known, conditions, history) {
    const place = stand.place(history, batchOf(batch, known), NOW, known);
    const values = [...new Map(conditions.flatMap(place.values))];
    const last = ([read, value]) => `${values.length > 1 ? `${read} ` : ""}${value ?? words.say("unreported")}`;
    return words.say("untilSo", conditions.map(place.told).join(`; ${words.say("or")} `), values.map(last).join(", "));
  }
  // By the number of its node what is told of each branch.
  function told(batch, known, history) {
    const own = batchOf(batch, known), lines = awaited.told(own, history, NOW, stand.place(history, own, NOW, known));
    return new Map(awaited.at(own, NOW).map((node, k) => [known.numbers.get(node), lines[k].text]));
  }
  // How a batch stands, with the nodes that are awaited in each branch: as `pol` says it, where it does.
  function placeOf(batch, known, history) {
    const place = stand.place(history, batchOf(batch, known), NOW, known);
    const named = ({ node }) => known.nodes[node]?.step ?? node;
    return batch.waits.length ? { ...place, awaits: new Set(batch.waits.map(named)) } : place;
  }
  // Charts are open where there are few, if nobody closed them.
  const isOpen = (name, count) => chosen.get(name) ?? count <= MOST_OPEN;
  function toggle(name) { chosen.set(name, !isOpen(name, page.state.live.batches.length)); }
  // The button that opens the chart of a batch, and the place where it is drawn.
  function parts({ batch }, count) {
    const open = isOpen(batch, count);
    return [draw.make("button", { type: "button", "data-chart-of": batch, "data-key": "charted", "aria-expanded":
      String(open) }, words.say(open ? "hideChart" : "showChart")),
    open ? draw.make("div", { class: "chart", "data-key": "chart", "data-chart": batch, "data-drawn": true,
      tabindex: "0", role: "group", "aria-label": words.say("chartOf", batch) }) : null];
  }
  // Draws each chart that is open, where anything of it changed.
  function paintAll(live) {
    const history = historyOf(live);
    for (const holder of document.querySelectorAll("[data-chart]")) {
      const batch = live.batches.find(each => each.batch === holder.dataset.chart), known = batch && recipeOf(batch);
      if (known) paintOne(holder, batch, known, history, live);
    }
  }
  function paintOne(holder, batch, known, history, live) {
    const values = live.modules.filter(({ tag }) => Object.values({ ...batch.bind, ...batch.watch }).includes(tag))
      .map(each => each.values.map(own => own.told));
    const key = JSON.stringify([batch.stands, batch.wait, batch.waits, batch.hold, values, words.isGerman(),
      holder.clientWidth]);
    if (drawn.get(holder) === key) return;
    const { scrollLeft, scrollTop } = holder, isNew = !drawn.has(holder);
    drawn.set(holder, key);
    chart.draw(holder, known, placeOf(batch, known, history));
    if (!isNew) Object.assign(holder, { scrollLeft, scrollTop });
  }
  return { parts, branches, waited, toggle, paintAll };
})();
