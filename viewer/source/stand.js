// Where a batch stands in its chart at an entry, which nodes it waits for then, and how its conditions and the values
// in them are said. Knows nothing of how it is shown.
"use strict";
const stand = (() => {
  // The kind of a test's variable: of its module then or, where the batch isn't begun, at its start; of a recipe that
  // no batch has yet, that of a module of the role's type.
  function kindIn(history, batch, at, known, { role, name, test }) {
    if (batch) return history.kindAt(batch.tagOf(role), name ?? test, Math.max(at, batch.started));
    const roles = Array.isArray(known?.roles) ? known.roles : [];
    return history.kindOfType(roles.find(each => each?.role === role)?.type, name ?? test);
  }
  function place(history, batch, at, known) {
    const isReached = batch !== null && at >= batch.started;
    const isEnded = isReached && batch.ended !== null && batch.ended <= at, isOpen = isReached && !isEnded;
    const kindOf = test => kindIn(history, batch, at, known, test);
    const said = test => words.value(test.value, kindOf(test));
    const values = condition => valuesOf(history, batch, condition, at, kindOf);
    return {
      isReached, isOpen, isDone: isEnded && batch.outcome === "Completed", said, values,
      standing: isReached ? batch.standing(at) : null, wait: isOpen ? batch.waitAt(at) : null,
      awaits: isOpen ? awaited.keys(batch, at) : new Set(),
      told: condition => recipes.told(condition, said), now: condition => nowOf(values(condition)),
      title: node => title(history, batch, node, at),
    };
  }
  // A step with its procedure and settings.
  function title(history, batch, node, at) {
    const tag = batch?.tagOf(node.role), set = history.settings(batch, { ...node, tag }, at);
    const procedure = words.say("procedureOf", node.procedure, `${node.service} @ ${tag ?? node.role}`);
    return words.visible([`${node.step}: ${procedure}`, ...set].join(", "));
  }
  // The variables of a condition, each with its value as it is said; null where none is known.
  function valuesOf(history, batch, condition, at, kindOf) {
    const tests = new Map([...recipes.tests(condition)].map(test => [`${test.role}.${test.test}`, test]));
    return [...tests].map(([key, test]) => {
      const value = history.modules.get(batch.tagOf(test.role))?.series.get(test.test)?.known(at) ?? NaN;
      const kind = kindOf(test), shown = kind === "BinView" ? String(Boolean(value)) : words.value(value, kind);
      return [key, Number.isNaN(value) ? null : shown];
    });
  }
  // The same short, beside a condition in the chart.
  function nowOf(values) {
    const told = values.map(([key, value]) => [key, words.say("nowIs", value ?? words.say("unreported"))]);
    return told.map(([key, text]) => (told.length === 1 ? text : `${key}: ${text}`));
  }
  return { place };
})();
