// Whose turn has come in a batch's chart and isn't through: in a parallel a node in each branch. Says of each what the
// chart has there and what was reported last, so that a reader sees every branch. Decides nothing: what a batch waits
// for is what was answered, and that names one node alone. Knows nothing of how it is shown.
"use strict";
const awaited = (() => {
  const ACTIVE = new Set(["on", "ending", "held"]), START = 4, COMPLETE = 1024, RESET = 2;
  // The nodes whose turn has come within a node, none where it is through: of a sequence the first that isn't through,
  // of a parallel each, of a selection its arm or itself, of a loop what is in it and then itself.
  function turns(node, known, standing) {
    const { passed, arms } = standing, number = known.numbers.get(node), within = each => turns(each, known, standing);
    if ("step" in node) return passed.has(node.step) ? [] : [node];
    if (node.seq) return node.seq.map(within).find(found => found.length > 0) ?? [];
    if (node.par) return node.par.flatMap(within);
    if (node.sel && passed.has(number)) return [node.sel[arms.get(number)]?.then].filter(each => each).flatMap(within);
    const found = node.loop && !passed.has(number) ? within(node.loop) : [];
    return found.length || passed.has(number) ? found : [node];
  }
  const phaseOf = (standing, node) => {
    const own = standing.steps.get(node.step);
    return own && ACTIVE.has(own.phase) ? own : { phase: "", completes: false };
  };
  // The nodes at which an open batch stands at an entry. One that is to stop goes by no chart any more; one that is
  // frozen begins nothing, but its active steps go on.
  function at(batch, cursor) {
    const standing = batch.standing(cursor), isFrozen = batch.waitAt(cursor)?.wait === "Frozen";
    if (!batch.known || standing.isStopping) return [];
    const found = turns(batch.known.chart, batch.known, standing);
    return isFrozen ? found.filter(node => "step" in node && phaseOf(standing, node).phase !== "") : found;
  }
  // Those for which it waits, by step and number. Where the answer names a step that was held, that is to be unheld
  // first, and the others come later.
  function keys(batch, cursor) {
    const wait = batch.waitAt(cursor), standing = batch.standing(cursor);
    if (wait === null || wait.wait === "Frozen") return new Set();
    const found = at(batch, cursor), held = found.filter(node => phaseOf(standing, node).phase === "held");
    const own = held.some(({ step }) => step === wait.step) ? held : found;
    return new Set(own.map(node => node.step ?? batch.known.numbers.get(node)));
  }
  // What was reported last of a step's service, in words.
  function reported(tag, service, module, cursor) {
    const span = module?.hold.span(cursor) ?? -1;
    if (span >= 0 && module.hold.style[span] === "away") return words.say("isAway", tag);
    const { state, mode } = module?.services.get(service)?.last(cursor) ?? { state: null };
    if (state === null) return words.say("notReported", service, tag);
    return words.say("lastReported", service, tag, mode ? `${state}, ${mode}` : state);
  }
  // The command that the chart has for a step next, where the last report fits it but doesn't enable it.
  function lacking(node, own, last) {
    const next = own.phase === "" ? ["Idle", START] : last.state === "Completed" ? ["Completed", RESET]
      : own.phase === "on" && node.finish && !own.completes ? ["Execute", COMPLETE] : null;
    const isLacking = next !== null && own.phase !== "ending" && last.state === next[0] && !(last.mask & next[1]);
    return isLacking ? words.say("notEnabled", words.command(next[1])) : "";
  }
  function condition(told, values) {
    const last = ([read, value]) => words.say(value === null ? "noValue" : "lastValue", read, value ?? "");
    return [words.say("chartHas", told), ...values.map(last)];
  }
  function ofStep(node, batch, history, cursor, place) {
    const own = phaseOf(batch.standing(cursor), node), tag = batch.tagOf(node.role), module = history.modules.get(tag);
    const last = module?.services.get(node.service)?.last(cursor) ?? { state: null };
    const phase = words.say(own.completes && own.phase === "on" ? "phase_finish" : `phase_${own.phase}`);
    const isRead = node.finish && own.phase === "on" && !own.completes;
    const read = isRead ? condition(place.told(node.finish), place.values(node.finish)) : [];
    const isMissed = batch.missed?.has(node.step) || batch.unheld?.some(each => each.step === node.step);
    const isUnheld = batch.frozen && own.phase === "on" && isMissed;
    return { parts: [`${node.step}: ${phase}`, reported(tag, node.service, module, cursor), ...read,
      lacking(node, own, last)], warning: isUnheld ? words.say("unheld") : "" };
  }
  function ofNode(node, number, place) {
    const conditions = recipes.conditions(node), told = conditions.map(place.told);
    const values = new Map(conditions.flatMap(place.values));
    const text = told.length === 1 ? told[0] : told.map((each, arm) => `${arm}: ${each}`).join("; ");
    const parts = [words.say(node.sel ? "armOpen" : "loopOpen", number), ...condition(text, [...values])];
    return { parts, warning: "" };
  }
  // A line for each node at which the batch stands, and what is to be looked at there. A place says how conditions and
  // values are said there.
  function told(batch, history, cursor, place) {
    return at(batch, cursor).map(node => {
      const { parts, warning } = "step" in node ? ofStep(node, batch, history, cursor, place)
        : ofNode(node, batch.known.numbers.get(node), place);
      return { text: words.visible(parts.filter(part => part).join(" · ")), warning };
    });
  }
  return { at, keys, told, condition };
})();
