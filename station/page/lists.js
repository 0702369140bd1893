// What stands still and why, on top; what was refused and what to do; what happened last.
"use strict";
const lists = (() => {
  const { make, kept, button } = draw;
  // In milliseconds: a batch that waits for its service's next state stands still only after this.
  const PATIENCE = 5000;
  const LOUD = new Set(["restarted"]);
  // What runs on though it should not; and what is still to come.
  const STYLES = { left: "red", unheld: "red", near_history: "warning", near_batches: "warning",
    near_recipes: "warning" };
  const isStill = (each, now) => each.code !== "batch" || each.wait.wait !== "InState" || now - each.since > PATIENCE;
  // The states by which a service may have gone unseen.
  const way = each => (each.way?.length ? ` ${words.say("statesBetween", each.way.map(words.state).join(", "))}` : "");
  // Why something stands still: what happened, and what to look at.
  function why(each, live) {
    if (each.code !== "batch") return [heard(each, live), words.say(`look_${each.code}`, each) + way(each)];
    const batch = batchOf(each, live);
    if (!batch) return [heard(each, live), look(each.wait)];
    return [words.say("batchWaits", each.batch, charts.waited(batch, each.wait, live)),
      each.wait.wait === "Frozen" ? frozen(batch) : look(each.wait)];
  }
  const batchOf = (each, live) => live.batches.find(({ batch }) => batch === each.batch);
  function look(wait) {
    return words.wait(wait.wait, wait)?.look ?? words.say("denied" in wait ? "lookDenied" : "lookGone");
  }
  // The same without values, which would be read out anew whenever they change.
  function heard(each, live) {
    if (each.code !== "batch") return words.say(`alarm_${each.code}`, each);
    const batch = each.wait.wait === "Frozen" && batchOf(each, live);
    return words.say("batchWaits", each.batch, batch ? charts.waited(batch, each.wait, live) : words.answer(each.wait));
  }
  // How a batch that is held or frozen goes on, and what its services are in meanwhile.
  function frozen({ hold, steps }) {
    const isHeld = each => words.state(each.state) === "Held";
    const named = each => words.say("serviceOf", each.service, each.tag);
    const stated = each =>
      `${named(each)} (${each.state === null ? words.say("unreported") : words.state(each.state)})`;
    const listed = (key, list) => (list.length ? words.say(key, list.join(", ")) : "");
    const services = hold ? [listed("heldAlready", steps.filter(isHeld).map(named)),
      listed("notHeldYet", steps.filter(each => !isHeld(each)).map(stated))]
      : [listed("goesOnMeanwhile", steps.map(stated))];
    return [words.say(hold ? "lookHeld" : "lookFrozen"), ...(steps.length ? services : [words.say("noServiceRuns")])]
      .filter(each => each).join(" ");
  }
  const key = each => [each.code === "batch" ? "batch" : "alarm", each.batch, each.tag, each.service, each.variable,
    each.recipe, each.place, each.step, each.node, each.code].join(" ");
  const still = live => each => {
    const [what, more] = why(each, live);
    const deeds = (each.deeds ?? []).map(deed => button(words.say(`deed_${deed}`),
      { do: deed, tag: each.tag, service: each.service }, each.presses[deed], { loud: LOUD.has(deed), sure: true }));
    return make("div", { class: `alarm ${STYLES[each.code] ?? ""}`.trim(), "data-key": key(each) },
      make("p", {}, make("b", {}, what), make("span", { class: "faint", "data-since": each.since })),
      make("p", { class: "faint" }, more),
      deeds.length ? make("div", { class: "buttons", "data-key": "deeds" }, ...deeds) : null);
  };
  // A refusal with who asked for what, and what to do about it.
  function refused({ place, event, answer, by }) {
    const rule = answer.rule && words.rule(answer.rule, answer);
    const remedy = rule ? rule.remedy : words.say(answer.policy === undefined ? "deniedByNoneMore" : "deniedMore");
    return kept(`${place ?? ""} ${event.at} ${JSON.stringify(event)}`, answer, () => make("p", { class: "row" },
      make("span", { class: "no" }, `${words.event({ ...event, by })}: ${words.answer(answer)}. `),
      `${words.say("remedy")}: ${remedy.replace(/\.$/, "")}.`));
  }
  // The kind of a variable, by which its value is said.
  function kindIn(live, tag, name) {
    const module = live.modules.find(each => each.tag === tag);
    return module?.values.find(each => each.name === name)?.kind;
  }
  // An entry with its number, where it stands in the file that the plant has now.
  function last(live) {
    const said = ({ event, answer, by }) =>
      `${words.event({ ...event, by }, (tag, name) => kindIn(live, tag, name))} → ${words.answer(answer)}`;
    return each => kept(`entry ${each.place ?? JSON.stringify(each.event)}`, each, () =>
      make("p", { class: "row" }, each.place === null ? "" : `${each.place + 1}: `, said(each)));
  }
  const calm = said => make("p", { class: "faint" }, words.say(said));
  // For who doesn't see it: what stands still, told where that changed.
  function hear(text) {
    const place = document.getElementById("heard");
    if (place.textContent !== text) place.textContent = text;
  }
  function show(live, now) {
    const all = live.still.filter(each => isStill(each, now));
    draw.into("still-list", ...(all.length ? all.map(still(live)) : [calm("nothingStands")]));
    document.getElementById("still").classList.toggle("calm", all.length === 0);
    hear(all.map(each => heard(each, live)).join(". "));
    draw.into("refused-list", ...(live.refused.length ? live.refused.map(refused) : [calm("noRefusal")]));
    draw.into("last-list", ...live.last.slice().reverse().map(last(live)));
  }
  return { show };
})();
