// The tables beside the drawing: batches and their outcome, what a reviewer has to look at, refusals by rule, and what
// a batch waited for. All text goes in as text, never as markup. Knows nothing of files, and nothing of the drawing.
"use strict";
const tables = (() => {
  const MOST = 200, MOST_WAITS = 40;
  // An element with its attributes, or what is to be done when it is pressed, and what is in it.
  function make(name, attributes = {}, ...within) {
    const made = document.createElement(name);
    for (const [key, value] of Object.entries(attributes)) {
      if (key === "click") made.addEventListener("click", value);
      else if (key === "style") made.style.cssText = value;
      else if (value !== null) made.setAttribute(key, value);
    }
    made.append(...within.filter(each => each !== null && each !== undefined && each !== ""));
    return made;
  }
  const name = text => make("bdi", {}, words.visible(text));
  function jump(at, go) {
    const attributes = { class: "jump", type: "button", click: () => go(at), "aria-label": words.entryAt(at) };
    return make("button", attributes, words.entry(at));
  }
  const picked = (text, pick) => make("button", { class: "jump", type: "button", click: () => pick(text) }, name(text));
  const NUMBERS = new Set(["from", "to", "duration", "count", "size"]);
  function table(keys, rows, title) {
    const named = keys.map(key => make("th", { scope: "col", class: NUMBERS.has(key) ? "number" : null },
      words.say(key)));
    const head = make("thead", {}, make("tr", {}, ...named));
    return make("table", { "aria-label": words.say(title) }, head, make("tbody", {}, ...rows));
  }
  const calm = key => make("p", { class: "calm" }, words.say(key));
  const chip = style => make("i", { class: `chip ${style}`, "aria-hidden": "true" });
  const more = (count, columns) => make("tr", {}, make("td", { colspan: columns, class: "calm" },
    words.say("more", words.number(count))));
  const OUTCOMES = { Completed: "full", Broken: "abort", Stopped: "stop", Abandoned: "stop" };
  const number = text => make("td", { class: "number" }, text);
  const service = own => make("b", { class: "left block" }, words.left(own));
  function row(each, pick, bind, numbers, style, outcome, left = []) {
    return make("tr", {}, make("td", { class: "first" }, picked(each.name, pick)), make("td", {}, name(each.recipe)),
      make("td", { class: "wide" }, words.visible(bind)), ...numbers.map(number),
      make("td", { class: "outcome" }, chip(style), outcome, ...left.map(service)));
  }
  function batchRow(batch, history, pick) {
    const { stamps } = history, end = batch.ended ?? stamps.length - 1;
    const ended = batch.ended === null ? "…" : words.entry(batch.ended);
    const numbers = [words.entry(batch.started), ended, words.lasted(stamps[batch.started], stamps[end])];
    const outcome = batch.outcome ?? words.say(history.assumed ? "unknown" : "running");
    const style = OUTCOMES[batch.outcome] ?? (history.assumed ? "idle" : "hold");
    return row(batch, pick, words.played(batch), numbers, style, outcome, batch.left);
  }
  function neverRow(attempt, pick) {
    return row(attempt, pick, words.listed(attempt.bind), ["–", "–", ""], "hold", words.say("neverStarted"));
  }
  const BATCH_KEYS = ["batch", "recipe", "modulesOf", "from", "to", "duration", "outcome"];
  function batches(holder, chosen, pick) {
    const own = chosen.batches(), never = chosen.never();
    const rows = own.slice(0, MOST).map(batch => batchRow(batch, chosen.history, pick));
    rows.push(...never.slice(0, MOST).map(each => neverRow(each, pick)));
    const left = own.length + never.length - rows.length;
    if (left) rows.push(more(left, BATCH_KEYS.length));
    const none = calm(chosen.none("noBatch"));
    holder.replaceChildren(rows.length ? table(BATCH_KEYS, rows, "overview") : none);
  }
  function alarmRow(alarm, go, isHere) {
    return make("tr", isHere ? { "aria-current": "true", class: "here" } : {},
      make("td", { class: "where" }, jump(alarm.at, () => go(alarm))),
      make("td", {}, ...alarmTold(alarm)));
  }
  const alarmTold = ({ style, key, values, by }) => [chip(style),
    make(style === "left" ? "b" : "span", { class: style === "left" ? "left" : null },
      words.say(key, ...values) + (by === null ? "" : words.say("byWhom", by)))];
  // What a reviewer has to look at, around the one that is looked at.
  function alarms(holder, list, go, here, none) {
    if (!list.length) { holder.replaceChildren(calm(none)); return; }
    const first = here < MOST ? 0 : here - MOST / 2, shown = list.slice(first, first + MOST);
    const rows = shown.map((alarm, k) => alarmRow(alarm, go, first + k === here));
    if (first) rows.unshift(more(first, 2));
    if (first + MOST < list.length) rows.push(more(list.length - first - MOST, 2));
    holder.replaceChildren(table(["entry", "what"], rows, "reviewer"));
    if (here >= 0) show(holder, holder.querySelector(".here"));
  }
  // Scrolls a row into sight within its table, and leaves the page where it is.
  function show(holder, row) {
    const top = row.getBoundingClientRect().top - holder.getBoundingClientRect().top + holder.scrollTop;
    const isSeen = top >= holder.scrollTop && top + row.offsetHeight <= holder.scrollTop + holder.clientHeight;
    if (!isSeen) holder.scrollTop = top - holder.clientHeight / 2;
  }
  // Who asked for what was refused, as far as the journal says so: each with how often.
  function askers(places, { people }) {
    const times = new Map();
    for (const person of places.map(at => people.get(at)).filter(each => each !== undefined)) {
      times.set(person, (times.get(person) ?? 0) + 1);
    }
    const told = [...times].map(([person, count]) => (count === 1 ? person : `${person} (${words.number(count)})`));
    return told.length ? words.say("askedFor", told.join(", ")) : "";
  }
  // What is said below a rule that refused: when it holds, or what a policy's rule has; and who asked.
  function below(rule, places, history) {
    const own = history.policy.get(rule.slice("denied ".length)), isDenial = rule.startsWith("denied ") && own;
    return [words.refusedBy(rule).holds, isDenial ? words.ruleFor(own) : "", askers(places, history)]
      .filter(each => each);
  }
  function refusalRow(rule, places, go, current, history) {
    const own = words.refusedBy(rule), next = () => go(places[(spans.below(places, current()) + 1) % places.length]);
    const under = below(rule, places, history);
    return make("tr", {},
      make("td", { class: "rule" }, make("b", {}, own.name), make("span", { class: "small" }, ` ${own.more}`)),
      make("td", { class: "number" }, words.number(places.length)),
      make("td", { class: "remedy" }, own.remedy, ...under.map(text => make("span", { class: "small block" }, text))),
      make("td", { class: "where" }, jump(places[0], go),
        places.length > 1 ? make("button", { class: "jump", type: "button", click: next }, words.say("next")) : null));
  }
  function refusals(holder, chosen, go, current) {
    const found = [...chosen.refusals()].sort(([, one], [, two]) => two.length - one.length);
    const rows = found.map(([rule, places]) => refusalRow(rule, places, go, current, chosen.history));
    holder.replaceChildren(rows.length ? table(["rule", "count", "remedy", "place"], rows, "refusals")
      : calm(chosen.none("noRefusal")));
  }
  // How a recipe could be bound, or which roles have too few modules: as the job find says.
  const FINDER_KEYS = ["recipe", "bindable"];
  const named = list => (Array.isArray(list) ? list.join(", ") : "?");
  function finderRow({ recipe, bind, short, tags }) {
    const few = words.say(tags?.length === 0 ? "shortNone" : "shortOnly", named(short), named(tags));
    return make("tr", {}, make("td", { class: "first" }, name(recipe)),
      make("td", {}, chip(bind ? "full" : "hold"), bind ? words.visible(words.listed(bind)) : few));
  }
  function finder({ rows, bad }) {
    const own = rows.length ? table(FINDER_KEYS, rows.map(finderRow), "finder") : calm("finderNone");
    const told = bad === null ? words.say("finderCut") : bad ? words.say("finderBad", words.number(bad)) : null;
    return [own, told ? make("p", { class: "note" }, make("b", {}, told)) : null,
      make("p", { class: "small" }, words.say("finderMore"))];
  }
  function waitItem(reason, go, pick, stamps) {
    const isCounted = reason.times !== undefined, parts = [];
    if (isCounted) parts.push(words.many("Times", reason.times), words.many("Entries", reason.entries));
    if (isCounted && reason.lasted > 0) {
      parts.push(words.lasted(stamps[reason.first], stamps[reason.first] + reason.lasted));
    }
    const other = reason.other ? picked(reason.other, pick) : null;
    const look = reason.look ? `. ${words.say("lookAt")}: ${reason.look}` : "";
    const under = make("span", { class: "small block" }, parts.filter(each => each).join(" · ") + look);
    return make("li", {}, jump(reason.at, go), other, make("span", {}, reason.text), under);
  }
  function waits(holder, told, go, pick, stamps, none) {
    const items = told.slice(0, MOST_WAITS).map(each => waitItem(each, go, pick, stamps));
    holder.replaceChildren(items.length ? make("ul", {}, ...items) : calm(none));
  }
  // A branch at which a batch stands; what is to be looked at there is red.
  const branch = ({ text, warning }, style) => make("span", { class: style }, text, warning ? " · " : null,
    warning ? make("b", { class: "left" }, warning) : null);
  function stillItem({ name: batch, at, text, since, again, branches }, go, pick) {
    const under = make("span", { class: "small block" }, since, again ? " · " : null,
      again ? make("b", { class: "again" }, again) : null);
    const each = branches.map(own => branch(own, "small branch"));
    return make("li", {}, picked(batch, pick), jump(at, go), make("span", {}, text), under, ...each);
  }
  // What waits or stands still at the end, and by each batch where its branches stand.
  function still(holder, told, go, pick) {
    const items = told.slice(0, MOST).map(each => stillItem(each, go, pick)), left = told.length - items.length;
    if (left) items.push(make("li", { class: "calm" }, words.say("more", words.number(left))));
    holder.replaceChildren(make("ul", {}, ...items));
  }
  return { make, name, jump, table, more, NUMBERS, chip, calm, batches, alarms, alarmTold, refusals, below, branch,
    finder, waits, still, BATCH_KEYS, batchRow, neverRow };
})();
