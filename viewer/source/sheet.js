// The sheet to sign, of one batch: what it was and when, the files that tell it, its steps with their settings, what
// was done by whose line and by which values, each deviation with a place for a comment, and who signs for what. What
// the files don't say is a line to fill in. Knows nothing of the screen.
"use strict";
const sheet = (() => {
  const { make } = tables, MOST_ROWS = 4000, MOST_TIMES = 12;
  const blank = () => make("span", { class: "blank" }), wide = () => make("span", { class: "blank wide" });
  const section = (key, ...within) => make("section", {}, make("h2", {}, words.say(key)), ...within);
  const under = text => (text ? make("span", { class: "under" }, text) : null);
  // A table of rows; a long one is cut, and says so.
  function listed(key, style, keys, rows) {
    const shown = rows.slice(0, MOST_ROWS);
    if (rows.length > MOST_ROWS) shown.push(tables.more(rows.length - MOST_ROWS, keys.length));
    const table = tables.table(keys, shown, key);
    table.className = style;
    return table;
  }
  // What is said where nothing is there: without answers nobody knows.
  const none = ({ history }, key) => tables.calm(history.assumed ? "noAnswer" : key);
  const row = cells => make("tr", {}, ...cells.map(cell => make("td", {}, ...[cell].flat())));
  // An entry with its stamp and whose line it is.
  const parts = ({ found, history }, at) => [words.entryAt(at), record.stampAt(found, at),
    record.who(history, at)];
  const placed = (own, at) => parts(own, at).join(" · ");
  function given(own, at) {
    const [entry, stamp, who] = parts(own, at);
    return `${entry} · ${stamp} · ${words.say("givenBy", who)}`;
  }
  const block = (...within) => make("span", { class: "block" }, ...within);
  const moment = ({ found }, at) => block(words.entryAt(at), under(record.stampAt(found, at)));
  // What the batch was, as two columns.
  function facts(own) {
    const { batch, history } = own, { known, ended } = batch, { stamps, assumed } = history;
    const outcome = batch.outcome ?? words.say(assumed ? "unknown" : "running");
    const closed = ended === null ? words.say(assumed ? "unknown" : "notClosed") : given(own, ended);
    const sum = known?.sum ? make("span", { class: "sum" }, known.sum) : words.say(known ? "signNoSum" : "noRecipe");
    const left = batch.left.map(each => make("b", { class: "left block" }, words.left(each)));
    const rows = [
      ["batch", tables.name(batch.name)], ["recipe", tables.name(batch.recipe)],
      ["recipeSum", sum], ["recipeKnown", known ? given(own, known.at) : "–"], ["recipeVersion", blank()],
      ["outcome", make("b", {}, outcome), ...left],
      ["startedAt", given(own, batch.started)], ["closedAt", closed],
      ["duration", words.lasted(stamps[batch.started], stamps[ended ?? stamps.length - 1]) || "–"],
      ["modules", ...played(batch, history)],
    ];
    const fact = ([key, ...cells]) => make("tr", {}, make("th", { scope: "row" }, words.say(key)),
      make("td", {}, ...cells));
    const attributes = { class: "facts", "aria-label": words.say("sheetBatch") };
    return make("table", attributes, make("tbody", {}, ...rows.map(fact)));
  }
  // Each role with its module, as that was described when the batch started.
  function played(batch, history) {
    const line = watches => ([role, tag]) => {
      const dock = history.modules.get(tag)?.dockAt(batch.started), what = dock ? `${dock.type} ${dock.version}` : "–";
      return block(words.visible(`${role} = ${tag}: ${what}`) + (watches ? ` (${words.say("onlyWatched")})` : ""));
    };
    return [...Object.entries(batch.bind).map(line(false)), ...Object.entries(batch.watch).map(line(true))];
  }
  // By which program the answers were given: as its own word says that came along, else to be filled in.
  function build({ found: { build: own } }) {
    return make("p", { class: "why" }, `${words.say("program")}: `, own === null ? blank() : words.visible(own));
  }
  const HOW = { end: "howEnd", stop: "howStop", left: "howLeft", rest: "howRest", broke: "howBroke" };
  function over(own, run) {
    const { batch } = own, isOpen = batch.ended === null;
    if (run.to === null) return [words.say(isOpen ? "phase_on" : "howOpen")];
    const text = words.say(HOW[run.how], words.leftState(run));
    return [run.how === "left" ? make("b", { class: "left" }, text) : text, moment(own, run.to)];
  }
  function stepRow(own, run) {
    const { batch, history } = own, ran = record.executed(run, history), set = history.settings(batch, run, run.from);
    const until = ran?.[1] === null ? under(words.say("noOther")) : ran ? moment(own, ran[1]) : null;
    const service = [words.visible(`${run.service}, ${run.tag}`), under(words.say("procedureIs", run.procedure))];
    return row([tables.name(run.step), service, set.map(each => block(words.visible(each))), moment(own, run.from),
      ran ? [moment(own, ran[0]), until] : words.say("neverExecuted"), over(own, run)]);
  }
  function steps(own) {
    const rows = record.runsOf(own.batch).map(run => stepRow(own, run));
    const keys = ["step", "service", "settings", "startAsked", "inExecute", "stepOver"];
    return section("sheetSteps", rows.length ? listed("sheetSteps", "steps", keys, rows) : none(own, "noStep"));
  }
  function deeds(own) {
    const { batch, found, history } = own, keys = ["entry", "stamp", "lineBy", "what"];
    const rows = record.deeds(batch, found, history).map(({ at, text, under: more }) => row([words.entry(at),
      record.stampAt(found, at, true), record.who(history, at), [text, under(more)]]));
    return section("sheetDeeds", rows.length ? listed("sheetDeeds", "deeds", keys, rows) : none(own, "noStep"));
  }
  // All that a deviation has, each further part with its own entry, stamp and line.
  function told(own, { text, times, more, isLoud }) {
    const again = times.slice(1, MOST_TIMES).map(words.entry).join(", ");
    const left = times.length - MOST_TIMES, rest = left > 0 ? ` … (${words.say("more", words.number(left))})` : "";
    return [isLoud ? make("b", { class: "left" }, text) : text,
      again ? under(words.say("againAt", words.many("Times", times.length), again) + rest) : null,
      ...more.map(each => make("span", { class: "part" }, each.text, under(placed(own, each.at))))];
  }
  function deviationRow(own, each, number) {
    const { at } = each, { history } = own;
    const place = at === null ? [words.say("noEntry")] : [moment(own, at), under(record.who(history, at))];
    return make("tr", {}, make("td", {}, words.number(number + 1)), make("td", {}, ...place),
      make("td", {}, ...told(own, each).filter(part => part !== null)), make("td", { class: "comment" }));
  }
  function deviationsOf(own) {
    const { batch, found, history } = own, all = deviations.of(batch, found, history);
    const rows = all.map((each, k) => deviationRow(own, each, k)), keys = ["number", "placeOf", "what", "comment"];
    const further = make("div", { class: "why whole" }, words.say("furtherDeviations"), wide(), wide());
    const table = rows.length ? listed("sheetDeviations", "deviations", keys, rows) : none(own, "noDeviation");
    return section("sheetDeviations", table, further);
  }
  const MEANINGS = ["performed", "reviewed", "approved"];
  // Who signs, and what for.
  function signatures(verdict) {
    const meant = key => [make("b", {}, words.say(key)), under(words.say(`${key}More`))];
    const rows = MEANINGS.map(key => row([meant(key), "", "", ""]));
    const table = listed("signatures", "signatures", ["meaning", "signName", "signDate", "signed"], rows);
    const warning = { none: words.say("signUnaudited"), bad: verdict.inWords }[verdict.style];
    return make("section", { class: "whole" }, make("h2", {}, words.say("signatures")),
      warning ? make("p", { class: "only" }, warning) : null, table);
  }
  // Who printed it and when, and what the words on it mean.
  function notes() {
    const printed = make("p", { class: "why" }, `${words.say("printedAt")}: ${words.stamp(Date.now())} · `,
      `${words.say("printedBy")}: `, blank());
    const meant = ["stampsMean", "namesMean", "recipeMeans", "notProved"];
    return [printed, ...meant.map(key => make("p", { class: "small" }, words.say(key)))];
  }
  // All of it. Files and verdict are told as for every paper.
  function fill(batch, { found, history, verdict, files, doubts }) {
    const own = { batch, found, history };
    return make("article", { class: "sign" }, make("h1", {}, words.say("sheetTitle", batch.name)), facts(own), files,
      section("signVerdict", make("p", { class: `verdict ${verdict.style}` }, verdict.inWords), build(own)), doubts,
      steps(own), deeds(own), deviationsOf(own), signatures(verdict), ...notes());
  }
  return { fill, signatures, notes };
})();
