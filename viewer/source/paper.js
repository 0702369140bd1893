// What is printed on A4: a page to sign, the lanes in pictures of a page's height at most, and chart and log of each
// batch. Takes what is chosen. Light always, and without the cursor. Knows nothing of the page on the screen but its
// panes.
"use strict";
const paper = (() => {
  const { make } = tables, MOST_BATCHES = 24, MOST_LOG = 60, ALONE = 4000, MOST_ROWS = 60, MOST_WAITS = 12;
  const SHEET = 850, WIDE = 690, SHARP = 3;
  // A table cut after so many rows, with how many are left. A row is a list of cells, or made already.
  function cut(keys, rows, title) {
    const cell = (text, k) => make("td", { class: tables.NUMBERS.has(keys[k]) ? "number" : null }, text);
    const shown = rows.slice(0, MOST_ROWS)
      .map(each => (Array.isArray(each) ? make("tr", {}, ...each.map(cell)) : each));
    if (rows.length > MOST_ROWS) shown.push(tables.more(rows.length - MOST_ROWS, keys.length));
    return tables.table(keys, shown, title);
  }
  const section = (key, ...within) => make("section", {}, make("h2", {}, words.say(key)), ...within);
  const grouped = sum => sum.replace(/(.{8})(?=.)/g, "$1 ");
  function files(found) {
    const rows = found.files.map(file => [tables.name(file.name), words.number(file.size),
      make("span", { class: "sum" }, file.sum ? grouped(file.sum) : words.say("signNoSum"))]);
    return section("signWhat", cut(["file", "size", "checksum"], rows, "signWhat"));
  }
  function span(found, history, isAll) {
    if (found.length === 0) return null;
    const counts = seal.counts(history).join(" · ");
    const ends = [found.entry(0)[0], found.entry(found.length - 1)[0]];
    const told = ends.map(event => (event?.at === undefined ? "–" : words.stamp(event.at))).join(" – ");
    return make("p", { class: "span" }, isAll ? counts : words.say("signAll", counts), make("br"),
      `${words.say("signSpan")}: ${told}`);
  }
  function desk(found, history, chosen) {
    const shown = history.desk.filter(at => chosen.fits(at, history.names[at], history.tags[at]));
    if (!shown.length) return section("signDesk", tables.calm(chosen.none("signNoDesk")));
    const rows = shown.map(at => {
      const [event, answer] = found.entry(at);
      const command = words.visible(`${words.command(event.CommandOp)}: ${event.service}, ${event.tag}`);
      const told = answer && "did" in answer ? words.say("permitted") : words.answer(answer);
      return [words.entry(at), words.stamp(event.at), record.who(history, at), command, told];
    });
    return section("signDesk", cut(["entry", "stamp", "who", "command", "answer"], rows, "signDesk"));
  }
  function exchanges(history, chosen) {
    const shown = history.exchanges.filter(each => chosen.fits(each.begun, each.batch, each.tag));
    if (!shown.length) return section("signExchanges", tables.calm(chosen.none("signNoExchange")));
    const rows = shown.map(({ begun, ended, tag, before, after, batch, how }) => {
      const place = words.entry(begun) + (ended === null ? "" : ` – ${words.entry(ended)}`);
      return [place, tag, before ?? "–", how === "ended" ? after : words.say(how), batch ?? "–"];
    });
    return section("signExchanges", cut(["entry", "module", "before", "after", "batch"], rows, "signExchanges"));
  }
  // Batches with their outcome, and why one still runs or never started.
  function batches(chosen) {
    const { history } = chosen, none = () => undefined, own = chosen.batches(), never = chosen.never();
    const rows = [...own.map(each => tables.batchRow(each, history, none)),
      ...never.map(each => tables.neverRow(each, none))];
    if (!rows.length) return section("overview", tables.calm(chosen.none("noBatch")));
    const running = reasons.still(chosen).map(({ name, text, since, again, branches }) =>
      [name, [text, since, again].filter(each => each).join(" · "), branches]);
    const why = [...running, ...never.map(each => [each.name, reasons.never(each, history).join(" "), []])];
    const told = ([name, text, branches]) => make("div", { class: "why" }, make("b", {}, words.visible(name)),
      `: ${text}`, ...branches.map(each => tables.branch(each, "branch")));
    return section("overview", cut(tables.BATCH_KEYS, rows, "overview"), ...why.slice(0, MOST_ROWS).map(told));
  }
  function refusals(chosen) {
    const found = [...chosen.refusals()].sort(([, one], [, two]) => two.length - one.length);
    if (!found.length) return section("refusals", tables.calm(chosen.none("noRefusal")));
    return section("refusals", cut(["rule", "count", "remedy", "place"], found.map(([rule, places]) => {
      const more = places.length > 6 ? ` … (${words.say("more", words.number(places.length - 6))})` : "";
      const { name, remedy, holds } = words.refusedBy(rule);
      const under = tables.below(rule, places, chosen.history).filter(each => each !== holds);
      return [name, words.number(places.length), [remedy, ...under].join(" · "),
        places.slice(0, 6).map(words.entry).join(", ") + more];
    }), "refusals"));
  }
  function alarms(chosen) {
    const list = chosen.alarms();
    if (!list.length) return section("reviewer", tables.calm(chosen.none("noAlarm")));
    return section("reviewer", cut(["entry", "what"], list.map(alarm => [words.entry(alarm.at),
      make("span", {}, ...tables.alarmTold(alarm))]), "reviewer"));
  }
  const finder = ({ finder: own }) => (own ? section("finder", ...tables.finder(own)) : null);
  // What is signed of a history; where the files have none, nothing of it is said.
  const signedOf = (found, history, chosen, verdict) => (found.length === 0 ? [] : [
    section("signVerdict", make("p", { class: `verdict ${verdict.style}` }, verdict.inWords)), batches(chosen),
    refusals(chosen), desk(found, history, chosen), exchanges(history, chosen), alarms(chosen)]);
  // What the files say of themselves that doesn't fit together.
  function doubts(found, history) {
    const all = seal.faults(found, history);
    const told = all.slice(0, MOST_ROWS).map(text => make("p", { class: "why" }, text));
    if (all.length > told.length) told.push(make("p", {}, words.say("more", words.number(all.length - told.length))));
    return told.length ? section("ofFiles", ...told) : null;
  }
  function signPage(found, history, chosen, verdict) {
    const only = chosen.isAll ? null : make("p", { class: "only" }, words.say("signOnly", chosen.told));
    const more = history.batches.size ? make("p", { class: "small" }, words.say("signMore")) : null;
    return make("article", { class: "sign" }, make("h1", {}, words.say("signTitle")), only,
      span(found, history, chosen.isAll), files(found), doubts(found, history),
      ...signedOf(found, history, chosen, verdict), finder(found), more, sheet.signatures(verdict), ...sheet.notes());
  }
  // The batch whose sheet is printed: where nothing but one batch is chosen, or the files tell of nothing else.
  function batchOf(found, chosen) {
    const own = chosen.batches(), isOne = own.length === 1 && chosen.never().length === 0;
    const isAlone = chosen.batch !== "" || found.finder === null;
    return isOne && isAlone && chosen.tag === "" && chosen.rule === "" ? own[0] : null;
  }
  function first(batch, found, history, chosen, verdict) {
    if (batch === null) return signPage(found, history, chosen, verdict);
    const own = make("div", {}, files(found), span(found, history, false));
    return sheet.fill(batch, { found, history, chosen, verdict, files: own, doubts: doubts(found, history) });
  }
  // On top of each page stand what is signed and the files with the front of their checksums: an own style, since a
  // text of CSS is the only one that each page has.
  const quoted = text => `"${text.replace(/[^\w .:-]/gu, sign => `\\${sign.codePointAt(0).toString(16)} `)}"`;
  function head(title, found) {
    const named = found.files.map(({ name, sum }) => `${name.slice(0, 40)} ${sum?.slice(0, 8) ?? ""}`).join(" · ");
    const style = new CSSStyleSheet({ media: "print" });
    style.replaceSync(`@page { @top-left { content: ${quoted(words.visible(title))}; }
      @top-right { content: ${quoted(words.visible(named).slice(0, 110))}; } }`);
    document.adoptedStyleSheets = [style];
  }
  // Pictures of as many lanes as a page takes, of the whole history.
  function sheets(pane) {
    const made = [], { lanes: shown } = pane;
    if (!pane.view || !shown.length) return made;
    const kept = [pane.width, pane.height, pane.hot], canvas = document.createElement("canvas");
    pane.layout(false);
    pane.width = WIDE; pane.hot = null;
    ruler.scale(canvas, pane.edge, WIDE, pane.view, SHARP);
    made.push(make("img", { class: "sheet ruler", src: canvas.toDataURL(), alt: "" }));
    for (let first = 0, k = 1; k <= shown.length; k += 1) {
      const foot = at => (at < shown.length ? pane.tops[at] : pane.total);
      if (k < shown.length && foot(k + 1) - pane.tops[first] <= SHEET) continue;
      pane.height = foot(k) - pane.tops[first];
      canvas.width = WIDE * SHARP; canvas.height = pane.height * SHARP;
      pane.paint(canvas, pane.tops[first], SHARP, true);
      made.push(make("img", { class: "sheet", src: canvas.toDataURL(), alt: "" }));
      first = k;
    }
    [pane.width, pane.height, pane.hot] = kept;
    pane.layout(lanes.isNarrow());
    return made;
  }
  // Chart and log of a batch; more of the log where the batch alone is chosen, and none of it where it has a sheet.
  function figure(batch, found, history, most) {
    const holder = make("div", { class: "drawn" }), { at } = batch.log, shown = at.slice(0, most);
    const end = batch.ended ?? history.stamps.length - 1, standing = stand.place(history, batch, end, batch.known);
    if (batch.known) here.drawn(holder, batch.known, standing);
    const told = each => history.answerTo(each, ...found.entry(each));
    const log = shown.map(each => make("li", { value: history.numbers[each] }, told(each)));
    const left = most ? at.length - log.length : 0, more = left ? words.say("signMoreLog", words.number(left)) : "";
    const list = make("ol", { class: "log" }, ...log), rest = make("p", { class: "small" }, more);
    return make("figure", {}, make("figcaption", {}, `${batch.name}: ${here.under(batch, standing)}`), holder,
      make("div", {}, list, rest, ...waits(batch, history)));
  }
  function waits(batch, history) {
    const told = reasons.waited(batch, history).slice(0, MOST_WAITS).map(({ text, times, entries }) => {
      const counted = times === undefined ? "" : ` (${words.many("Times", times)}, ${words.many("Entries", entries)})`;
      return make("li", {}, text + counted);
    });
    return told.length ? [make("h3", {}, words.say("waits")), make("ul", {}, ...told)] : [];
  }
  function figures(found, history, chosen, hasSheet) {
    const own = chosen.batches(), shown = own.slice(0, MOST_BATCHES), most = own.length === 1 ? ALONE : MOST_LOG;
    const made = shown.map(batch => figure(batch, found, history, hasSheet ? 0 : most));
    if (own.length > shown.length) {
      made.push(make("p", { class: "calm" }, words.say("signMoreBatches", words.number(own.length - shown.length))));
    }
    return made;
  }
  // Fills the place that only paper shows.
  function fill(holder, { found, history, chosen, panes, verdict }) {
    const pictures = [panes.batches, panes.modules].flatMap(pane => {
      const made = sheets(pane);
      return made.length ? [make("h2", {}, words.say(pane.name)), ...made] : [];
    });
    const batch = batchOf(found, chosen), own = figures(found, history, chosen, batch !== null);
    const more = batch ? [[...own, ...pictures]] : [pictures, own];
    const articles = more.filter(each => each.length).map(each => make("article", {}, ...each));
    holder.replaceChildren(first(batch, found, history, chosen, verdict), ...articles);
    head(words.say(...(batch ? ["sheetTitle", batch.name] : ["signTitle"])), found);
  }
  function empty(holder) {
    holder.replaceChildren();
    document.adoptedStyleSheets = [];
  }
  return { batchOf, fill, empty };
})();
