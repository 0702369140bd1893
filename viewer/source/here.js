// What the cursor's entry says and what was answered, in plain words, with the rule or the wait behind it and the lines
// themselves; and the chart of the batch that it speaks of. Knows nothing of the drawing over time.
"use strict";
const here = (() => {
  const { make } = tables;
  const isRefused = answer => Boolean(answer) && ["refused", "bad", "denied"].some(key => key in answer);
  const note = (key, text) => (text ? make("p", { class: "note" }, make("b", {}, `${words.say(key)}: `), text) : null);
  // The docs' words behind an answer.
  function behind(event, answer) {
    if (!answer) return [];
    if ("refused" in answer) {
      const rule = words.rule(answer.rule, answer);
      return rule ? [note("holdsWhere", rule.holds), note("remedy", rule.remedy)]
        : [make("p", { class: "note" }, words.say("noWords"))];
    }
    if ("bad" in answer) return [make("p", { class: "note" }, words.say("badLine"))];
    if ("denied" in answer) {
      return [make("p", { class: "note" }, words.say(answer.policy === undefined ? "deniedByNoneMore" : "deniedMore"))];
    }
    if ("wait" in answer) {
      const wait = words.wait(answer.wait, answer), forbid = answer.by ? words.word("forbids", answer.by) : null;
      return [note("waitsFor", wait?.for), note("lookAt", wait?.look),
        forbid ? note("holdsWhere", `${answer.by}: ${forbid}`) : null];
    }
    return [make("p", { class: "note" }, words.word("does", event?.hold === true ? "freezeHolding" : event?.ev) ?? "")];
  }
  // An answer without more is said with the words of the event's row in the docs.
  function said(history, at, event, answer) {
    const own = words.word("events", event?.ev), row = own && answer && !isRefused(answer) ? docs.events[event.ev] : "";
    if (row.startsWith("done") && "done" in answer) return own;
    if (row.startsWith("the ticket") && "ticket" in answer) {
      return own.replace(/^[^;]*/, words.say("ticket", answer.ticket));
    }
    return history.answerTo(at, event, answer);
  }
  // How the entry's module stands at the cursor.
  function moduleLine(history, at, tag) {
    const module = history.modules.get(tag), dock = module?.dockAt(at);
    if (!module || !dock) return null;
    const span = module.hold.span(at), parts = [`${dock.type} ${dock.version}`];
    const style = span < 0 ? "unplugged" : module.hold.style[span];
    parts.push(style === "held" ? words.say("heldBy", module.hold.text[span]) : words.say(style));
    const watchers = module.watch.textAt(at);
    if (watchers) parts.push(words.say("watchedBy", watchers));
    return make("p", { class: "note" }, words.say("moduleNow", tag, parts.join(", ")));
  }
  function entry(holder, found, history, view) {
    const at = view.cursor, [event, answer] = found.entry(at), stamp = event?.at;
    const number = history.placed(at).entry, place = [number
      ? words.say("entryOf", words.number(number), words.number(history.entries))
      : words.say("answerOf", words.number(at + 1), words.number(view.count)),
      words.say("atLine", words.number(found.line(at)))];
    if (stamp !== undefined) place.push(words.stamp(stamp));
    const kindOf = (tag, name) => history.kindAt(tag, name, at);
    const parts = [
      make("p", { class: "small" }, place.join(" · ")), make("bdi", { class: "event" }, words.event(event, kindOf)),
      make("bdi", { class: `answer${isRefused(answer) ? " no" : ""}` }, `→ ${said(history, at, event, answer)}`),
      ...behind(event, answer), moduleLine(history, at, event?.tag),
      make("details", {}, make("summary", {}, words.say("line")),
        make("code", { dir: "ltr" }, found.raw(at).map(words.visible).join("\n"))),
    ];
    holder.replaceChildren(...parts.filter(part => part !== null));
  }
  // The batch that an entry speaks of, or that holds its module then; else null.
  function batchOf(found, history, at) {
    const name = history.names[at], hold = history.modules.get(history.tags[at])?.hold, span = hold?.span(at) ?? -1;
    return name ?? (span >= 0 && hold.style[span] === "held" ? hold.text[span] : null);
  }
  // A forged chart may have any form; then the place says so.
  function drawn(holder, known, standing) {
    try { chart.draw(holder, known, standing); } catch { holder.replaceChildren(words.say("unlike")); }
  }
  function under(batch, standing) {
    const parts = [batch.recipe, words.played(batch)];
    if (standing.isReached) parts.push(standing.isOpen ? standing.wait && words.answer(standing.wait) : batch.outcome);
    const phaseOf = step => standing.standing?.steps.get(step)?.phase;
    parts.push(...batch.left.filter(({ step }) => phaseOf(step) === "left").map(words.left));
    return parts.filter(each => each).join(" · ");
  }
  return { entry, batchOf, drawn, under, isRefused };
})();
