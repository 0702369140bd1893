// Why a batch waited, why it began when it did, and why one never started: in words, as far as the files tell. Knows
// nothing of how they are shown.
"use strict";
const reasons = (() => {
  // By whom its modules were held before a batch started, where it was to start by then: a plant tries each from the
  // beginning on, and in a journal a start was refused before.
  function before(batch, { isOfPlant, attempts }) {
    const tried = isOfPlant ? 0 : attempts.get(batch.name)?.first ?? Infinity;
    return batch.before.filter(({ to }) => to >= tried);
  }
  // What stood in a batch's way before it started, and what it waited for since: a sentence each, with where it was
  // first.
  function waited(batch, history) {
    const told = [];
    for (const { tag, batch: other, from, to } of before(batch, history)) {
      const text = words.say("beforeStart", tag, other, words.entry(from), words.entry(to));
      told.push({ text, at: from, other });
    }
    for (const each of batch.waited(history)) {
      told.push({ ...each, text: words.answer(each.answer), at: each.first,
        look: words.wait(each.answer.wait, each.answer)?.look });
    }
    return told;
  }
  // The first thing that stands in a listed batch's way once the history ends.
  function atEnd(bind, history) {
    const end = history.stamps.length - 1, told = [];
    for (const tag of Object.values(bind)) {
      const module = history.modules.get(tag);
      if (!module || (!module.there && module.hold.isOpen() === false)) told.push(words.say("atEndMissing", tag));
      else if (!module.there) told.push(words.say("atEndAway", tag));
      else if (module.holder !== null) told.push(words.say("atEndHeld", tag, module.holder));
      else told.push(...unready(module, end));
    }
    return told;
  }
  function unready(module, end) {
    const told = [];
    for (const [name, service] of module.services) {
      if (service.state.span(end) < 0) continue;
      if (service.code === null) told.push(words.say("atEndSilent", name, module.tag));
      else if (words.state(service.code) !== "Idle") {
        told.push(words.say("atEndNotIdle", name, module.tag, words.state(service.code)));
      }
    }
    return told;
  }
  // Why a batch never started.
  function never(attempt, history) {
    const told = [...attempt.why.values()].map(({ answer, times }) => {
      const remedy = words.rule(answer.rule, answer)?.remedy;
      return words.say("startRefused", words.many("Times", times), words.refusal(answer))
        + (remedy ? `. ${words.say("remedy")}: ${remedy}.` : "");
    });
    return [...(told.length ? told : [words.say("noStart")]), ...atEnd(attempt.bind, history)];
  }
  // Where each open batch stands once the history ends: what it waits for, or what it did last; since when; where
  // asking once more may give another answer, when it was asked last; and each branch that isn't through. Without
  // answers nobody knows.
  const still = chosen => (chosen.history.assumed ? []
    : chosen.batches().filter(batch => batch.outcome === null).map(batch => standing(batch, chosen.history)));
  function standing(batch, history) {
    const at = batch.since, stamp = history.stamps[at], { did } = batch.log;
    const wait = batch.waitAt(history.stamps.length - 1), last = did[did.length - 1];
    const done = last ? words.answer({ did: last }) : words.say("started");
    const end = history.stamps.length - 1;
    return { name: batch.name, at, text: wait ? words.answer(wait) : words.say("lastDid", done),
      since: words.say("since", words.entry(at), Number.isNaN(stamp) ? "" : ` (${words.stamp(stamp)})`),
      again: batch.isToAsk ? again(batch) : "",
      branches: awaited.told(batch, history, end, stand.place(history, batch, end, batch.known)) };
  }
  function again({ asked, heard }) {
    if (asked === null) return words.say("askFirst");
    const entry = words.entry(asked);
    return heard ? words.say("askAgain", entry, words.many("Reports", heard)) : words.say("askOn", entry);
  }
  return { waited, never, still };
})();
