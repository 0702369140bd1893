// What a record of one batch has: the runs of its steps with when each was asked for, ran and ended, and all that was
// done to the batch in order, with whose line it was and with the values of each decision. Believes the answers and
// decides nothing. Knows nothing of how it is shown.
"use strict";
const record = (() => {
  // By which entry of the log a run of a step is over.
  const OVER = new Set(["end", "stop", "left", "rest", "broke"]);
  // The runs of a batch's steps, in the order of their starts: from its start to what first ended it, by entries. A
  // loop may have begun a step several times.
  function runsOf(batch) {
    const made = [], open = new Map();
    batch.log.did.forEach((did, k) => {
      const at = batch.log.at[k], deed = runs.deedOf(did), run = open.get(did.step);
      if (deed === "start") {
        made.push({ ...did, from: at, to: null, how: "", state: null });
        open.set(did.step, made[made.length - 1]);
      }
      else if (run?.to === null && OVER.has(deed)) Object.assign(run, { to: at, how: deed, state: did.state ?? null });
    });
    // What an abandon leaves has no entry of its own.
    for (const { step, deed, state, isBefore } of batch.abandoned) {
      const run = open.get(step);
      if (run?.to === null) Object.assign(run, { to: batch.ended, how: deed, state, isBefore });
    }
    return made;
  }
  // From where to where a run's service was in Execute, by what was reported: entries, the second one null where no
  // other state was reported since. Null where it never was.
  function executed({ tag, service, from, to }, history) {
    const track = history.modules.get(tag)?.services.get(service)?.state, last = to ?? history.stamps.length - 1;
    let first = null, until = null;
    for (let k = Math.max(0, spans.below(track?.from ?? [], from)); k < (track?.length ?? 0); k += 1) {
      if (track.from[k] > last) break;
      if (track.style[k] !== "run" || track.from[k] < from) continue;
      first ??= track.from[k];
      until = track.to[k] < 0 ? null : track.to[k];
    }
    return first === null ? null : [first, until];
  }
  // The condition by which an entry of the log was decided, and the values that its variables had then.
  function decision(batch, history, at, did) {
    const place = stand.place(history, batch, at, batch.known), node = batch.known?.nodes[did.node];
    const finish = did.do === "finish" ? batch.known?.stepOf(did.step)?.finish : null;
    if (finish) return awaited.condition(place.told(finish), place.values(finish)).join(" · ");
    if (!node) return "";
    const told = recipes.conditions(node).map(place.told);
    return words.say("chartHas", told.length === 1 ? told[0] : told.map((each, arm) => `${arm}: ${each}`).join("; "));
  }
  // What a line asked for and became, without whose it is.
  function said(found, history, at) {
    const [event, answer] = found.entry(at), isDesk = event?.ev === "desk";
    const nameless = isDesk || !event ? event : { ...event, by: undefined };
    const asked = words.event(nameless, (tag, name) => history.kindAt(tag, name, at));
    return { asked, answered: history.answerTo(at, event, answer) };
  }
  // All that was done to a batch: its start, what each advance did, and what was asked of it. Waits and refusals
  // aren't.
  function deeds(batch, found, history) {
    const made = [], last = batch.ended ?? history.stamps.length - 1;
    for (let at = batch.started; at <= last; at += 1) {
      if (history.names[at] !== batch.name || history.rules[at] !== null) continue;
      const [event, answer] = found.entry(at), did = answer?.did, { asked, answered } = said(found, history, at);
      if (!answer || "wait" in answer) continue;
      const isDone = event.ev === "advance" || event.ev === "abandon";
      made.push({ at, text: isDone ? answered : asked, under: did ? decision(batch, history, at, did) : "" });
    }
    return made;
  }
  // The stamp of an entry as it stands in its line, in a column of stamps or among other words; and whose line it is.
  function stampAt(found, at, isAlone = false) {
    const stamp = found.entry(at)[0]?.at;
    if (stamp === undefined) return "–";
    return isAlone || words.isTime(stamp) ? words.stamp(stamp) : words.say("stampIs", words.stamp(stamp));
  }
  const who = (history, at) => (history.people.has(at) ? words.visible(history.people.get(at)) : words.say("notNamed"));
  return { runsOf, executed, deeds, said, stampAt, who };
})();
