// What a reviewer has to give a word to in one batch: what was refused, left running, stopped, held or exchanged, what
// an operator commanded, lines at fault that name it, and what else went another way. Each is told once with all that
// belongs to it: a hold with its end, an exchange with the module's return. Knows nothing of how it is shown.
"use strict";
const deviations = (() => {
  // What is told of the reviewer's list as it stands there; the rest of that list is told here with what belongs to it.
  const PLAIN = new Set(["deskPermitted", "deskOdd", "deskUnknown", "leftAlarm", "notHeld", "openBatch"]);
  const ENDINGS = new Set(["stopAsked", "brokenBatch"]), CLOSINGS = new Set(["abnormal", "closedBatch"]);
  const HOLDS = new Set(["hold", "unhold"]), BY_HAND = { Hold: "hold", Pause: "pause" }, MOST_LINE = 200;
  const deviation = (at, text, more = [], isLoud = false) => ({ at, text, times: [at], more, isLoud });
  const alarmed = ({ at, key, values, style }, more = []) => deviation(at, words.say(key, ...values), more,
    style === "left");
  const cut = line => (line.length > MOST_LINE ? `${line.slice(0, MOST_LINE)} …` : line);
  // What was refused, denied or at fault and concerns the batch: the same line, of the same person, is told once.
  function refused({ found, history, own }) {
    const told = new Map();
    for (const at of [...own.refusals().values()].flat()) {
      const { asked, answered } = record.said(found, history, at), text = `${asked} → ${answered}`;
      const key = `${text} ${record.who(history, at)}`;
      if (told.has(key)) told.get(key).times.push(at); else told.set(key, deviation(at, text));
    }
    return [...told.values()];
  }
  // Lines at fault that are no event, and yet name the batch.
  function faulty({ found, history, own, batch }) {
    const name = JSON.stringify(batch.name), made = [];
    history.rules.forEach((rule, at) => {
      if (rule !== "bad" || own.fits(at, history.names[at], history.tags[at])) return;
      const [line] = found.raw(at);
      if (line.includes(name)) made.push(deviation(at, `${words.say("badNear")} ${words.visible(cut(line))}`));
    });
    for (const fault of found.faults) {
      const line = found.faultText(fault), place = `${fault.file}, ${words.say("atLine", words.number(fault.line))}`;
      if (line.includes(name)) {
        made.push(deviation(null, `${words.say("badNear")} ${words.visible(`${place}: ${cut(line)}`)}`));
      }
    }
    return made;
  }
  // Spans of a batch's services that aren't for its recipe, while the batch ran: held or paused, or in another mode;
  // each with where the last span before that isn't of these began.
  function* spansOf({ history, batch, end }, track, styles) {
    for (const tag of batch.tags) {
      for (const [service, own] of history.modules.get(tag)?.services ?? []) {
        let since = batch.started;
        for (let k = 0; k < own[track].length; k += 1) {
          const { from: begun, to, style, text } = own[track], from = begun[k];
          if (!styles.has(style[k])) since = from;
          else if (from > batch.started && from <= end) {
            yield { at: from, to: to[k], lane: own.lane, text: words.say("cameTo", service, tag, text[k]), tag, service,
              style: style[k], since };
          }
        }
      }
    }
  }
  // What a service came to by itself, one right behind another, is told together.
  function joined(reported) {
    const made = [];
    for (const each of reported) {
      const last = made[made.length - 1];
      if (last && last.lane === each.lane && last.to === each.at) Object.assign(last, { to: each.to }).more.push(each);
      else made.push({ ...each, more: [] });
    }
    return made.map(({ at, text, more }) => deviation(at, text, more));
  }
  // All commands to the batch's services while it ran: its own, and those that an operator was permitted.
  function commandsOf({ batch, found, history, end }) {
    const { at: entries, did: log } = batch.log;
    const own = log.map((did, k) => ({ ...did, at: entries[k], style: did.do === "hold" ? "hold" : "" }));
    const desk = history.desk.filter(at => at >= batch.started && at <= end && history.rules[at] === null);
    const byHand = desk.map(at => {
      const [{ tag, service, CommandOp }] = found.entry(at);
      return { at, tag, service, style: BY_HAND[words.command(CommandOp)] ?? "" };
    });
    return [...own, ...byHand].sort((one, two) => one.at - two.at);
  }
  // Where services held or paused, each with the entry of the command by which they did: the last one to the service,
  // if it was to do so and the service was reported in no other state since. Null where a service did so by itself.
  function reportedOf(context) {
    const commands = commandsOf(context);
    return [...spansOf(context, "state", new Set(["hold", "pause"]))].map(each => {
      const { at, tag, service, style, since } = each;
      const last = commands.findLast(own => own.at <= at && own.tag === tag && own.service === service);
      return { ...each, cause: last?.style === style && last.at >= since ? last.at : null };
    });
  }
  // A freeze with the holds and unholds that the batch asked for because of it.
  function freezeOf(batch, { from, to, holds }, next) {
    const asked = batch.log.at.filter((at, k) => at >= from && at < next && HOLDS.has(batch.log.did[k].do));
    return { from, to, holds, asked };
  }
  function frozen({ batch, found, history, reported }, { from, to, holds, asked }) {
    const said = at => record.said(found, history, at), over = to === null ? null : said(to);
    const more = [...asked.map(at => ({ at, text: said(at).answered })),
      ...reported.filter(({ cause }) => asked.includes(cause)),
      ...(over ? [{ at: to, text: to === batch.ended ? over.answered : over.asked }] : [])];
    return deviation(from, words.say(holds ? "frozenHolding" : "frozen", batch.name), more);
  }
  // Each freeze with its holds, what was reported by them, and its end. What a service did by itself is told alone.
  function held(context) {
    const { batch, end, reported } = context;
    const own = batch.freezes.map((each, k) => freezeOf(batch, each, batch.freezes[k + 1]?.from ?? end + 1));
    return [...own.map(each => frozen(context, each)), ...joined(reported.filter(({ cause }) => cause === null))];
  }
  function operated(context) {
    return [...spansOf(context, "mode", new Set(["mode"]))].map(({ at, text }) => deviation(at, text));
  }
  function exchanged({ history, own }) {
    return history.exchanges.filter(each => own.fits(each.begun, each.batch, each.tag)).map(each => {
      const { tag, begun, ended, before, after, how } = each, back = how === "ended" ? after : words.say(how);
      const more = ended === null ? [] : [{ at: ended, text: words.say("exchangeOver", tag) }];
      return deviation(begun, words.say("exchangedFor", tag, before ?? "–", back), more);
    });
  }
  // How the batch came to another end than its recipe's: from what began that on, each Stop that was asked for, where
  // its services came to, and its outcome.
  function ended({ batch, found, history, own }) {
    const alarms = own.alarms(), begun = alarms.filter(({ key }) => ENDINGS.has(key));
    const last = begun[begun.length - 1], closing = alarms.filter(({ key }) => CLOSINGS.has(key));
    const stops = batch.log.at.filter((_, k) => batch.log.did[k].do === "stop");
    const more = [...stops.map(at => ({ at, text: record.said(found, history, at).answered })),
      ...closing.filter(({ at }) => at > last?.at)
        .map(({ at, key, values }) => ({ at, text: words.say(key, ...values) }))];
    const alone = closing.filter(({ at }) => !(at > last?.at));
    return [...begun.map(each => alarmed(each, each === last ? more : [])), ...alone.map(each => alarmed(each))];
  }
  // What else stands in the reviewer's list of this batch, a command by hand with what was reported by it, and odd
  // stamps while it ran.
  function others({ batch, own, end, reported }) {
    const more = ({ key, at }) => (key === "deskPermitted" ? reported.filter(({ cause }) => cause === at) : []);
    const isHere = ({ key, at }) => PLAIN.has(key) || key.startsWith("audit")
      || (key.startsWith("stamps") && at >= batch.started && at <= end);
    return own.alarms().filter(isHere).map(each => alarmed(each, more(each)));
  }
  // All of a batch by their entries; what has none comes first.
  function of(batch, found, history) {
    const own = new choice.Choice(history);
    own.batch = batch.name;
    const context = { batch, found, history, own, end: batch.ended ?? history.stamps.length - 1 };
    context.reported = reportedOf(context);
    const told = [refused, faulty, held, operated, exchanged, ended, others].flatMap(each => each(context));
    for (const each of told) each.more.sort((one, two) => one.at - two.at);
    return told.sort((one, two) => (one.at ?? -1) - (two.at ?? -1));
  }
  return { of };
})();
