// The verdict of an audit, as it stands in a file, as a seal: good, or where it is wrong; and what else the files say
// of themselves that doesn't fit together. Checks nothing by itself. Knows nothing of the drawing.
"use strict";
const seal = (() => {
  const WHY = { Answer: "whyAnswer", TooMany: "whyTooMany", Line: "whyLine", Batch: "whyBatch", Tail: "whyTail" };
  const KNOWN = { Answer: true, TooMany: true, Tail: true };
  // Of which file a verdict is, short and as a sentence.
  function named(verdict, found) {
    const file = verdicts.file(verdict, found);
    return file ? [words.say("sealOf", file.name), words.say("namesFile", file.name, verdict.read.sha256)]
      : [words.say("sealMore"), words.say("namesNoFile")];
  }
  function good({ entries }, [more, sentence]) {
    const inWords = `${words.say("goodWords", words.number(entries), words.say("auditLacks"))} ${sentence}`;
    return { style: "good", short: `${words.say("auditGood")} · ${words.many("Entries", entries)}`,
      more: `${words.say("auditMeans")} (${more})`, inWords };
  }
  function bad(verdict, found, history, [of, sentence]) {
    const { place, says } = verdict, { what, name } = verdicts.wrong(verdict, found, history);
    const number = words.number(Number(place) + 1), isEntry = what === "Answer" || what === "TooMany";
    const why = words.say(Object.hasOwn(KNOWN, verdict.why) ? WHY[what] : "unlike", name);
    const where = isEntry ? words.say("entryOf", number, words.number(history.entries)) : words.say("atLine", number);
    const more = why + (says ? `; ${words.say("shouldBe", words.answer(says))}` : "");
    return { style: "bad", short: `${words.say("auditBad")} · ${where}`, more: `${more} (${of})`,
      inWords: `${words.say("auditBad")}, ${where}: ${more}. ${sentence}` };
  }
  // A verdict names another file by its checksum; so does what is said of a file that is as large.
  function otherSum({ bytes, sha256 }, { files }) {
    const same = files.find(({ size, sum }) => size === bytes && sum !== null);
    return words.say("otherSum", sha256, same ? words.say("otherSumHere", same.name, same.sum) : "");
  }
  // Why verdicts that came along aren't shown.
  function unlike(found, history) {
    const said = key => (key === "otherLength" ? value => words.many("Entries", value) : words.number);
    return verdicts.others(found, history).map(([key, ...values]) => (key === "otherSum" ? otherSum(values[0], found)
      : words.say(key, ...values.map(said(key)))));
  }
  function told(found, history) {
    const verdict = verdicts.own(found, history), missing = words.say("sealMissing");
    if (verdict?.audit === "good") return good(verdict, named(verdict, found));
    if (verdict) return bad(verdict, found, history, named(verdict, found));
    const more = [...unlike(found, history), missing][0];
    return { style: "none", short: words.say("notAudited"), more, inWords: more };
  }
  // How many of each there are, in words.
  function counts({ counts: own, entries, assumed, isBlind, batches, modules: tags }) {
    const told = [words.many("Entries", entries)];
    if (!isBlind) told.push(words.many("Batches", batches.size), words.many("Modules", tags.size));
    if (!assumed) told.push(words.many("Refused", own.refused));
    if (own.denied) told.push(words.many("Denied", own.denied));
    return own.bad ? [...told, words.many("Bad", own.bad)] : told;
  }
  // What is told of kept files: how many events they have, and where one is broken.
  const keptFiles = ({ files }) => files.filter(file => file.kept).flatMap(({ name, kept: own }) => {
    const { events, broken, begun } = own, isOperated = begun !== null;
    const key = isOperated ? "keptOperated" : events ? "kept" : "keptEmpty";
    const what = words.say(key, name, words.many("Events", events), begun), place = words.number(broken ?? 0);
    const cut = words.say(isOperated ? "operatedBroken" : "keptBroken", name, words.number(events), place);
    return [what, ...(broken === null ? [] : [cut])];
  });
  // An output ends with its end line; entries that an operated plant was asked for have none.
  function ended({ ends, isNamed }) {
    const asked = isNamed ? [words.say("entriesAsked")] : [];
    if (ends === 1 || (ends === 0 && isNamed)) return asked;
    return [...asked, words.say(ends ? "manyEnds" : "noEnd", ends)];
  }
  // How the files don't fit together: events without answers, answers without events, or not as many of each.
  function unpaired(found, { odd }) {
    const { events, answers, hasEvents, hasAnswers, files } = found;
    if (found.length === 0) return found.finder || found.verdicts.length || found.site ? [] : [words.say("nothing")];
    if (!hasAnswers) return [words.say(files.some(({ kept: own }) => own?.begun) ? "noAnswersKept" : "noAnswers")];
    const told = ended(found);
    if (!hasEvents) return [...told, words.say("noEvents")];
    if (events.length !== answers.length) told.push(words.say("pairing", events.length, answers.length));
    if (odd.length) told.push(words.say("oddAnswers", words.number(odd.length), words.entry(odd[0])));
    return told;
  }
  // Batch lines that say another outcome than the entries.
  function outcomes(found, history) {
    const told = line => history.batches.get(line.batch).outcome ?? "Running";
    return found.batches.filter(line => history.batches.has(line.batch) && told(line) !== line.outcome)
      .map(line => words.say("otherOutcome", line.batch, line.outcome, told(line)));
  }
  // What the files are where that isn't plain, what doesn't fit together, and lines at fault.
  function faults(found, history) {
    const lines = found.faults.map(({ file, line, why }) => words.say("faultLine", file, words.number(line),
      words.say(why)));
    return [...keptFiles(found), ...unpaired(found, history), ...(found.hasAnswers ? outcomes(found, history) : []),
      ...unlike(found, history), ...lines];
  }
  return { told, counts, faults };
})();
