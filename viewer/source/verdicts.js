// Which verdict of an audit is shown. That of the job attest tells the size and the checksum of the file that it is
// of, and is shown for that file alone. The line of the job audit names no file, so it counts where it can be of the
// history that the files hold: a good one tells a number of entries; a bad one a place, and for a wrong answer what it
// should be. Believes the verdict and checks nothing else. Knows nothing of how it is shown.
"use strict";
const verdicts = (() => {
  const sameAnswer = (one, two) => JSON.stringify(sorted(one)) === JSON.stringify(sorted(two));
  // With the keys of each object in one order, whatever the line's.
  function sorted(value) {
    if (typeof value === "bigint") return String(value);
    if (Array.isArray(value)) return value.map(sorted);
    if (typeof value !== "object" || value === null) return value;
    return Object.fromEntries(Object.keys(value).sort().map(key => [key, sorted(value[key])]));
  }
  // The file that a verdict tells it is of, where it stands here and all entries do.
  function file({ read }, found) {
    const at = found.files.findIndex(({ size, sum }) => sum !== null && sum === read?.sha256 && size === read.bytes);
    return at >= 0 && found.lead.length === 0 && found.whole.file.every(each => each === at) ? found.files[at] : null;
  }
  // Are there lines that an audit takes as no entries, so that the audited file was another one?
  const isOperated = (found, { people, counts }) => found.policy !== null || found.opened !== null || found.isNamed
    || found.questions.size > 0 || people.size > 0 || counts.denied > 0;
  // What a bad verdict finds wrong, by the line at its place: an answer, too many entries, a line that is no entry, the
  // line of a batch, or another one behind the entries. Where lines at fault are among them, none is named.
  function wrong({ why, place }, found, { entries }) {
    if (why !== "Tail") return { what: why === "TooMany" ? why : "Answer", name: null };
    if (place < entries) return { what: "Line", name: null };
    const name = found.faults.length ? undefined : found.batches[place - entries]?.batch;
    return typeof name === "string" ? { what: "Batch", name } : { what: "Tail", name: null };
  }
  // Why a verdict can't be of these files, as a key of the labels with its values; null where it can.
  function doubt(verdict, found, history) {
    const { entries } = history, place = Number(verdict.place);
    if (verdict.read && file(verdict, found) === null) return ["otherSum", verdict.read];
    if (found.length && !(found.hasAnswers && found.hasEvents)) return ["otherKind"];
    if (!verdict.read && isOperated(found, history)) return ["otherLines"];
    if (verdict.audit === "good" && Number.isInteger(verdict.entries)) {
      return verdict.entries === entries ? null : ["otherLength", verdict.entries, entries];
    }
    if (verdict.audit !== "bad" || !Number.isInteger(place) || place < 0) return ["otherVerdict"];
    const lines = entries + found.batches.length + found.faults.length + 1;
    const isBehind = verdict.why === "Tail" ? place > lines : place >= entries;
    if (isBehind) return ["otherPlace", place + 1, entries];
    const isSame = verdict.why === "Answer" && sameAnswer(found.entry(history.own[place])[1], verdict.says);
    return isSame ? ["otherAnswer", place + 1] : null;
  }
  // The verdict that is shown: a bad one before a good one.
  function own(found, history) {
    const fitting = found.verdicts.filter(each => doubt(each, found, history) === null);
    return fitting.find(each => each.audit === "bad") ?? fitting[0] ?? null;
  }
  // Why each of the others isn't.
  const others = (found, history) => found.verdicts.map(each => doubt(each, found, history))
    .filter(each => each !== null);
  return { own, others, file, wrong };
})();
