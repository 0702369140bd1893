// From files to entries: tells the kind of each line, pairs a journal with its answers, and keeps of each line its
// place in its file, so that it is read again when it is shown. Lines at fault are kept with their number. Gives way to
// the browser between slices. Knows nothing of plants, and nothing of drawing.
"use strict";
const lines = (() => {
  const SLICE = 5000;
  // What the words --version are answered, as a package has it in a file too: names and what they are, a line each.
  const VERSION = /^(?:version +\S[^\n]*\n)?commit +\S[^\n]*\nkit +\S[^\n]*\nprogram +\S[^\n]*\n/;
  function versionIn(text) {
    const told = VERSION.exec(text)?.[0].trimEnd().split("\n");
    return told ? told.map(line => line.replace(/ +/, " ")).join(" · ") : null;
  }
  const ANSWERS = ["done", "ticket", "did", "wait", "closed", "refused", "bad", "denied"];
  // What an operated plant tells of itself, and changes nothing by.
  const TOLD = ["would", "plant", "bindings", "entries"];
  const isObject = value => typeof value === "object" && value !== null && !Array.isArray(value);
  function parsed(text) { try { return JSON.parse(text); } catch { return undefined; } }
  // Whole numbers that a browser can't hold are read by their digits, as whole numbers of any size.
  const LARGE = /"(?:[^"\\]|\\.)*"|(?<![\d.eE+-])-?\d{16,}(?![\d.eE])/g;
  const isLarge = value => isObject(value) && /^-?\d+$/.test(value.digits ?? "") && Object.keys(value).length === 1;
  function exact(text) {
    const plain = parsed(text);
    if (plain === undefined || !/\d{16}/.test(text)) return plain;
    const told = text.replace(LARGE, found => (found.startsWith('"') ? found : `{"digits":"${found}"}`));
    return JSON.parse(told, (_, value) => (isLarge(value) ? whole(value.digits) : value));
  }
  const whole = digits => (Number.isSafeInteger(Number(digits)) ? Number(digits) : BigInt(digits));
  function kindOf(value) {
    if (!isObject(value)) return "fault";
    if (isObject(value.event) && isObject(value.answer)) return "entry";
    if ("ev" in value) return "event";
    if ("audit" in value) return "verdict";
    if ("sha256" in value && "bytes" in value) return "read";
    if (value.end === true) return "end";
    if ("answers" in value) return "summary";
    if (Array.isArray(value.log) && "outcome" in value) return "batch";
    if (Array.isArray(value.modules) && Array.isArray(value.batches)) return "site";
    if (Array.isArray(value.groups) && Array.isArray(value.rules)) return "policy";
    if ("ask" in value) return "question";
    if (TOLD.some(key => key in value)) return "told";
    if ("kept" in value && "sum" in value) return "opened";
    if ("recipe" in value && (isObject(value.bind) || Array.isArray(value.short))) return "binding";
    return ANSWERS.some(key => key in value) ? "answer" : "fault";
  }
  const OUTPUT = new Set(["answer", "batch", "binding", "end", "verdict", "read", "opened"]);
  // Where the objects of a list stand in a line: from where to where each. A line that isn't JSON was told before.
  function membersOf(text, from, to) {
    const found = [];
    let depth = 0, begun = 0, isText = false;
    for (let at = from; at < to; at += 1) {
      const sign = text[at];
      if (sign === '"') isText = !isText;
      else if (isText) at += sign === "\\" ? 1 : 0;
      else if (sign === "{" || sign === "[") {
        if (sign === "{" && depth === 2) begun = at;
        depth += 1;
      } else if (sign === "}" || sign === "]") {
        depth -= 1;
        if (sign === "}" && depth === 2) found.push([begun, at + 1]);
      }
    }
    return found;
  }
  // Columns of places: an entry's event and its answer stand in a file from one sign to another, in a line.
  class Places {
    constructor() { Object.assign(this, { file: [], from: [], to: [], line: [] }); }
    get length() { return this.file.length; }
    put(file, from, to, line) { this.file.push(file); this.from.push(from); this.to.push(to); this.line.push(line); }
    insert(k, place) { [this.file, this.from, this.to, this.line].forEach((list, n) => list.splice(k, 0, place[n])); }
    // Those that aren't at these indices.
    without(indices) {
      const rest = new Places();
      for (let k = 0; k < this.length; k += 1) {
        if (!indices.has(k)) rest.put(this.file[k], this.from[k], this.to[k], this.line[k]);
      }
      return rest;
    }
    raw(files, k) { return files[this.file[k]].text.slice(this.from[k], this.to[k]); }
  }
  // What was found in the files. Entries are either whole lines, or an event's line and its answer's; where no event
  // came along, the answers alone. A finder is what the job find says: a row for each recipe, and how many lines of its
  // journal were at fault.
  class Found {
    constructor(files) {
      Object.assign(this, { files, whole: new Places(), events: new Places(), answers: new Places(), batches: [],
        questions: new Set(), told: new Set(), lists: [], isNamed: false, faults: [], verdicts: [],
        policy: null, opened: null, finder: null, site: null, build: null, ends: 0 });
    }
    get length() { return this.whole.length + this.lead.length; }
    get hasAnswers() { return this.whole.length > 0 || this.answers.length > 0; }
    get hasEvents() { return this.whole.length > 0 || this.events.length > 0; }
    get lead() { return this.events.length ? this.events : this.answers; }
    // The event and the answer of an entry. An event is null where its line is none, and undefined where it didn't come
    // along.
    entry(k) {
      if (k < this.whole.length) {
        const { event, by, answer } = exact(this.whole.raw(this.files, k));
        return [typeof by === "string" ? { ...event, by } : event, answer];
      }
      const own = k - this.whole.length;
      const answer = own < this.answers.length ? exact(this.answers.raw(this.files, own)) : null;
      if (own >= this.events.length) return [undefined, answer];
      const event = exact(this.events.raw(this.files, own));
      return [kindOf(event) === "event" ? event : null, answer];
    }
    // The lines of an entry as they stand in the files.
    raw(k) {
      if (k < this.whole.length) return [this.whole.raw(this.files, k)];
      const own = k - this.whole.length;
      return [this.events, this.answers].filter(each => own < each.length).map(each => each.raw(this.files, own));
    }
    // The number of an entry's first line, and the name of its file.
    line(k) { return k < this.whole.length ? this.whole.line[k] : this.lead.line[k - this.whole.length]; }
    fileOf(k) {
      return this.files[k < this.whole.length ? this.whole.file[k] : this.lead.file[k - this.whole.length]].name;
    }
    fault(file, line, why, from, to) {
      this.faults.push({ file: this.files[file].name, line, why, place: [file, from, to] });
    }
    // The line at fault as it stands in its file; nothing where the file couldn't be read.
    faultText({ place }) {
      const [file, from, to] = place ?? [];
      return place ? this.files[file].text.slice(from, to) : "";
    }
    // Questions are no events, and what they are told is no answer. They go by pairs where all answers came along, as a
    // question at fault is told its fault.
    unask() {
      if (this.questions.size + this.told.size === 0) return;
      const inPairs = this.questions.size > 0 && this.answers.length === this.events.length;
      this.answers = this.answers.without(inPairs ? this.questions : this.told);
      this.events = this.events.without(this.questions);
    }
    // The entries that an operated plant was asked for, where they are all that is known of its events.
    asked() {
      if (this.events.length) return;
      for (const [file, from, to, line] of this.lists) {
        const { text } = this.files[file];
        for (const [begun, end] of membersOf(text, from, to)) {
          const isEntry = kindOf(parsed(text.slice(begun, end))) === "entry";
          if (isEntry) this.whole.put(file, begun, end, line);
          else this.fault(file, line, "unknownForm", begun, end);
        }
        this.isNamed = true;
      }
    }
    // A policy is no event and has no answer. Where there is an answer more than events, it was read as an event, as a
    // replay does.
    settle() {
      this.unask();
      this.asked();
      if (this.policy === null || this.answers.length !== this.events.length + 1) return;
      this.events.insert(this.policy.before, this.policy.place);
      this.policy = null;
    }
    // The rules of the policy by their names.
    get rules() {
      if (this.policy === null) return new Map();
      const [file, from, to] = this.policy.place, { rules } = parsed(this.files[file].text.slice(from, to));
      return new Map(rules.filter(isObject).map(rule => [rule.name, rule]));
    }
    bound(row) {
      this.finder ??= { rows: [], bad: null };
      if (kindOf(row) === "binding") this.finder.rows.push(row); else this.finder.bad = row.bad;
    }
  }
  // Does a file begin as a journal? Lines at fault don't tell; where no line tells, it is one if it came with another
  // file.
  function isJournal(text, alone) {
    for (let from = 0; from < text.length;) {
      const to = lineEnd(text, from), kind = kindOf(parsed(text.slice(from, to)));
      if (kind !== "fault") return kind === "event" || kind === "policy";
      from = to + 1;
    }
    return !alone;
  }
  function lineEnd(text, from) { const to = text.indexOf("\n", from); return to < 0 ? text.length : to; }
  const isBlank = code => code === 32 || code === 9 || code === 13;
  // The line without blanks around it: from where to where.
  function trimmed(text, from, to) {
    while (from < to && isBlank(text.charCodeAt(from))) from += 1;
    while (to > from && isBlank(text.charCodeAt(to - 1))) to -= 1;
    return [from, to];
  }
  // Puts a line where it belongs. In a journal each line that isn't blank has an answer, also one that is no event.
  function sort(found, file, from, to, line, journal) {
    const value = parsed(found.files[file].text.slice(from, to)), kind = kindOf(value);
    const isPolicy = journal.on && kind === "policy" && !journal.begun;
    journal.begun = true;
    if (journal.on && journal.alone && OUTPUT.has(kind)) journal.on = false;
    if (kind === "site") found.site = value;
    else if (isPolicy) found.policy = { before: found.events.length, place: [file, from, to, line] };
    else if (journal.on) {
      if (kind === "question") found.questions.add(found.events.length);
      found.events.put(file, from, to, line);
    } else if (kind === "entry") {
      found.whole.put(file, from, to, line);
      if ("by" in value) found.isNamed = true;
    }
    else if (kind === "event") found.events.put(file, from, to, line);
    else if (kind === "answer") found.answers.put(file, from, to, line);
    else if (kind === "told") {
      if (Array.isArray(value.entries)) found.lists.push([file, from, to, line]);
      found.told.add(found.answers.length);
      found.answers.put(file, from, to, line);
    } else if (kind === "opened") found.opened = value;
    else if (kind === "batch") found.batches.push(value);
    else if (kind === "binding" || (kind === "end" && "bad" in value)) found.bound(value);
    else if (kind === "end") found.ends += 1;
    else if (kind === "verdict") found.verdicts.push(value);
    else if (kind === "read" && found.verdicts.length) found.verdicts.at(-1).read = value;
    else {
      const why = kind === "summary" ? kind : value === undefined ? "notJson" : "unknownForm";
      found.fault(file, line, why, from, to);
    }
  }
  async function read(files, progress) {
    const found = new Found(files), size = files.reduce((sum, file) => sum + file.text.length, 0);
    const versions = files.map(({ text }) => versionIn(text));
    const alone = versions.filter(each => each === null).length === 1;
    found.build = versions.find(each => each !== null) ?? null;
    let before = 0;
    for (let file = 0; file < files.length; file += 1) {
      const { text } = files[file], isRead = versions[file] === null;
      const journal = { on: isRead && isJournal(text, alone), alone, begun: false };
      for (let at = 0, line = 1; isRead && at < text.length; line += 1) {
        const end = lineEnd(text, at), [from, to] = trimmed(text, at, end);
        if (from < to) sort(found, file, from, to, line, journal);
        at = end + 1;
        if (line % SLICE === 0) { progress((before + at) / size); await pause(); }
      }
      before += text.length;
    }
    found.settle();
    return found;
  }
  const pause = () => new Promise(done => setTimeout(done));
  return { read, pause, kindOf };
})();
