// What became of a batch over the entries: its steps side by side, its log, what it waited for and how it ended; and
// where it stands in its chart at any entry. Takes what was answered and decides nothing. Knows nothing of drawing.
"use strict";
const runs = (() => {
  const POINT = 1000, ACTIVE = ["on", "ending", "held", "broke"];
  const PHASES = { start: "on", finish: "on", reset: "ending", unhold: "on", hold: "held", end: "done", stop: "off",
    rest: "rest", left: "left", broke: "broke" };
  const MARKS = { chose: "node", turn: "node", leave: "node", broke: "broke", stop: "stop", left: "left",
    stop_asked: "stop" };
  // What an entry of the log did. A step that could be left because its service is at rest is none that still runs.
  const deedOf = did => (did.do === "left" && modules.isAtRest(did.state) ? "rest" : did.do);
  const ENDS = { Completed: "full", Broken: "abort", Stopped: "stop", Abandoned: "stop" };
  // Where a batch stands in its chart: phase and runs of each step, and whether Complete was asked for; arm of each
  // selection, turns of each loop. What is through has passed: steps by their names, selections that chose and loops
  // that were left by their numbers. A further turn of a loop begins all in it anew.
  class Standing {
    constructor(steps = [], arms = [], turns = [], passed = [], isStopping = false) {
      this.steps = new Map(steps); this.arms = new Map(arms); this.turns = new Map(turns);
      this.passed = new Set(passed); this.isStopping = isStopping;
    }
    copy() { return new Standing(this.steps, this.arms, this.turns, this.passed, this.isStopping); }
    take(did, known) {
      if (did.step !== undefined) this.step(did.step, deedOf(did));
      if (did.do === "end") this.passed.add(did.step);
      if (did.do === "chose") this.arms.set(did.node, did.arm);
      if (did.do === "chose" || did.do === "leave") this.passed.add(did.node);
      if (did.do === "turn") this.turn(did.node, known?.within.get(did.node) ?? []);
      if (did.do === "broke" || did.do === "stop_asked") this.isStopping = true;
    }
    turn(node, within) {
      this.turns.set(node, (this.turns.get(node) ?? 0) + 1);
      for (const each of within) this.passed.delete(each);
    }
    step(name, deed) {
      const old = this.steps.get(name) ?? { runs: 0, phase: "", completes: false };
      const isBroken = old.phase === "broke" && deed !== "left", phase = isBroken ? "broke" : PHASES[deed] ?? old.phase;
      const completes = deed === "finish" || (old.completes && deed !== "start");
      this.steps.set(name, { runs: old.runs + (deed === "start" ? 1 : 0), phase, completes });
    }
  }
  class Batch {
    constructor(at, event, known, lane) {
      Object.assign(this, { name: event.batch, recipe: event.recipe, bind: event.bind, watch: event.watch ?? {} });
      Object.assign(this, { known, lane, started: at, ended: null, outcome: null, frozen: false, slots: [], reasons: [],
        before: [], left: [], abandoned: [], freezes: [], unheld: null, points: [new Standing()] });
      // Steps that a hold didn't reach as long as the batch is frozen, each with its service and since when.
      this.missed = new Map();
      // When it was asked last, how many reports of its modules came since, and when something else changed for it.
      Object.assign(this, { asked: null, heard: 0, changed: at });
      this.log = { at: [], did: [] };
      this.whole = lane.track("whole"); this.waits = lane.track("wait");
      this.whole.open(at, "batch", "");
      lane.more.open(at, "", event.recipe);
    }
    get tags() { return Object.values(this.bind); }
    tagOf(role) {
      if (Object.hasOwn(this.bind, role)) return this.bind[role];
      return Object.hasOwn(this.watch, role) ? this.watch[role] : undefined;
    }
    ask(at) { this.asked = at; this.heard = 0; }
    hear() { this.heard += 1; }
    // May another answer be had by asking once more? Until then what it waits for is what it waited for.
    get isToAsk() {
      if (this.frozen && !this.holds) return false;
      return this.heard > 0 || !this.waits.isOpen() || this.asked === null || this.changed > this.asked;
    }
    // Since which entry it stands where it does.
    get since() {
      if (this.waits.isOpen()) return this.waits.from[this.waits.length - 1];
      return Math.max(this.started, this.asked ?? 0, this.log.at[this.log.at.length - 1] ?? 0);
    }
    wait(at, answer) {
      const last = this.waits.length - 1, key = JSON.stringify(answer);
      if (this.waits.isOpen() && JSON.stringify(this.reasons[last]) === key) return;
      this.waits.open(at, "wait", answer.wait); this.reasons.push(answer);
    }
    goOn(at) { if (!this.frozen) this.waits.close(at); }
    freeze(at, holds) {
      this.frozen = true; this.holds = holds; this.changed = at;
      this.freezes.push({ from: at, to: null, holds });
      this.unheld = null; this.missed.clear();
      this.wait(at, { wait: "Frozen" });
    }
    thaw(at) {
      if (this.frozen) this.freezes[this.freezes.length - 1].to = at;
      this.frozen = false; this.changed = at; this.waits.close(at); this.missed.clear();
    }
    // An entry of the log: kept, and shown in the slot of its step.
    did(at, did) {
      this.goOn(at);
      this.log.at.push(at); this.log.did.push(did);
      if (did.do === "start") this.begin(at, did.step);
      else this.moved(at, did);
      const deed = deedOf(did);
      if (deed === "left") this.leave(did);
      if (deed === "hold") this.missed.delete(did.step);
      this.lane.note(at, Object.hasOwn(MARKS, deed) ? MARKS[deed] : "log");
    }
    // A step was left with its service running: kept with that service. Where nothing was reported since its start,
    // what was reported before is known alone.
    leave({ step, state, isBefore = false }) {
      this.left.push({ ...this.serviceOf(step), state, isBefore });
      this.lane.left = this.left;
    }
    // The steps that an abandon leaves as they are, of which nothing in the log says so: each with its last report.
    abandon(at, steps) {
      this.abandoned = steps;
      for (const each of steps.filter(({ deed }) => deed === "left")) {
        this.leave(each);
        this.slots.find(track => track.isOpen() && track.owner === each.step)?.open(at, "left", each.step);
        this.lane.note(at, "left");
      }
    }
    // The service of a step, as its last start has told it.
    serviceOf(step) {
      const start = this.log.did.findLast(each => each.do === "start" && each.step === step);
      return { step, service: start?.service ?? step, tag: start?.tag ?? "?" };
    }
    // The steps that were started and neither asked to hold nor brought to their end, with their services.
    running(at) { return this.inPhase(at, ["on"]); }
    // The steps that were started and aren't over, with their services.
    active(at) { return this.inPhase(at, ACTIVE); }
    inPhase(at, phases) {
      const steps = [...this.standing(at).steps].filter(([, { phase }]) => phases.includes(phase));
      return steps.map(([step]) => this.serviceOf(step));
    }
    begin(at, step) {
      let free = this.slots.find(track => !track.isOpen());
      if (!free) { free = this.lane.track("step"); this.slots.push(free); }
      free.owner = step;
      free.open(at, "run", String(step));
    }
    moved(at, did) {
      const slot = this.slots.find(track => track.isOpen() && track.owner === did.step);
      if (!slot) return;
      if (["end", "stop", "rest"].includes(deedOf(did))) slot.close(at);
      else if (did.do === "left") slot.open(at, "left", slot.owner);
      else if (["finish", "reset"].includes(did.do)) slot.open(at, "move", "");
      else if (did.do === "hold") slot.open(at, "hold", slot.owner);
      else if (did.do === "unhold") slot.open(at, "run", slot.owner);
    }
    close(at, outcome) {
      if (this.frozen) this.freezes[this.freezes.length - 1].to = at;
      this.outcome = outcome; this.ended = at; this.frozen = false; this.missed.clear();
      for (const track of [this.whole, this.waits, ...this.slots]) track.close(at);
      this.lane.outcome = outcome;
      this.lane.note(at, `end ${ENDS[outcome] ?? "stop"}`);
    }
    // Where the batch stands once an entry is answered: from the last kept point on.
    standing(cursor) {
      const count = spans.below(this.log.at, cursor) + 1;
      while (this.points.length * POINT <= count) {
        this.points.push(this.after(this.points.length - 1, this.points.length * POINT));
      }
      const standing = this.after(Math.floor(count / POINT), count);
      if (cursor >= (this.ended ?? Infinity)) for (const { step, deed } of this.abandoned) standing.step(step, deed);
      return standing;
    }
    after(point, count) {
      const standing = this.points[point].copy();
      for (let k = point * POINT; k < count; k += 1) standing.take(this.log.did[k], this.known);
      return standing;
    }
    // Where a step was started last before an entry, else where first; null where never.
    startOf(step, cursor) {
      const { at, did } = this.log, starts = at.filter((_, k) => did[k].do === "start" && did[k].step === step);
      return starts.findLast(each => each < cursor) ?? starts[0] ?? null;
    }
    waitAt(cursor) { const k = this.waits.span(cursor); return k < 0 ? null : this.reasons[k]; }
    // What it waited for, each reason once: how often, how many entries and stamps in all, and where first.
    waited(history) {
      const found = new Map(), { stamps } = history, count = stamps.length;
      this.reasons.forEach((answer, k) => {
        const key = JSON.stringify(answer), from = this.waits.from[k];
        const to = this.waits.to[k] < 0 ? count - 1 : this.waits.to[k];
        if (!found.has(key)) found.set(key, { answer, times: 0, entries: 0, lasted: 0, first: from });
        const own = found.get(key);
        own.times += 1; own.entries += history.entriesIn(from, to);
        own.lasted += stamps[Math.min(to, stamps.length - 1)] - stamps[from];
      });
      return [...found.values()];
    }
  }
  return { Batch, ENDS, deedOf };
})();
