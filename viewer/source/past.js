// From entries to what is drawn: modules, batches, recipes, what a reviewer has to look at, and refusals by rule.
// Believes the answers and decides nothing by itself. Knows nothing of files, and nothing of drawing.
"use strict";
const past = (() => {
  // In this order: a refusal may have the field ticket too, and a wait the field name.
  const KINDS = ["refused", "bad", "denied", "wait", "did", "closed", "ticket", "done"];
  // The rule by which an entry was refused: the plant's by its name alone, and what no rule of the plant refused with a
  // word in front, which no name has.
  const RULES = {
    refused: ({ rule }) => String(rule), bad: ({ bad }) => `bad ${bad}`,
    denied: ({ policy }) => (policy === undefined ? "denied" : `denied ${policy}`),
  };
  // Which answers an event may have where nothing refuses it; without a word here it is done.
  const GIVES = { advance: ["did", "wait", "closed"], stop: ["did", "done"], desk: ["did"], abandon: ["closed"],
    exchange_begin: ["ticket"] };
  // Can these two stand together? Else they are of different files, or one was changed. The policy of an operated plant
  // may deny any event.
  function isPair(event, kind) {
    if (kind === "bad") return true;
    if (kind === "refused" || kind === "denied") return Boolean(event);
    return Boolean(event) && (Object.hasOwn(GIVES, event.ev) ? GIVES[event.ev] : ["done"]).includes(kind);
  }
  // What became of an operator's command, by what its answer has.
  const DESK = { did: "deskPermitted", denied: "deskDenied", rule: "deskRefused", bad: "deskBad" };
  // What is to be looked at because of somebody's line, which may say whose. That of the desk says it by itself.
  const GIVEN = new Set(["frozen", "frozenHolding", "stopAsked", "closedBatch", "exchangedIn", "exchangedWatched"]);
  // What an event must have to be drawn; a forged one may lack it.
  const FIELDS = {
    plug: { tag: "string", desc: "object" }, unplug: { tag: "string" }, variable: { tag: "string", name: "string" },
    report: { tag: "string", service: "string", StateCur: "number" }, recipe: { recipe: "string", chart: "object" },
    start: { batch: "string", recipe: "string", bind: "object" }, advance: { batch: "string" },
    freeze: { batch: "string" }, thaw: { batch: "string" }, stop: { batch: "string" }, abandon: { batch: "string" },
    desk: { tag: "string", service: "string", CommandOp: "number" }, exchange_begin: { tag: "string" },
    exchange_end: { tag: "string", desc: "object" }, exchange_cancel: { tag: "string" },
  };
  const isOf = (value, kind) => typeof value === kind && value !== null;
  const fits = event => Object.entries(FIELDS[event.ev]).every(([key, kind]) => isOf(event[key], kind));
  const isNames = bind => isOf(bind, "object") && Object.values(bind).every(tag => typeof tag === "string");
  class History {
    // Where the files have no answers, each event is assumed to be accepted; where they have no events, nobody knows
    // what became of a module or a batch.
    constructor(found) {
      const { hasAnswers, hasEvents, whole, isNamed, rules: policy } = found;
      this.lineOf = at => found.line(at);
      const isOfPlant = whole.length > 0 && !isNamed;
      Object.assign(this, { assumed: !hasAnswers, isBlind: !hasEvents, isOfPlant, modules: new Map(),
        batches: new Map(), recipes: new Map(), refusals: new Map(), attempts: new Map(), known: new Map(),
        people: new Map(), policy, alarms: [], desk: [], exchanges: [], never: [], odd: [] });
      // Of each entry: its stamp, the tag and the batch that it names, the rule that refused it.
      Object.assign(this, { stamps: [], tags: [], names: [], rules: [] });
      // Which entries these are, by their numbers.
      this.own = [];
      this.numbers = [];
      this.counts = Object.fromEntries(["lines", "none", ...KINDS].map(kind => [kind, 0]));
    }
    // How many entries the history has, as an audit counts them: a line at fault is none, nor is a line that a policy
    // denied, nor what a full history refused.
    get entries() { return this.own.length; }
    count(at, kind, rule) {
      const isEntry = kind !== "bad" && kind !== "denied" && rule !== "HistoryFull";
      if (isEntry) this.own.push(at);
      this.numbers.push(isEntry ? this.own.length : 0);
    }
    isEntry(at) { return this.numbers[at] > 0; }
    // How many entries stand from one line up to another.
    entriesIn(from, to) { return spans.below(this.own, to - 1) - spans.below(this.own, from - 1); }
    // The number of an entry; of a line that is none, where it stands in its file.
    placed(at) { return this.isEntry(at) ? { entry: this.numbers[at] } : { line: this.lineOf(at) }; }
    // A text that comes again and again is kept once.
    once(text) {
      if (typeof text !== "string") return null;
      if (!this.known.has(text)) this.known.set(text, text);
      return this.known.get(text);
    }
    alarm(at, style, subject, key, ...values) {
      const by = GIVEN.has(key) ? this.people.get(at) ?? null : null;
      this.alarms.push({ at, style, subject, key, values, by });
    }
    take(at, event, answer) {
      const kind = answer ? KINDS.find(key => key in answer) ?? "none" : "none";
      this.counts.lines += 1; this.counts[kind] += 1;
      this.stamps.push(["number", "bigint"].includes(typeof event?.at) ? Number(event.at) : NaN);
      this.tags.push(this.once(event?.tag)); this.names.push(this.once(event?.batch));
      if (event !== undefined && answer && !isPair(event, kind)) this.odd.push(at);
      const isRefused = Object.hasOwn(RULES, kind), rule = isRefused ? this.once(RULES[kind](answer)) : null;
      this.rules.push(kind === "bad" ? "bad" : rule);
      this.count(at, kind, rule);
      if (typeof event?.by === "string") this.people.set(at, this.once(event.by));
      if (isRefused) this.refuse(at, event, answer, rule);
      else if ((kind !== "none" || this.assumed) && event && Object.hasOwn(TAKES, event.ev)) {
        if (!fits(event)) throw new TypeError("an event without its fields");
        TAKES[event.ev](this, at, event, answer ?? {});
      }
    }
    refuse(at, event, answer, rule) {
      if (!this.refusals.has(rule)) this.refusals.set(rule, []);
      this.refusals.get(rule).push(at);
      if (event?.ev === "start" && typeof event.batch === "string") this.attempt(event, at, answer);
      else this.laneOf(event)?.note(at, "refused");
      if (event?.ev === "desk") this.asked(at, event, answer);
    }
    laneOf(event) {
      const module = this.modules.get(event?.tag);
      return this.batches.get(event?.batch)?.lane ?? module?.services.get(event?.service)?.lane ?? module?.lane;
    }
    // A start that was refused: its batch has a lane from then on, and keeps why.
    attempt(event, at, answer) {
      if (this.batches.has(event.batch)) { this.batches.get(event.batch).lane.note(at, "refused"); return; }
      if (!this.attempts.has(event.batch)) {
        this.attempts.set(event.batch, this.attempted(event.batch, event.recipe, event.bind, at));
      }
      const own = this.attempts.get(event.batch), key = JSON.stringify(answer);
      own.lane.note(at, "refused");
      own.why.set(key, { answer, times: (own.why.get(key)?.times ?? 0) + 1 });
    }
    attempted(name, recipe, bind, at) {
      const lane = new spans.Lane("batch", name);
      lane.owner = name;
      lane.more.open(0, "", String(recipe));
      return { name, recipe: String(recipe), bind: isNames(bind) ? bind : {}, lane, first: at, why: new Map() };
    }
    asked(at, event, answer) {
      const how = Object.keys(DESK).find(key => key in answer), style = how === "did" ? "asked" : "refused";
      const other = Object.keys(answer).length ? "deskOdd" : "deskUnknown", isNameless = answer.policy === undefined;
      const key = how === "denied" && isNameless ? "deskDeniedByNone" : DESK[how] ?? other;
      this.desk.push(at);
      this.alarm(at, style, { tag: event.tag }, key, words.command(event.CommandOp), event.service, event.tag,
        answer.rule ?? answer.policy, this.people.get(at));
    }
    // The batches that a module's news may let go on.
    waiting(module) {
      const names = module ? [module.holder, ...module.watchers] : [];
      return names.map(name => this.batches.get(name)).filter(batch => batch !== undefined);
    }
    hear(module) { for (const batch of this.waiting(module)) batch.hear(); }
    // A step was left: to be looked at where its service still runs.
    left(at, batch, did) {
      if (modules.isAtRest(did.state)) return;
      this.alarmLeft(at, batch, batch.left[batch.left.length - 1]);
    }
    alarmLeft(at, batch, own) {
      this.alarm(at, "left", { batch: batch.name, tag: own.tag }, "leftAlarm", own.service, own.tag, own);
    }
    // An abandon sends nothing: a step that is active then goes on, unless its service was reported at rest since it
    // was started.
    abandoned(at, batch) {
      const before = batch.left.length;
      batch.abandon(at, batch.active(at).map(({ step, service, tag }) => {
        const own = this.modules.get(tag)?.services.get(service), isKnown = Boolean(own?.last(at).state);
        const isBefore = isKnown && own.heard < batch.startOf(step, at), state = isKnown ? own.code : null;
        return { step, state, isBefore, deed: !isBefore && modules.isAtRest(state) ? "rest" : "left" };
      }));
      for (const each of batch.left.slice(before)) this.alarmLeft(at, batch, each);
    }
    // A freeze with holds has asked all that it can once an advance is answered Frozen; what runs on is to be seen.
    reached(at, batch) {
      if (!batch.holds || batch.unheld !== null) return;
      const isRunning = ({ service, tag }) => {
        const { code } = this.modules.get(tag)?.services.get(service) ?? { code: null };
        return code !== null && !modules.isAtRest(code) && !modules.isHeld(code);
      };
      batch.unheld = batch.running(at).filter(isRunning);
      for (const { service, tag } of batch.unheld) {
        const { code } = this.modules.get(tag).services.get(service);
        this.alarm(at, "left", { batch: batch.name, tag }, "notHeld", service, tag, words.state(code));
      }
    }
    // What a hold can't reach by what was reported, from the freeze on: also where no advance was answered Frozen.
    watchHold(at, batch) {
      if (!batch?.frozen || !batch.holds) return;
      for (const each of batch.running(at)) {
        const own = this.modules.get(each.tag)?.services.get(each.service), isNew = !batch.missed.has(each.step);
        if (own?.isBeyondHold && isNew) batch.missed.set(each.step, { ...each, at, code: own.code });
      }
    }
    // No hold came by the end of the freeze, or of the files.
    endHold(batch) {
      for (const { step, service, tag, at, code } of batch.missed.values()) {
        if (batch.unheld?.some(each => each.step === step)) continue;
        this.alarm(at, "left", { batch: batch.name, tag }, "notHeld", service, tag, words.state(code));
      }
    }
    thaw(at, batch) {
      this.endHold(batch);
      batch.thaw(at);
    }
    free(at, batch) {
      for (const tag of batch.tags) this.modules.get(tag)?.held(at, null);
      for (const tag of Object.values(batch.watch)) this.modules.get(tag)?.watched(at, batch.name, false);
    }
    shut(at, batch, outcome) {
      this.endHold(batch);
      batch.close(at, outcome);
      this.free(at, batch);
      if (outcome !== "Completed") {
        this.alarm(at, runs.ENDS[outcome] ?? "stop", { batch: batch.name }, "closedBatch", batch.name, outcome);
      }
    }
    // After the last entry: what never came to its end, and the order of what is shown.
    finish(site) {
      const end = Math.max(0, this.stamps.length - 1);
      for (const { at, key, values } of order.odd(this.stamps)) this.alarm(at, "hold", {}, key, ...values);
      this.level();
      for (const each of site?.batches ?? []) {
        if (typeof each?.batch !== "string" || this.batches.has(each.batch) || this.attempts.has(each.batch)) continue;
        this.attempts.set(each.batch, this.attempted(each.batch, each.recipe, each.bind, end));
      }
      this.never = [...this.attempts.values()].filter(each => !this.batches.has(each.name));
      for (const batch of this.batches.values()) {
        if (batch.outcome) continue;
        this.endHold(batch);
        if (!this.assumed) this.alarm(end, "hold", { batch: batch.name }, "openBatch", batch.name);
      }
      for (const each of this.never) this.alarm(end, "hold", { batch: each.name }, "neverBatch", each.name);
      this.alarms.sort((one, two) => one.at - two.at);
      this.known.clear();
    }
    // A line without a stamp stands at the stamp before it, so that the others can still be an axis.
    level() {
      const { stamps } = this;
      let last = stamps.find(stamp => !Number.isNaN(stamp)) ?? NaN;
      for (let at = 0; at < stamps.length; at += 1) {
        if (Number.isNaN(stamps[at])) stamps[at] = last;
        last = stamps[at];
      }
    }
    // Where an audit found the first thing wrong: at an entry, or in a line behind them, which may be of a batch.
    doubt({ place, says }, { what, name }) {
      const batch = this.batches.get(name), end = Math.max(0, this.stamps.length - 1);
      const at = batch?.ended ?? this.own[place] ?? end, values = what === "Answer" ? [says] : [place + 1, name];
      this.alarm(at, "abort", batch ? { batch: name } : {}, `audit${what}`, ...values);
    }
    kindOfType(type, name) {
      const last = [...this.modules.values()].map(({ docks }) => docks[docks.length - 1]);
      return last.find(each => each?.type === type && each.kinds.has(name))?.kinds.get(name);
    }
    kindAt(tag, name, at) { return this.modules.get(tag)?.kindAt(name, at); }
    // The values by which a node decided, each with its variable's name and in its unit.
    decided(batch, did, at) {
      const reads = batch?.known?.readsOf[did.node];
      return did.values.map((value, k) => {
        const read = reads?.[k];
        if (!read) return words.value(value);
        const kind = this.kindAt(batch.tagOf(read.role), read.name, at);
        return `${read.role}.${read.name} = ${words.value(value, kind)}`;
      });
    }
    // The settings with which a step is started: they stand in its recipe.
    settings(batch, did, at) {
      const node = batch?.known?.stepOf(did.step), module = this.modules.get(did.tag);
      const kindOf = name => module?.parameterAt(did.service, did.procedure, name, at);
      return (node?.settings ?? []).map(({ name, value }) => `${name} = ${words.value(value, kindOf(name))}`);
    }
    // An answer in words, with what the recipe and the descriptions know of it.
    answerTo(at, event, answer) {
      const did = answer?.did, batch = this.batches.get(event?.batch);
      if (Array.isArray(did?.values)) return words.answer(answer, this.decided(batch, did, at));
      const set = did?.do === "start" ? this.settings(batch, did, at) : [];
      return words.answer(answer) + (set.length ? `: ${words.visible(set.join(", "))}` : "");
    }
  }
  const TAKES = {
    plug(all, at, event) {
      const module = all.modules.get(event.tag) ?? new modules.Module(event.tag);
      module.dock(at, event.desc);
      all.modules.set(event.tag, module);
    },
    unplug: (all, at, event) => all.modules.get(event.tag)?.undock(at),
    report(all, at, event) {
      const module = all.modules.get(event.tag), state = module?.services.get(event.service)?.report(at, event);
      all.hear(module);
      all.watchHold(at, all.batches.get(module?.holder));
      if (state === "Aborted" || state === "Stopped") {
        const style = state === "Aborted" ? "abort" : "stop";
        all.alarm(at, style, { tag: event.tag }, "abnormal", event.service, event.tag, state);
      }
    },
    variable(all, at, event) {
      const module = all.modules.get(event.tag);
      module?.value(at, event.name, event.value);
      all.hear(module);
    },
    recipe: (all, at, event) => { all.recipes.set(event.recipe, new recipes.Recipe(at, event)); },
    start(all, at, event) {
      if (!isNames(event.bind) || !isNames(event.watch ?? {})) throw new TypeError("a start without its modules");
      const lane = all.attempts.get(event.batch)?.lane ?? new spans.Lane("batch", event.batch);
      lane.owner = event.batch;
      const batch = new runs.Batch(at, event, all.recipes.get(event.recipe) ?? null, lane);
      all.batches.set(event.batch, batch);
      const before = batch.tags.map(tag => heldBefore(all.modules.get(tag), tag, event.batch));
      batch.before = before.filter(each => each !== null);
      for (const tag of batch.tags) all.modules.get(tag)?.held(at, event.batch);
      for (const tag of Object.values(batch.watch)) all.modules.get(tag)?.watched(at, event.batch, true);
    },
    advance(all, at, event, answer) {
      const batch = all.batches.get(event.batch);
      if (!batch) return;
      batch.ask(at);
      if ("wait" in answer) {
        batch.wait(at, answer);
        if (answer.wait === "Frozen") all.reached(at, batch);
      }
      else if ("closed" in answer) all.shut(at, batch, answer.closed);
      else if ("did" in answer) {
        const { did } = answer;
        if (!isOf(did, "object")) throw new TypeError("an entry of the log without its fields");
        batch.did(at, did);
        if (did.do === "broke") {
          all.alarm(at, "abort", { batch: batch.name }, "brokenBatch", batch.name, did.step, words.state(did.state));
        }
        if (did.do === "left") all.left(at, batch, did);
      }
    },
    freeze(all, at, event) {
      const batch = all.batches.get(event.batch);
      batch?.freeze(at, event.hold === true);
      all.watchHold(at, batch);
      all.alarm(at, "hold", { batch: event.batch }, event.hold === true ? "frozenHolding" : "frozen", event.batch);
    },
    thaw(all, at, event) {
      if (all.batches.has(event.batch)) all.thaw(at, all.batches.get(event.batch));
    },
    stop(all, at, event, answer) {
      const batch = all.batches.get(event.batch);
      if (batch) all.thaw(at, batch);
      if (batch && "did" in answer) batch.did(at, answer.did);
      all.alarm(at, "stop", { batch: event.batch }, "stopAsked", event.batch);
    },
    abandon(all, at, event, answer) {
      const batch = all.batches.get(event.batch);
      if (!batch) return;
      all.abandoned(at, batch);
      all.shut(at, batch, answer.closed ?? "Abandoned");
    },
    desk(all, at, event, answer) {
      all.modules.get(event.tag)?.services.get(event.service)?.lane.note(at, "asked");
      all.asked(at, event, answer);
    },
    exchange_begin(all, at, event, answer) {
      const module = all.modules.get(event.tag);
      if (!module) return;
      const { holder, watchers } = module, before = module.lane.more.textAt(at);
      module.undock(at);
      module.hold.open(at, "away", String(answer.ticket ?? "?"));
      all.exchanges.push({ tag: event.tag, ticket: answer.ticket, begun: at, ended: null, before, after: null,
        batch: holder, how: "notEnded" });
      if (holder !== null) all.alarm(at, "away", { tag: event.tag, batch: holder }, "exchangedIn", event.tag, holder);
      for (const each of watchers) {
        all.alarm(at, "away", { tag: event.tag, batch: each }, "exchangedWatched", event.tag, each);
      }
    },
    exchange_end: (all, at, event) => back(all, at, event, event.desc),
    exchange_cancel: (all, at, event) => back(all, at, event, null),
  };
  function back(all, at, event, description) {
    const module = all.modules.get(event.tag);
    if (!module) return;
    module.dock(at, description);
    for (const batch of all.waiting(module)) batch.changed = at;
    const own = all.exchanges.findLast(each => each.tag === event.tag);
    if (own) {
      Object.assign(own, { ended: at, how: description ? "ended" : "cancelled", after: module.lane.more.textAt(at) });
    }
  }
  // By which other batch a module was held last before a batch takes it.
  function heldBefore(module, tag, batch) {
    const hold = module?.hold;
    let k = (hold?.length ?? 0) - 1;
    while (k >= 0 && (hold.style[k] !== "held" || hold.text[k] === batch)) k -= 1;
    return k < 0 ? null : { tag, batch: hold.text[k], from: hold.from[k], to: hold.to[k] };
  }
  return { History };
})();
