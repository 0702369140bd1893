// What became of a module's tag over the entries: its services' states, who held or watched it, its descriptions, and
// the values of its variables. Takes what was accepted and decides nothing. Knows nothing of batches but their names.
"use strict";
const modules = (() => {
  const STYLES = {
    Idle: "idle", Execute: "run", Completed: "full", Starting: "move", Completing: "move", Resetting: "move",
    Resuming: "move", Unholding: "move", Pausing: "pause", Paused: "pause", Holding: "hold", Held: "hold",
    Stopping: "stop", Stopped: "stop", Aborting: "abort", Aborted: "abort",
  };
  // Where Hold leads out of.
  const HOLDABLE = new Set(["Starting", "Execute", "Completing", "Pausing", "Paused", "Resuming", "Unholding"]);
  const HOLD = 16, AT_REST = new Set(["Idle", "Completed", "Stopped", "Aborted"]);
  const nameOf = code => docs.states[code] ?? String(code);
  const isAtRest = code => AT_REST.has(nameOf(code)), isHeld = code => ["hold", "pause"].includes(STYLES[nameOf(code)]);
  class Service {
    constructor(name, tag) {
      this.lane = new spans.Lane("service", name); this.lane.owner = tag;
      this.state = this.lane.track("state"); this.mode = this.lane.track("mode"); this.code = null; this.heard = -1;
      // Which commands it enabled, where that changed.
      this.masks = new spans.Series();
    }
    // A report. Says the new state's name where it is another than before.
    report(at, event) {
      const name = nameOf(event.StateCur), isNew = this.code !== event.StateCur;
      if (isNew) this.state.open(at, STYLES[name] ?? "unreported", name);
      this.code = event.StateCur; this.heard = at;
      if (this.masks.last !== event.CommandEn) this.masks.put(at, event.CommandEn);
      const forRecipes = event.Mode === "Automatic" && event.Src === "External";
      if (forRecipes) this.mode.close(at);
      else if (!this.mode.isOpen()) this.mode.open(at, "mode", `${event.Mode}, ${event.Src}`);
      return isNew ? name : null;
    }
    // What was reported last, at an entry: the state's name, null where it is unreported; the mode where it isn't for
    // recipes; and the commands that it enabled.
    last(at) {
      return { state: this.state.textAt(at) || null, mode: this.mode.textAt(at), mask: this.masks.known(at) };
    }
    // Would a recipe's Hold lead on from what was reported last, and may none be sent?
    get isBeyondHold() {
      const isHoldable = this.code !== null && this.state.isOpen() && HOLDABLE.has(nameOf(this.code));
      return isHoldable && (this.mode.isOpen() || !(this.masks.last & HOLD));
    }
    begin(at) { this.code = null; this.state.open(at, "unreported", ""); }
    close(at) { this.state.close(at); this.mode.close(at); }
  }
  class Module {
    constructor(tag) {
      this.tag = tag; this.lane = new spans.Lane("module", tag); this.lane.owner = tag;
      this.hold = this.lane.track("hold"); this.watch = this.lane.track("watch");
      this.services = new Map(); this.series = new Map(); this.docks = []; this.holder = null; this.watchers = [];
      this.there = false;
    }
    // Docks with a description, or with the last one again. Nothing is reported of it yet.
    dock(at, description) {
      const last = this.docks[this.docks.length - 1];
      const own = description ? described(description) : last;
      if (!own) throw new TypeError("a module without a description");
      this.docks.push({ ...own, at });
      this.lane.more.open(at, "", `${own.type} ${own.version}`);
      for (const service of this.services.values()) service.close(at);
      for (const name of own.services) {
        if (!this.services.has(name)) this.services.set(name, new Service(name, this.tag));
        this.services.get(name).begin(at);
      }
      for (const series of this.series.values()) series.put(at, NaN);
      this.there = true;
      this.showHolder(at);
    }
    undock(at) {
      for (const service of this.services.values()) service.close(at);
      for (const series of this.series.values()) series.put(at, NaN);
      this.hold.close(at); this.there = false;
    }
    showHolder(at) { this.hold.open(at, this.holder === null ? "free" : "held", this.holder ?? ""); }
    held(at, batch) { this.holder = batch; if (this.there) this.showHolder(at); }
    watched(at, batch, begins) {
      this.watchers = begins ? [...this.watchers, batch] : this.watchers.filter(each => each !== batch);
      if (this.watchers.length) this.watch.open(at, "watch", this.watchers.join(", ")); else this.watch.close(at);
    }
    value(at, name, value) {
      if (!["number", "bigint", "boolean"].includes(typeof value)) return;
      if (!this.series.has(name)) this.series.set(name, new spans.Series());
      this.series.get(name).put(at, Number(value));
    }
    // The description under which the module stood at an entry.
    dockAt(at) {
      let k = this.docks.length - 1;
      while (k >= 0 && this.docks[k].at > at) k -= 1;
      return this.docks[k] ?? null;
    }
    kindAt(name, at) { return this.dockAt(at)?.kinds.get(name); }
    // The kind of a parameter of a service's procedure.
    parameterAt(service, procedure, name, at) {
      return this.dockAt(at)?.parameters.get(`${service} ${procedure} ${name}`);
    }
  }
  function described({ type, version, services, variables }) {
    const named = services.map(service => service.name);
    if (named.some(name => typeof name !== "string")) throw new TypeError("a service without a name");
    const parameters = new Map(), kinds = new Map((variables ?? []).map(each => [each.name, each.kind]));
    for (const service of services) {
      for (const { number, params } of service.procedures ?? []) {
        for (const each of params ?? []) parameters.set(`${service.name} ${number} ${each.name}`, each.kind);
      }
    }
    return { type: String(type), version: String(version), services: named, kinds, parameters };
  }
  return { Module, isAtRest, isHeld };
})();
