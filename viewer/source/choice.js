// What is chosen to be shown: a batch, a module's tag and a rule, each or none. Says which entries, lanes and alarms
// fit. Knows nothing of how they are shown.
"use strict";
const choice = (() => {
  // What only answers can tell.
  const BY_ANSWERS = new Set(["noRefusal", "noAlarm", "noWait"]);
  class Choice {
    constructor(history) { Object.assign(this, { history, batch: "", tag: "", rule: "" }); }
    get isAll() { return this.batch === "" && this.tag === "" && this.rule === ""; }
    // What is said where nothing is there, as a key of the labels: the given one, where the files can tell.
    none(key) {
      const { assumed, isBlind } = this.history;
      if (!this.isAll && key !== "noWait") return "noMatch";
      if (assumed && BY_ANSWERS.has(key)) return "noAnswer";
      return isBlind && key !== "noRefusal" ? "noJournal" : key;
    }
    // In words, for the paper.
    get told() {
      const parts = [["batch", this.batch], ["module", this.tag], ["rule", this.rule]];
      const named = parts.filter(([, name]) => name !== "");
      return named.map(([key, name]) => `${words.say(key)} ${words.visible(name)}`).join(", ");
    }
    tagsOf(name) {
      const batch = this.history.batches.get(name);
      return batch ? [...batch.tags, ...Object.values(batch.watch)] : [];
    }
    // Is something that happened at an entry of this batch and this tag among what is chosen?
    fits(at, name, tag) { return this.fitsBatch(at, name, tag) && this.fitsTag(name, tag); }
    fitsBatch(at, name, tag) {
      if (this.batch === "" || name === this.batch) return true;
      const batch = this.history.batches.get(this.batch);
      if (!batch || tag === null || tag === undefined || !this.tagsOf(this.batch).includes(tag)) return false;
      return at >= batch.started && (batch.ended === null || at <= batch.ended);
    }
    fitsTag(name, tag) { return this.tag === "" || tag === this.tag || this.tagsOf(name).includes(this.tag); }
    fitsEntry(at) {
      const { names, tags, rules } = this.history;
      return (this.rule === "" || rules[at] === this.rule) && this.fits(at, names[at], tags[at]);
    }
    // The entries that are shown, in order; null where all are.
    rows() {
      if (this.isAll) return null;
      const found = [];
      for (let at = 0; at < this.history.stamps.length; at += 1) if (this.fitsEntry(at)) found.push(at);
      return found;
    }
    // What is of no batch and no tag is of the whole file, and so of what is chosen too.
    alarms() {
      const isOfAll = subject => !("batch" in subject || "tag" in subject);
      return this.history.alarms.filter(({ at, subject }) => isOfAll(subject)
        || this.fits(at, subject.batch ?? null, subject.tag ?? null));
    }
    // Rules with the entries that each refused.
    refusals() {
      const found = new Map();
      for (const [rule, places] of this.history.refusals) {
        const own = this.isAll ? places : places.filter(at => this.fitsEntry(at));
        if (own.length) found.set(rule, own);
      }
      return found;
    }
    showsBatch(name) {
      return (this.batch === "" || name === this.batch) && (this.tag === "" || this.tagsOf(name).includes(this.tag));
    }
    showsModule(tag) {
      return (this.tag === "" || tag === this.tag) && (this.batch === "" || this.tagsOf(this.batch).includes(tag));
    }
    batches() { return [...this.history.batches.values()].filter(batch => this.showsBatch(batch.name)); }
    never() {
      return this.history.never.filter(each => this.tag === "" && (this.batch === "" || this.batch === each.name));
    }
    modules() { return [...this.history.modules.values()].filter(module => this.showsModule(module.tag)); }
  }
  return { Choice };
})();
