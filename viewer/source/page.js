// The page itself: takes files, builds the history, keeps the cursor and the choice, and has each part draw again what
// changed. Knows nothing of how a part does so.
"use strict";
const page = (() => {
  const by = id => document.getElementById(id), { make } = tables;
  const FEW_TRENDS = 8, MOST_FAULTS = 50, MOST_NAMES = 400;
  const state = { found: null, history: null, view: null, chosen: null, batch: null, alarms: [], alarm: -1,
    trends: true, took: {} };
  const panes = { batches: new lanes.Pane(by("batches"), "overTime"),
    modules: new lanes.Pane(by("modules"), "modulesOverTime") };
  const entries = new list.List(by("entries"), at => go(at));

  // Files come in.
  async function open(files) {
    const busy = share => { by("busy").value = share; };
    delete document.body.dataset.ready;
    by("drop").hidden = true;
    by("main").hidden = true;
    by("busy").hidden = false;
    const { found, history, took } = await opening.open([...files], busy), began = performance.now();
    const view = new axis.View(history.stamps), chosen = new choice.Choice(history);
    Object.assign(state, { found, history, view, chosen, took, batch: null, alarm: -1 });
    state.trends = history.batches.size > 0 && trendLanes([...history.batches.values()]).length <= FEW_TRENDS;
    by("busy").hidden = true;
    by("main").hidden = false;
    by("main").classList.toggle("bare", found.length === 0);
    by("names").textContent = found.files.map(file => words.visible(file.name)).join(", ");
    again();
    cursor();
    took.shown = Math.round(performance.now() - began);
    document.body.dataset.ready = "yes";
  }

  // What is drawn.
  const trendLanes = batches => batches.flatMap(batch => trends.of(batch, state.history));
  function batchLanes() {
    const { chosen, history } = state, shown = chosen.batches();
    const own = shown.flatMap(batch => [batch.lane, ...(state.trends ? trends.of(batch, history) : [])]);
    return [...own, ...chosen.never().slice(0, 100).map(each => each.lane)];
  }
  const moduleLanes = () => state.chosen.modules()
    .flatMap(module => [module.lane, ...[...module.services.values()].map(each => each.lane)]);
  // How wide the labels left of the bars are.
  function edge(shown) {
    const g = document.createElement("canvas").getContext("2d");
    g.font = `600 ${paint.colours.font}`;
    const wide = lane => (lane.kind === "trend" ? g.measureText(lane.label).width + 40
      : g.measureText(`${lane.label}${lane.kind === "service" ? "" : `  ${lane.more?.text[0] ?? ""}`}`).width + 34);
    return Math.round(Math.min(280, Math.max(120, ...shown.slice(0, MOST_NAMES).map(wide))));
  }
  // All that a change of files, choice, size, language or colours touches.
  function again() {
    labelled();
    paint.repaint();
    legend.fill(by("legend"));
    if (!state.history) return;
    const { chosen, view } = state, own = batchLanes(), below = moduleLanes(), wide = edge([...own, ...below]);
    const hides = (at, kind) => kind === "refused" && chosen.rule !== "" && state.history.rules[at] !== chosen.rule;
    for (const [pane, shown] of [[panes.batches, own], [panes.modules, below]]) {
      pane.hides = hides;
      pane.show(shown, view, wide);
      pane.holder.hidden = shown.length === 0;
      pane.canvas.setAttribute("aria-label", `${words.say(pane.name)}; ${words.say("sameInLists")}`);
    }
    by("time").classList.toggle("long", Object.values(panes).some(pane => pane.total > pane.holder.clientHeight + 1));
    by("none").hidden = own.length > 0;
    by("none").textContent = words.say(chosen.none("noBatch"));
    const rows = chosen.rows();
    entries.show(rows, state.found.length, said, view);
    by("rows").textContent = rows ? counted(rows) : "";
    tables.batches(by("outcomes"), chosen, pick);
    tables.refusals(by("refused"), chosen, go, () => view.cursor);
    still();
    finder();
    state.alarms = chosen.alarms();
    look(state.alarms.findIndex(each => each.at === view.cursor), true);
    told();
    choices();
  }
  // How many entries some lines are, and how many are none.
  function counted(rows) {
    const own = rows.filter(at => state.history.isEntry(at)).length, others = rows.length - own;
    const told = own || !others ? [words.many("Entries", own)] : [];
    return [...told, ...(others ? [words.many("Others", others)] : [])].join(" · ");
  }
  function still() {
    const told = reasons.still(state.chosen);
    by("still").hidden = told.length === 0;
    tables.still(by("stillOf"), told, go, pick);
  }
  function finder() {
    const { finder: own } = state.found;
    by("finder").hidden = own === null;
    by("finderOf").replaceChildren(...(own ? tables.finder(own).filter(part => part !== null) : []));
  }
  function said(at) {
    const { found, history } = state, [event, answer] = found.entry(at);
    return { event: words.event(event, (tag, name) => history.kindAt(tag, name, at)),
      answer: history.answerTo(at, event, answer), refused: here.isRefused(answer) };
  }
  function told() {
    const { found, history } = state, verdict = seal.told(found, history), faults = seal.faults(found, history);
    by("seal").className = verdict.style;
    by("seal").replaceChildren(make("b", {}, verdict.short), make("span", { class: "small" }, verdict.more));
    by("counts").textContent = seal.counts(history).join(" · ");
    by("faults").hidden = faults.length === 0;
    const shown = faults.slice(0, MOST_FAULTS);
    if (shown.length < faults.length) shown.push(words.say("more", words.number(faults.length - shown.length)));
    by("faults").replaceChildren(...shown.map(text => make("p", {}, text)));
  }
  // The names of all batches, also of those that never started.
  function named() {
    const { batches, never } = state.history;
    return [...batches.keys(), ...never.map(each => each.name)].slice(0, MOST_NAMES);
  }
  const option = (value, text, now) => make("option", { value, ...(value === now ? { selected: "" } : {}) },
    words.visible(text));
  function choices() {
    const { chosen, history } = state, rules = new Set(history.rules.filter(rule => rule !== null));
    const shown = name => (name === "bad" ? words.say("faults") : words.refusedBy(name).name);
    const fill = (field, all, names, now, said = name => name) => by(field).replaceChildren(
      option("", words.say(all), now), ...[...names].map(name => option(name, said(name), now)));
    fill("chosenBatch", "allBatches", named(), chosen.batch);
    fill("chosenTag", "allModules", history.modules.keys(), chosen.tag);
    fill("chosenRule", "allRules", rules, chosen.rule, shown);
    by("clear").hidden = chosen.isAll;
  }
  function labelled() {
    for (const each of document.querySelectorAll("[data-say]")) each.textContent = words.say(each.dataset.say);
    for (const each of document.querySelectorAll("[data-name]")) {
      each.setAttribute("aria-label", words.say(each.dataset.name));
    }
    document.documentElement.lang = words.isGerman() ? "de" : "en";
    document.title = words.say("title");
    by("language").lang = words.isGerman() ? "en" : "de";
    const hasSheet = state.history && paper.batchOf(state.found, state.chosen) !== null;
    by("print").textContent = words.say(hasSheet ? "printSheet" : "print");
    by("stamp").hidden = !state.view?.rises;
    by("stamp").setAttribute("aria-pressed", String(Boolean(state.view?.byStamp)));
    by("trends").hidden = !state.history || trendLanes([...state.history.batches.values()].slice(0, 20)).length === 0;
    by("trends").setAttribute("aria-pressed", String(state.trends));
  }

  // What the cursor touches.
  // How wide the panes are without their bars for scrolling, which both have or both lack.
  const room = () => Math.max(panes.batches.holder.clientWidth, panes.modules.holder.clientWidth);
  function move() {
    if (!state.view) return;
    ruler.draw(by("ruler"), panes.modules.edge, room(), state.view, state.alarms);
    panes.batches.later();
    panes.modules.later();
  }
  // Goes to an entry, or to what a reviewer has to look at.
  function go(to) {
    const { view, alarms } = state, isAlarm = typeof to === "object";
    view.go(isAlarm ? to.at : to);
    look(isAlarm ? alarms.indexOf(to) : alarms.findIndex(each => each.at === view.cursor));
    cursor();
  }
  // The place in the reviewer's list, or -1.
  function look(place, isNew) {
    if (state.alarm === place && !isNew) return;
    state.alarm = place;
    tables.alarms(by("alarms"), state.alarms, go, place, state.chosen.none("noAlarm"));
  }
  function cursor() {
    const { found, history, view } = state;
    move();
    entries.follow();
    if (!found.length) { by("here").replaceChildren(); return; }
    here.entry(by("here"), found, history, view);
    const own = here.batchOf(found, history, view.cursor);
    if (own !== null && history.batches.has(own)) state.batch = own;
    recipe();
  }
  // The batch whose chart is shown: the cursor's, else the chosen one, else the last one begun.
  function batchHere() {
    const { history, view, chosen } = state;
    if (chosen.batch !== "") return chosen.batch;
    if (state.batch === null || !(history.batches.has(state.batch) || history.attempts.has(state.batch))) {
      const begun = [...history.batches.values()].filter(batch => batch.started <= view.cursor).pop();
      state.batch = begun?.name ?? history.batches.keys().next().value ?? null;
    }
    return state.batch;
  }
  function recipe() {
    const { history, view } = state, name = batchHere(), batch = history.batches.get(name) ?? null;
    const attempt = batch ? null : history.attempts.get(name) ?? null, names = named();
    by("which").replaceChildren(...names.map(each => option(each, each, name)));
    by("which").hidden = names.length === 0;
    const any = attempt ? history.recipes.get(attempt.recipe) : history.recipes.values().next().value;
    const known = (batch ? batch.known : any) ?? null, standing = stand.place(history, batch, view.cursor, known);
    const never = attempt ? `${attempt.recipe} · ${words.say("neverStarted")}` : known?.name ?? "";
    by("under").textContent = batch ? here.under(batch, standing) : never;
    if (known) here.drawn(by("chart"), known, standing);
    else by("chart").replaceChildren(tables.calm("noRecipe"));
    waits(batch, attempt);
    panes.batches.hot = batch?.lane ?? attempt?.lane ?? null;
    panes.batches.later();
  }
  function waits(batch, attempt) {
    const { history, chosen } = state;
    by("waitsOf").hidden = !batch && !attempt;
    if (batch) {
      tables.waits(by("waits"), reasons.waited(batch, history), go, pick, history.stamps, chosen.none("noWait"));
    }
    if (!attempt) return;
    const told = reasons.never(attempt, history).map(text => make("li", {}, text));
    by("waits").replaceChildren(make("ul", {}, ...told));
  }
  // A batch is chosen by hand: its chart is shown, and the cursor goes to its end, or to what it waits for.
  function pick(name) {
    const { history } = state, batch = history.batches.get(name), attempt = history.attempts.get(name);
    if (state.chosen.batch !== "" && state.chosen.batch !== name) { state.chosen.batch = name; again(); }
    state.batch = name;
    if (!batch && !attempt?.why.size) {
      recipe();
      return;
    }
    go(batch ? batch.ended ?? batch.since : attempt?.first ?? 0);
  }
  // A step in the chart is pressed: the cursor goes to its start.
  function started(event) {
    const { history, view } = state, step = event.target.closest("[data-step]")?.dataset.step;
    const at = step === undefined ? null : history.batches.get(batchHere())?.startOf(step, view.cursor) ?? null;
    if (at !== null) go(at);
  }
  function choose() {
    Object.assign(state.chosen, { batch: by("chosenBatch").value, tag: by("chosenTag").value,
      rule: by("chosenRule").value });
    again();
    const rows = state.chosen.rows(), { batch } = state.chosen;
    if (batch !== "") state.batch = batch;
    const isShown = !rows?.length || rows[spans.below(rows, state.view.cursor)] === state.view.cursor;
    if (isShown) cursor();
    else go(rows[Math.max(0, spans.below(rows, state.view.cursor))]);
  }
  function pressed(pane, x, y) {
    const at = pane.entryAt(x), lane = pane.laneAt(y), name = lane?.kind === "batch" ? lane.owner ?? lane.label : null;
    if (at !== null) go(at); else if (name !== null) pick(name);
    if (name === null) return;
    state.batch = name;
    recipe();
  }
  // The next one to look at: also where several stand at one entry.
  function loud(way) {
    const { alarms, alarm, view: { cursor: at } } = state, isOn = alarms[alarm]?.at === at;
    const beside = way > 0 ? alarms.find(each => each.at > at) : alarms.findLast(each => each.at < at);
    const next = isOn ? alarms[alarm + way] : beside;
    if (next) go(next);
  }
  function zoom(factor) {
    state.view.zoom(factor);
    move();
  }
  function whole() {
    state.view.whole();
    move();
  }
  const step = by => go(entries.beside(state.view.cursor, by));
  const ready = deed => shift => (state.view && !by("main").hidden ? deed(shift) : false);
  const KEYS = {
    ArrowLeft: shift => step(shift ? -10 : -1), ArrowRight: shift => step(shift ? 10 : 1),
    Home: () => step(-Infinity), End: () => step(Infinity), n: () => loud(1), p: () => loud(-1),
    "list ArrowUp": () => step(-1), "list ArrowDown": () => step(1),
    "list PageUp": () => step(-10), "list PageDown": () => step(10),
    "+": () => zoom(0.6), "-": () => zoom(1 / 0.6), 0: whole,
  };

  // Paper.
  function toPaper(isPaper) {
    document.documentElement.classList.toggle("paper", isPaper);
    if (!state.history) return;
    const { view, found, history, chosen } = state;
    paint.repaint();
    if (isPaper) {
      state.kept = [view.low, view.high];
      view.whole();
      paper.fill(by("paper"), { found, history, chosen, panes, verdict: seal.told(found, history) });
      return;
    }
    view.set(...state.kept);
    paper.empty(by("paper"));
    again();
    move();
  }
  function start() {
    const press = (id, deed) => by(id).addEventListener("click", deed);
    by("file").addEventListener("change", () => { if (by("file").files.length) open(by("file").files); });
    for (const id of ["open", "openToo"]) press(id, () => by("file").click());
    for (const id of ["chosenBatch", "chosenTag", "chosenRule"]) by(id).addEventListener("change", choose);
    press("clear", () => { for (const id of ["chosenBatch", "chosenTag", "chosenRule"]) by(id).value = ""; choose(); });
    press("language", () => { words.set(!words.isGerman()); again(); if (state.history) cursor(); });
    press("stamp", () => { state.view.byStamp = !state.view.byStamp; state.view.whole(); labelled(); move(); });
    press("trends", () => { state.trends = !state.trends; again(); move(); });
    press("whole", whole);
    press("closer", () => zoom(0.6));
    press("wider", () => zoom(1 / 0.6));
    press("print", () => print());
    by("which").addEventListener("change", () => pick(by("which").value));
    by("chart").addEventListener("click", started);
    by("ruler").addEventListener("pointerdown", event => {
      const { view } = state, wide = by("ruler").clientWidth, half = view.size / 2;
      const value = ruler.valueAt(panes.modules.edge, wide, view, event.offsetX);
      view.set(value - half, value + half);
      move();
    });
    hands.keys(Object.fromEntries(Object.entries(KEYS).map(([key, deed]) => [key, ready(deed)])));
    hands.drops(open);
    for (const pane of Object.values(panes)) hands.handle(pane, { moved: move, pressed });
    addEventListener("resize", () => { again(); move(); });
    addEventListener("beforeprint", () => toPaper(true));
    addEventListener("afterprint", () => toPaper(false));
    matchMedia("(prefers-color-scheme: dark)").addEventListener("change", () => { again(); move(); });
    again();
  }
  start();
  return { state, panes, go, entries, open };
})();
