// The page's beat: the stream of what there is, what a person asks for, who that is, and the language.
"use strict";
const page = (() => {
  const by = id => document.getElementById(id);
  // In milliseconds: how long a deed that wants a second press waits for it, how long an answer is shown, and how often
  // trends are asked for.
  const SURE = 5000, SHOWN = 9000, BEAT = 1000, SILENCE = 16000, TRENDS = 2000;
  const state = { live: null, ahead: 0, heard: 0, stream: null, person: localStorage.person ?? "" };
  const now = () => Date.now() + state.ahead;

  // Asking.
  function say(text) {
    by("said").textContent = text;
    by("said").hidden = false;
    clearTimeout(state.saying);
    state.saying = setTimeout(() => { by("said").hidden = true; }, SHOWN);
  }
  async function give(deed) {
    const body = JSON.stringify({ ...deed, by: state.person });
    const given = await fetch("do", { method: "POST", headers: { "Content-Type": "application/json" }, body });
    if (!given.ok) throw new Error(String(given.status));
    return given.json();
  }
  async function ask(deed) {
    try {
      say(`${words.say("youAsked", words.say(`deed_${deed.do}`))}: ${draw.reason(await give(deed))}`);
    } catch (fault) {
      say(words.say("noAnswerCame", fault.message));
    }
  }
  // Why a start wouldn't be permitted now; null where it would.
  async function would(deed) {
    try {
      const answer = await give({ ...deed, do: "would" }), said = answer.would ?? answer;
      return "done" in said ? null : said;
    } catch {
      return { station: "asking" };
    }
  }
  // A press. One that wants to be sure is done at the second press.
  function press(button) {
    const { deed } = button.dataset, isFirst = button.dataset.sure !== undefined && draw.armed.deed !== deed;
    arm(isFirst ? deed : null);
    if (isFirst) say(words.say("pressAgain", button.textContent));
    else ask(JSON.parse(deed));
  }
  // A press by a finger counts only where the button didn't come under it just now; a key is pressed where it stands.
  function pressAt(button, { detail, pageX, pageY }) {
    if (detail > 0 && steady.isFresh(button, pageX, pageY)) say(words.say("justMoved"));
    else press(button);
  }
  function arm(deed) {
    clearTimeout(state.armed);
    draw.armed.deed = deed;
    if (deed) state.armed = setTimeout(() => arm(null), SURE);
    show();
  }

  // Drawing.
  const clock = () => (words.isGerman() ? "de" : "en-GB");
  function since() {
    for (const each of document.querySelectorAll("[data-since]")) {
      const since = Number(each.dataset.since), lasted = words.lasted(since, now()) || "0 s";
      each.textContent = words.say("sinceWhen", new Date(since).toLocaleTimeString(clock()), lasted);
    }
  }
  function link() {
    const isOld = Date.now() - state.heard > SILENCE || state.stream?.readyState !== EventSource.OPEN;
    by("link").classList.toggle("old", isOld);
    by("link").textContent = words.say(isOld ? "isOld" : "isLive");
  }
  function people() {
    const names = [...new Set([...(state.live?.people ?? []), ...(state.person ? [state.person] : [])])];
    const options = names.map(name => draw.make("option", { value: name, "data-key": name }, name));
    draw.into("by", draw.make("option", { value: "", "data-key": "-" }, words.say("nobody")), ...options);
    by("by").value = state.person;
    by("hint").hidden = state.person !== "";
  }
  function show() {
    for (const each of document.querySelectorAll("[data-say]")) each.textContent = words.say(each.dataset.say);
    document.documentElement.lang = words.isGerman() ? "de" : "en";
    document.title = words.say("plantNow");
    people();
    link();
    trends.control();
    if (!state.live) return;
    by("counts").textContent = words.say("entriesOf", words.number(state.live.entries));
    by("counts").title = [state.live.begun, state.live.sum].filter(each => each).join(", ");
    draw.into("renew", draw.button(words.say("deed_renew"), { do: "renew" }, state.live.renew, { sure: true }));
    modules.show(state.live);
    batches.show(state.live);
    lists.show(state.live, now());
    since();
    charts.paintAll(state.live);
    steady.look();
    document.body.dataset.ready = "yes";
  }

  // The stream.
  function listen() {
    state.stream?.close();
    state.stream = new EventSource(`live?by=${encodeURIComponent(state.person)}`);
    state.stream.addEventListener("message", told => {
      const isFirst = state.live === null;
      state.live = JSON.parse(told.data);
      state.ahead = state.live.now - Date.now();
      state.heard = Date.now();
      show();
      if (isFirst) trends.ask();
    });
    state.stream.addEventListener("beat", () => { state.heard = Date.now(); link(); });
    state.stream.addEventListener("open", () => { state.heard = Date.now(); link(); });
    state.stream.addEventListener("error", link);
  }
  function choosePerson() {
    state.person = localStorage.person = by("by").value;
    listen();
  }
  function language(isGerman) {
    words.set(isGerman);
    localStorage.german = isGerman ? "yes" : "";
    show();
    trends.show();
  }
  document.addEventListener("click", event => {
    const button = event.target.closest("button");
    if (button?.dataset.deed && !button.disabled) pressAt(button, event);
    if (button?.dataset.chartOf) {
      charts.toggle(button.dataset.chartOf);
      show();
    }
  });
  document.addEventListener("change", event => {
    const { recipe, tag } = event.target.dataset;
    if (recipe !== undefined) batches.choose(event.target);
    if (tag !== undefined) modules.choose(event.target);
    if (event.target.id === "span") trends.choose(event.target);
    show();
    trends.ask();
  });
  by("by").addEventListener("change", choosePerson);
  by("language").addEventListener("click", () => language(!words.isGerman()));
  // The colours and the room are others: all is drawn anew.
  function repaint() {
    paint.repaint();
    show();
    trends.show();
  }
  matchMedia("(prefers-color-scheme: dark)").addEventListener("change", repaint);
  addEventListener("resize", repaint);
  setInterval(() => { link(); since(); if (state.live) lists.show(state.live, now()); since(); steady.look(); }, BEAT);
  setInterval(trends.ask, TRENDS);
  paint.repaint();
  language(localStorage.german === undefined ? navigator.language.startsWith("de") : localStorage.german === "yes");
  listen();
  return { would, show, state };
})();
