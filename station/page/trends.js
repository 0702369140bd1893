// What modules reported over time: a line for each variable, a strip for the states of each service. Asked for only of
// the modules that are on the screen.
"use strict";
const trends = (() => {
  const { make } = draw;
  // In pixels: how high a line and a strip are, how much stays free above and below, how far off the screen is near.
  const TALL = { variable: 44, service: 16 }, ROOM = 4, NEAR = 200;
  const SPANS = ["recent", "whole", "none"];
  const state = { span: SPANS.find(each => each === localStorage.trends) ?? SPANS[0], told: null, isAsking: false };
  const clock = stamp => new Date(stamp).toLocaleTimeString(words.isGerman() ? "de" : "en-GB");
  // The place in a module's card where its lines are drawn.
  const place = tag => (state.span === "none" ? null
    : make("div", { class: "trends", "data-key": "trends", "data-trends": tag, "data-drawn": true }));
  const holders = () => [...document.querySelectorAll("[data-trends]")].filter(each => {
    const { top, bottom } = each.getBoundingClientRect();
    return bottom > -NEAR && top < innerHeight + NEAR;
  });
  // Asks for the lines of what is seen, and draws them.
  async function ask() {
    const seen = holders();
    if (state.isAsking || !seen.length || document.hidden) return;
    state.isAsking = true;
    const tags = seen.map(each => `&tag=${encodeURIComponent(each.dataset.trends)}`).join("");
    try {
      const given = await fetch(`trends?span=${state.span}${tags}`);
      if (given.ok) state.told = await given.json();
      show();
    } catch {
      // The page says that the station doesn't answer.
    }
    state.isAsking = false;
  }
  function show() {
    if (!state.told || !page.state.live) return;
    for (const holder of document.querySelectorAll("[data-trends]")) {
      const module = page.state.live.modules.find(each => each.tag === holder.dataset.trends);
      const lines = state.told.lines.filter(each => each.tag === holder.dataset.trends);
      if (module && lines.length) showModule(holder, module, lines);
    }
  }
  function showModule(holder, module, lines) {
    const known = lines.map(line => ({ ...line, ...describe(module, line) })).filter(each => each.label);
    known.sort((one, other) => one.order - other.order);
    const ends = [state.told.from, state.told.to].map(each => make("span", { class: "faint" }, clock(each)));
    draw.fill(holder, [...known.map(row), make("div", { class: "ends", "data-key": "ends" }, ...ends)]);
    for (const line of known) {
      const canvas = holder.querySelector(`[data-key="${line.kind} ${line.name}"] canvas`);
      paintLine(canvas, line);
    }
  }
  // How a line is called, between what it ran, and where it stands: variables before services.
  function describe(module, { kind, name, places }) {
    const all = [...module.values, ...module.services];
    const own = (kind === "service" ? module.services : module.values).find(each => each.name === name);
    const range = kind === "service" ? lastOf(places) : rangeOf(own, places);
    return { label: own?.label, order: all.indexOf(own), range };
  }
  function lastOf(places) {
    const last = places[places.length - 1]?.[3] ?? null;
    return last === null ? words.say("unreported") : nameOf(last);
  }
  function rangeOf(own, places) {
    const [low, high] = bounds(places);
    const said = value => own?.texts[value] ?? words.value(own?.kind === "BinView" ? Boolean(value) : value, own?.kind);
    const unit = own?.unit ? ` ${own.unit}` : "";
    if (low === null) return "–";
    return (low === high ? said(low) : words.say("fromTo", said(low), said(high))) + unit;
  }
  function bounds(places) {
    const known = places.flatMap(([, low, high]) => (low === null ? [] : [low, high]));
    return known.length ? [Math.min(...known), Math.max(...known)] : [null, null];
  }
  const row = line => make("div", { class: "trend", "data-key": `${line.kind} ${line.name}` },
    make("span", {}, words.visible(line.label)), make("span", { class: "faint" }, line.range),
    make("canvas", { role: "img", "data-key": "line", "aria-label": `${words.visible(line.label)}: ${line.range}` }));
  const nameOf = rank => words.state(state.told.states[rank]);
  // A canvas as sharp as the screen, cleared.
  function cleared(canvas, tall) {
    const wide = canvas.clientWidth, sharp = devicePixelRatio || 1, g = canvas.getContext("2d");
    canvas.width = Math.round(wide * sharp);
    canvas.height = Math.round(tall * sharp);
    g.scale(sharp, sharp);
    g.fillStyle = paint.colours.lane;
    g.fillRect(0, 0, wide, tall);
    return [g, wide];
  }
  function paintLine(canvas, line) {
    const tall = TALL[line.kind], [g, wide] = cleared(canvas, tall), { begin, lasts, from, to } = state.told;
    const x = each => Math.max(0, (begin + each * lasts - from) / Math.max(1, to - from) * wide);
    if (line.kind === "service") strip(g, line.places, x, wide, tall);
    else values(g, line.places, x, wide, tall);
  }
  // Values: a place is a stroke from its least to its greatest, and holds its last until the next one.
  function values(g, places, x, wide, tall) {
    const [low, high] = bounds(places), size = high - low;
    const y = each => (each === null ? NaN : size ? tall - ROOM - (each - low) / size * (tall - 2 * ROOM) : tall / 2);
    let pen = null;
    g.strokeStyle = paint.colours.trend; g.lineWidth = 1.6; g.beginPath();
    for (const [at, ...found] of places) for (const each of found) {
      if (each !== null || each === found[2]) pen = pens.step(g, pen, x(at), y(each));
    }
    if (pen) {
      pens.flush(g, pen);
      g.lineTo(wide, pen.y);
    }
    g.stroke();
  }
  // States: a place shows the gravest of them, and the time behind it the last one.
  function strip(g, places, x, wide, tall) {
    const spans = places.flatMap(([at, , gravest, last], k) => [[x(at), gravest ?? last],
      ...(places[k + 1]?.[0] === at + 1 ? [] : [[x(at + 1), last]])]);
    const starts = spans.filter(([, rank], k) => k === 0 || rank !== spans[k - 1][1]);
    starts.forEach(([left, rank], k) => {
      const right = Math.min(wide, starts[k + 1]?.[0] ?? wide);
      const style = rank === null ? "unreported" : modules.style(nameOf(rank));
      if (right > left) paint.bar(g, style, left, right - left, 0, tall);
    });
  }
  function choose(field) {
    state.span = localStorage.trends = field.value;
    state.told = null;
  }
  // The field in which the span is chosen.
  function control() {
    const options = SPANS.map(each => make("option", { value: each, "data-key": each }, words.say(`trends_${each}`)));
    draw.into("span", ...options);
    document.getElementById("span").value = state.span;
  }
  return { place, ask, show, choose, control };
})();
