// Colours and the smallest parts of a drawing on a canvas: bars of states, marks, texts that fit. The colours stand in
// style.css and are read from there. Knows nothing of lanes, and nothing of entries.
"use strict";
const paint = (() => {
  const NAMES = ["ground", "lane", "ink", "faint", "rule", "cursor", "idle", "run", "run-ink", "move", "full", "pause",
    "hold",
    "hold-ink", "stop", "left", "abort", "loud-ink", "away", "held", "asked", "batch", "wait", "trend"];
  // How high a bar of a style stands in its lane: what does most stands highest, so that it reads without colours too.
  const SHARE = { idle: 0.14, unreported: 0.1, free: 0.1, move: 0.72, full: 0.72, held: 0.8, watch: 0.3 };
  const TEETH = 5;
  const INKS = { run: "run-ink", abort: "loud-ink", stop: "loud-ink", left: "loud-ink", hold: "hold-ink" };
  const colours = {};
  function repaint() {
    const style = getComputedStyle(document.documentElement);
    for (const name of NAMES) colours[name] = style.getPropertyValue(`--${name}`).trim();
    Object.assign(colours, { free: colours.idle, unreported: colours.idle, mode: colours.asked, watch: colours.away });
    colours.small = `10.5px ${style.getPropertyValue("--sans")}`;
    colours.font = `12px ${style.getPropertyValue("--sans")}`;
  }
  // The text, or as much of its front as there is room for.
  function fit(g, text, room) {
    if (g.measureText(text).width <= room) return text;
    let size = text.length;
    while (size > 1 && g.measureText(`${text.slice(0, size)}…`).width > room) size -= 1;
    return `${text.slice(0, size)}…`;
  }
  function combed(g, style, x, wide, top, high) {
    g.fillRect(x, top, wide, style === "away" ? 2 : 1);
    for (let at = x; at < x + wide; at += 5) g.fillRect(at, top, 2, high);
  }
  function dotted(g, x, wide, top) { for (let at = x; at < x + wide; at += 7) g.fillRect(at, top,
    Math.min(3, x + wide - at), 2); }
  // A bar from x on, with its foot on the foot of its track. Answers where its text may stand: top and height, or null.
  function bar(g, style, x, wide, y, tall) {
    const share = SHARE[style] ?? 1, high = Math.max(style === "mode" ? 3 : 2, Math.round(tall * share));
    const top = Math.round(style === "watch" ? y : y + tall - high);
    g.fillStyle = colours[style] ?? colours.idle;
    if (style === "unreported" || style === "watch") dotted(g, x, wide, top);
    else if (style === "away" || style === "wait") combed(g, style, x, wide, top, style === "away" ? high : TEETH);
    else g.fillRect(x, top, Math.max(1, wide - (wide > 3 ? 1 : 0)), high);
    if (style === "hold" && wide > 4) {
      g.strokeStyle = colours.ink; g.lineWidth = 1;
      g.strokeRect(Math.round(x) + 0.5, top + 0.5, Math.round(wide) - 2, high - 1);
    }
    return share >= 0.5 && style !== "batch" ? { top, high } : null;
  }
  // A name stands in its bar whole or not at all, beside the marks that stand there.
  function name(g, text, style, x, wide, place, marks) {
    g.font = style === "wait" ? colours.small : colours.font;
    const width = g.measureText(text).width;
    let left = x + 5;
    for (const mark of marks) if (mark > left - 8 && mark < left + width + 8) left = mark + 9;
    if (left + width + 3 > x + wide) return;
    g.textAlign = "left";
    const isAway = style === "away";
    if (isAway || style === "wait") {
      g.fillStyle = isAway ? colours.ground : colours.batch;
      g.fillRect(left - 3, place.top + (isAway ? 3 : 0), width + 6, place.high - (isAway ? 5 : 0));
    }
    g.fillStyle = colours[INKS[style]] ?? colours.ink;
    g.fillText(text, left, place.top + place.high / 2 + 1);
  }
  function shape(g, points) {
    g.beginPath();
    points.forEach(([x, y], k) => (k ? g.lineTo(x, y) : g.moveTo(x, y)));
    g.fill();
  }
  function cross(g, x, y) {
    g.strokeStyle = colours.ground;
    for (const wide of [4.5, 1.8]) {
      g.lineWidth = wide;
      g.beginPath(); g.moveTo(x - 4, y - 4); g.lineTo(x + 4, y + 4); g.moveTo(x + 4, y - 4); g.lineTo(x - 4, y + 4);
      g.stroke();
      g.strokeStyle = colours.ink;
    }
  }
  // A sign of warning: a triangle that stands on its side, with an exclamation mark.
  function warning(g, x, y) {
    g.fillStyle = colours.ground; shape(g, [[x, y], [x + 9, y + 16], [x - 9, y + 16]]);
    g.fillStyle = colours.left; shape(g, [[x, y + 2], [x + 7, y + 15], [x - 7, y + 15]]);
    g.fillStyle = colours["loud-ink"]; g.fillRect(x - 1, y + 6, 2, 5); g.fillRect(x - 1, y + 12, 2, 2);
  }
  function post(g, colour, x, y, wide, tall) { g.fillStyle = colour; g.fillRect(x - wide / 2, y, wide, tall); }
  // A mark at x in a lane of this height; foot is the height of what lies at the lane's foot.
  function mark(g, kind, x, y, tall, foot) {
    if (kind === "log") post(g, colours.ink, Math.round(x), y + tall - foot - 4, 1.5, 4);
    else if (kind === "node") {
      g.fillStyle = colours.ink;
      shape(g, [[x, y + 4], [x + 5, y + 9], [x, y + 14], [x - 5, y + 9]]);
    }
    else if (kind === "refused") cross(g, x, y + 9);
    else if (kind === "asked") { g.fillStyle = colours.asked; shape(g, [[x - 5, y + 3], [x + 5, y + 3], [x, y + 12]]); }
    else if (kind === "left") warning(g, Math.round(x), y);
    else if (kind === "broke") post(g, colours.abort, x, y + 1, 4, tall - 2);
    else if (kind === "stop") post(g, colours.stop, x, y + 1, 3, tall - 2);
    else if (kind.startsWith("end ")) {
      post(g, kind === "end full" ? colours.ink : colours[kind.slice(4)], x, y + 2, 6, tall - 4);
    }
  }
  return { colours, repaint, fit, bar, name, mark, shape };
})();
