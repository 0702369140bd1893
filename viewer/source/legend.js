// What the bars and marks of the drawing mean, drawn by the same hand. Knows nothing of entries.
"use strict";
const legend = (() => {
  const WIDE = 22, TALL = 16;
  const BARS = [["idle", "Idle"], ["move", "Starting, Completing, Resetting …"], ["run", "Execute"],
    ["full", "Completed"],
    ["pause", "Pausing, Paused"], ["hold", "holding"], ["stop", "stopping"],
      ["abort", "Aborting, Aborted"]];
  const SPANS = [["unreported", "unreported"], ["held", "held"], ["watch", "watching"], ["away", "away"],
    ["wait", "waiting"], ["mode", "operator"]];
  const MARKS = [["refused", "refused"], ["asked", "asked"], ["log", "logged"], ["node", "node"],
    ["left", "leftRunning"], ["end full", "ended"]];
  function sign(draw) {
    const canvas = document.createElement("canvas"), ratio = window.devicePixelRatio || 1, g = canvas.getContext("2d");
    canvas.width = WIDE * ratio; canvas.height = TALL * ratio;
    canvas.setAttribute("aria-hidden", "true");
    g.scale(ratio, ratio);
    g.fillStyle = paint.colours.ground; g.fillRect(0, 0, WIDE, TALL);
    draw(g);
    return canvas;
  }
  // Where a bar's track lies in its sign, and how tall it is.
  const TRACKS = { wait: [6, 6], mode: [10, 3], watch: [6, 5] };
  const barred = style => sign(g => paint.bar(g, style, 0, WIDE, ...(TRACKS[style] ?? [2, TALL - 4])));
  const marked = kind => sign(g => paint.mark(g, kind, WIDE / 2, kind === "log" ? -2 : -1, TALL, 0));
  function fill(holder) {
    const item = (drawn, text) => tables.make("span", {}, drawn, text);
    holder.replaceChildren(...BARS.map(([style, name]) => item(barred(style), words.say(name))),
      ...SPANS.map(([style, key]) => item(barred(style), words.say(key))),
        ...MARKS.map(([kind, key]) => item(marked(kind), words.say(key))));
  }
  return { fill };
})();
