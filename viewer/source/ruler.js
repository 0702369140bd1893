// The strip above the panes: the whole history with what is loud and the window that is seen, and the ticks of the axis
// below it. Knows nothing of lanes but where they begin.
"use strict";
const ruler = (() => {
  const TALL = 42, LOW = 22, TOP = 4, HIGH = 10;
  // Draws it as wide as the panes below it; edge is where their bars begin.
  function draw(canvas, edge, wide, view, loud) {
    const g = begin(canvas, wide, TALL, window.devicePixelRatio || 1);
    overview(g, edge, wide, view, loud);
    ticks(g, edge, wide, view, TOP + HIGH + 4);
  }
  // For paper: the ticks alone.
  const scale = (canvas, edge, wide, view, ratio) => ticks(begin(canvas, wide, LOW, ratio), edge, wide, view, 0);
  function begin(canvas, wide, tall, ratio) {
    const g = canvas.getContext("2d");
    canvas.width = wide * ratio; canvas.height = tall * ratio;
    canvas.style.width = `${wide}px`; canvas.style.height = `${tall}px`;
    g.setTransform(ratio, 0, 0, ratio, 0, 0);
    g.font = paint.colours.font; g.textBaseline = "middle";
    g.fillStyle = paint.colours.ground; g.fillRect(0, 0, wide, tall);
    return g;
  }
  function overview(g, edge, wide, view, loud) {
    const across = value => edge + value / Math.max(1, view.end()) * (wide - edge), { colours } = paint;
    g.fillStyle = colours.rule; g.fillRect(edge, TOP, wide - edge, HIGH);
    g.fillStyle = colours.move; g.fillRect(across(view.low), TOP, Math.max(3, across(view.high) - across(view.low)),
      HIGH);
    let last = -9;
    for (const { at, style } of loud) {
      const x = across(view.middle(at));
      if (x - last < 2) continue;
      g.fillStyle = colours[style] ?? colours.ink; g.fillRect(x - 1, TOP - 2, 2, HIGH + 4);
      last = x;
    }
    g.fillStyle = colours.cursor; g.fillRect(across(view.middle(view.cursor)) - 1, 0, 2, TOP + HIGH + 4);
  }
  function ticks(g, edge, wide, view, top) {
    const step = view.step(Math.max(2, (wide - edge) / (view.byStamp ? 110 : 80))), offset = view.offset();
    g.textAlign = "center";
    for (let value = Math.ceil((view.low + offset) / step) * step - offset; value < view.high; value += step) {
      if (value < 0) continue;
      const x = edge + (value - view.low + (view.byStamp ? 0 : 0.5)) / view.size * (wide - edge),
        text = view.label(value, step);
      const room = g.measureText(text).width / 2;
      if (x + room > wide || x - room < 0) continue;
      g.fillStyle = paint.colours.faint; g.fillRect(x, top, 1, 4);
      g.fillText(text, x, top + 13);
    }
  }
  // The value under a point of the whole strip.
  const valueAt = (edge, wide, view, x) => (x - edge) / (wide - edge) * view.end();
  return { draw, scale, valueAt };
})();
