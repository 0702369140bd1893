// A pen that draws values as a line of steps: one stroke a pixel, from the least to the greatest value in it. Knows
// nothing of what the values are.
"use strict";
const pens = (() => {
  // The pen goes to a new value: level to its place, then up or down. NaN lifts it.
  function step(g, pen, x, y) {
    if (Number.isNaN(y)) {
      if (pen) flush(g, pen);
      if (pen) g.lineTo(x, pen.y);
      return null;
    }
    if (!pen) {
      g.moveTo(x, y);
      return { x, y, top: y, foot: y };
    }
    if (x - pen.x < 1) return { x: pen.x, y, top: Math.min(pen.top, y), foot: Math.max(pen.foot, y) };
    flush(g, pen);
    g.lineTo(x, pen.y); g.lineTo(x, y);
    return { x, y, top: y, foot: y };
  }
  function flush(g, pen) {
    if (pen.top === pen.foot) return;
    g.lineTo(pen.x, pen.top); g.lineTo(pen.x, pen.foot); g.lineTo(pen.x, pen.y);
  }
  return { step, flush };
})();
