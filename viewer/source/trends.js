// Lanes of values: a variable that a batch's conditions read, from the batch's start to its end, with the limits that
// it is compared with and its value at the cursor. Knows nothing of how a pane lays out its lanes.
"use strict";
const trends = (() => {
  const ROOM = 6;
  class Trend {
    constructor(batch, read, series, kindAt) {
      Object.assign(this, { kind: "trend", batch, read, series, kindAt, label: `${read.role}.${read.name}`,
        edges: null });
    }
    // Before its batch began, the module may not have been there: then kinds are those of the start.
    said(value, at) {
      const kind = this.kindAt(Math.max(at, this.batch.started));
      return kind === "BinView" ? String(Boolean(value)) : words.value(value, kind);
    }
    limits(at) {
      return this.read.limits.map(({ op, value }) => `${recipes.sign(op)} ${this.said(value, at)}`).join(", ");
    }
    // The value known at an entry within the batch's time, as it is said; else null.
    now(at) {
      if (at < this.batch.started || (this.batch.ended !== null && at > this.batch.ended)) return null;
      const value = this.series.known(at);
      return Number.isNaN(value) ? null : this.said(value, at);
    }
    // The least and the greatest value within the batch's time, limits included.
    bounds() {
      if (this.edges) return this.edges;
      const { at, value } = this.series, end = this.batch.ended ?? Infinity;
      let low = Infinity, high = -Infinity;
      const see = each => {
        if (Number.isNaN(each)) return;
        low = Math.min(low, each);
        high = Math.max(high, each);
      };
      for (const limit of this.read.limits) see(Number(limit.value));
      for (let k = Math.max(0, spans.below(at, this.batch.started)); k < at.length && at[k] <= end; k += 1) {
        see(value[k]);
      }
      this.edges = low > high ? [0, 1] : low === high ? [low - 1, high + 1] : [low, high];
      return this.edges;
    }
    title(g, x, y, tall, room, cursor, onPaper) {
      const now = onPaper ? null : this.now(cursor), limits = this.limits(cursor);
      const name = paint.fit(g, this.label, room);
      const second = now === null ? limits : `${limits} · ${words.say("nowIs", now)}`, middle = y + tall / 2 + 1;
      const isOneLine = tall < 30, apart = isOneLine ? 0 : 8, used = isOneLine ? g.measureText(name).width + 8 : 0;
      g.fillText(name, x, middle - apart);
      g.fillStyle = paint.colours.faint;
      g.fillText(paint.fit(g, second, room - used), x + used, middle + apart);
    }
    draws(pane, _, y, tall) {
      const [low, high] = this.bounds(), end = this.batch.ended ?? pane.view.count;
      const place = value => y + tall - ROOM - (value - low) / (high - low) * (tall - 2 * ROOM);
      const from = pane.x(pane.view.value(this.batch.started)), to = pane.x(pane.view.value(end));
      pane.g.fillStyle = paint.colours.batch; pane.g.globalAlpha = 0.5;
      pane.g.fillRect(from, y + 3, to - from, tall - 5);
      pane.g.globalAlpha = 1;
      this.limitLines(pane.g, from, to, place);
      this.line(pane, place, end);
    }
    limitLines(g, from, to, place) {
      g.strokeStyle = paint.colours.asked; g.lineWidth = 1; g.setLineDash([5, 4]);
      for (const { value } of this.read.limits) {
        const y = Math.round(place(Number(value))) + 0.5;
        g.beginPath(); g.moveTo(from, y); g.lineTo(to, y); g.stroke();
      }
      g.setLineDash([]);
    }
    // The values as a line of steps: one stroke a pixel, from the least to the greatest value in it.
    line(pane, place, end) {
      const { g, view } = pane, { at, value } = this.series, last = Math.min(end, pane.entries[pane.wide] + 1);
      let pen = null;
      g.strokeStyle = paint.colours.trend; g.lineWidth = 1.6; g.beginPath();
      const first = Math.max(0, spans.below(at, Math.max(this.batch.started, pane.entries[0])));
      for (let k = first; k < at.length && at[k] <= last; k += 1) {
        const x = Math.max(pane.edge - 2, pane.x(view.value(Math.max(this.batch.started, at[k]))));
        pen = pens.step(g, pen, x, place(value[k]));
      }
      if (pen) {
        pens.flush(g, pen);
        g.lineTo(Math.min(pane.width + 2, pane.x(view.value(Math.min(end, view.count)))), pen.y);
      }
      g.stroke();
      if (!pane.onPaper) this.dot(pane, place);
    }
    dot(pane, place) {
      const { cursor } = pane.view, value = this.now(cursor) === null ? NaN : this.series.known(cursor);
      if (Number.isNaN(value)) return;
      pane.g.fillStyle = paint.colours.cursor;
      pane.g.beginPath(); pane.g.arc(pane.x(pane.view.middle(cursor)), place(value), 3.5, 0, 7); pane.g.fill();
    }
  }
  // The trends of a batch: one for each variable that its chart reads and its modules reported.
  function of(batch, history) {
    const made = [];
    for (const read of batch.known?.reads ?? []) {
      const tag = batch.tagOf(read.role), series = history.modules.get(tag)?.series.get(read.name);
      if (series) made.push(new Trend(batch, read, series, at => history.kindAt(tag, read.name, at)));
    }
    return made;
  }
  return { of };
})();
