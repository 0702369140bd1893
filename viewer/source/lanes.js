// A pane of lanes on a canvas: draws only the lanes and the pixels that are seen, whatever the history's length. A span
// is a pixel wide at least where there are few, and one that must not be overlooked two pixels in any case. Knows
// nothing of files, and nothing of what its lanes stand for but their kinds.
"use strict";
const lanes = (() => {
  const ROW = { service: 26, module: 28, slot: 21, trend: 40, wait: 13, pad: 7, label: 17 };
  // More spans than a pixel in so many turn bars into noise: then their share is drawn.
  const DENSE = 6, PROFILED = new Set(["state", "step"]), COMMON = new Set(["log", "refused", "node"]);
  const isNarrow = () => window.innerWidth < 700;
  class Pane {
    constructor(holder, name) {
      Object.assign(this, { holder, name, lanes: [], tops: [], view: null, hot: null, hides: () => false });
      this.room = holder.appendChild(document.createElement("div"));
      this.canvas = this.room.appendChild(document.createElement("canvas"));
      this.canvas.setAttribute("role", "img");
      holder.addEventListener("scroll", () => this.later(), { passive: true });
    }
    show(shown, view, edge) {
      Object.assign(this, { lanes: shown, view, wideEdge: edge });
      this.layout(isNarrow());
      this.later();
    }
    // Narrow: each lane's label stands above its bars. Else it stands left of the edge.
    layout(above) {
      this.above = above; this.edge = above ? 0 : this.wideEdge; this.tops = [];
      let y = 0;
      for (const lane of this.lanes) { this.tops.push(y); y += this.tall(lane); }
      this.room.style.height = `${y}px`;
      this.total = y;
    }
    tall(lane) {
      const label = this.above ? ROW.label : 0;
      if (lane.kind !== "batch") return label + ROW[lane.kind];
      const slots = lane.tracks.filter(track => track.form === "step").length;
      return label + ROW.pad + ROW.wait + ROW.slot * Math.max(1, slots);
    }
    later() {
      if (this.waits) return;
      this.waits = true;
      requestAnimationFrame(() => { this.waits = false; this.draw(); });
    }
    x(value) { return this.edge + (value - this.view.low) / this.view.size * (this.width - this.edge); }
    valueAt(x) { return this.view.low + (x - this.edge) / (this.width - this.edge) * this.view.size; }
    resize(width, height, ratio) {
      const { canvas } = this, wide = Math.round(width * ratio), tall = Math.round(height * ratio);
      this.width = width; this.height = height;
      if (canvas.width !== wide || canvas.height !== tall) { canvas.width = wide; canvas.height = tall; }
      canvas.style.width = `${width}px`; canvas.style.height = `${height}px`;
    }
    draw() {
      if (!this.view || this.holder.clientWidth === 0) return;
      const began = performance.now(), ratio = window.devicePixelRatio || 1;
      this.resize(this.holder.clientWidth, Math.min(this.total, this.holder.clientHeight), ratio);
      this.paint(this.canvas, this.holder.scrollTop, ratio, false);
      this.took = performance.now() - began;
    }
    paint(canvas, top, ratio, onPaper) {
      const g = canvas.getContext("2d");
      Object.assign(this, { g, onPaper });
      g.setTransform(ratio, 0, 0, ratio, 0, 0);
      g.font = paint.colours.font; g.textBaseline = "middle";
      g.fillStyle = paint.colours.ground; g.fillRect(0, 0, this.width, this.height);
      this.begin();
      const first = Math.max(0, spans.below(this.tops, top)), foot = top + this.height;
      for (let k = first; k < this.lanes.length && this.tops[k] < foot; k += 1) {
        this.lane(this.lanes[k], this.tops[k] - top);
      }
    }
    // The entry whose bar begins at each pixel: worked out once a drawing, used by every lane.
    begin() {
      const wide = Math.ceil(this.width - this.edge);
      this.entries = new Int32Array(wide + 1);
      for (let px = 0; px <= wide; px += 1) this.entries[px] = this.view.entry(this.valueAt(this.edge + px));
      this.wide = wide;
    }
    lane(lane, y) {
      const { g } = this, tall = this.tall(lane), label = this.above ? ROW.label : 0;
      if (lane.kind === "module" || lane === this.hot) {
        g.fillStyle = paint.colours.lane;
        g.fillRect(0, y, this.width, tall);
      }
      g.fillStyle = paint.colours.rule;
      g.fillRect(lane.kind === "service" || lane.kind === "trend" ? 14 : 0, y, this.width, 1);
      g.save();
      g.beginPath(); g.rect(this.edge, y, this.width - this.edge, tall); g.clip();
      (lane.kind === "trend" ? lane : this).draws(this, lane, y + label, tall - label);
      if (!this.onPaper) this.cursor(y + label, tall - label);
      g.restore();
      this.label(lane, y, label || tall);
    }
    // The cursor is drawn lane by lane, so that it crosses no label.
    cursor(y, tall) {
      this.g.fillStyle = paint.colours.cursor;
      this.g.fillRect(Math.round(this.x(this.view.middle(this.view.cursor))) - 1, y, 2, tall);
    }
    // The bars of a lane and the marks upon them.
    draws(_, lane, y, tall) {
      this.marked = this.marksSeen(lane);
      this.tracks(lane, y, tall);
      this.marks(lane, y, tall);
    }
    tracks(lane, y, tall) {
      let slot = y + 4;
      for (const track of lane.tracks) {
        if (track.form === "whole") this.track(track, y + 2, tall - 4);
        else if (track.form === "wait") this.track(track, y + tall - ROW.wait - 1, ROW.wait);
        else if (track.form === "mode") this.track(track, y + tall - 4, 3);
        else if (track.form === "watch") this.track(track, y + 2, 5);
        else if (track.form === "step") { this.track(track, slot, ROW.slot - 3); slot += ROW.slot; }
        else this.track(track, y + 4, tall - 7);
      }
    }
    label(lane, y, tall) {
      const { g } = this, indent = lane.kind === "service" ? 22 : lane.kind === "trend" ? 14 : 8;
      const room = (this.edge || this.width) - indent - 8, isStrong = lane.kind === "batch" || lane.kind === "module";
      g.textAlign = "left"; g.fillStyle = paint.colours.ink;
      g.font = (isStrong ? "600 " : "") + paint.colours.font;
      if (lane.kind === "trend") { lane.title(g, indent, y, tall, room, this.view.cursor, this.onPaper); return; }
      const name = paint.fit(g, lane.label, room), used = g.measureText(name).width + 8;
      g.fillText(name, indent, y + tall / 2 + 1);
      g.font = paint.colours.font; g.fillStyle = paint.colours.faint;
      const more = lane.more.textAt(this.view.cursor) ?? lane.more.text[0] ?? "";
      if (g.measureText(more).width <= room - used) g.fillText(more, indent + used, y + tall / 2 + 1);
    }
    track(track, y, tall) {
      if (this.seen(track.from) <= this.wide / DENSE) this.bars(track, y, tall);
      else if (PROFILED.has(track.form)) this.profile(track, y, tall);
      else this.firsts(track, y, tall);
      this.loud(track, y, tall);
    }
    seen(list) { return spans.below(list, this.entries[this.wide]) - spans.below(list, this.entries[0]); }
    across(entry) { return this.x(this.view.value(entry)) - this.edge; }
    ends(track, k) { return this.across(track.to[k] < 0 ? this.view.count : track.to[k]); }
    // Each span that is seen, a pixel wide at least.
    bars(track, y, tall) {
      for (let k = Math.max(0, spans.below(track.from, this.entries[0])); k < track.length; k += 1) {
        const from = this.across(track.from[k]), to = this.ends(track, k);
        if (from >= this.wide) break;
        if (to >= 0) this.bar(track.style[k], from, Math.max(to, from + 1), y, tall, track.text[k]);
      }
    }
    // Many spans: the first one of each pixel.
    firsts(track, y, tall) {
      for (let px = 0; px < this.wide;) {
        let k = spans.below(track.from, this.entries[px]);
        if (k < 0 || (track.to[k] >= 0 && track.to[k] <= this.entries[px])) {
          k += 1;
          if (k >= track.length || this.across(track.from[k]) >= this.wide) break;
          px = Math.max(px, Math.floor(this.across(track.from[k])));
        }
        const from = this.across(track.from[k]), to = this.ends(track, k);
        this.bar(track.style[k], from, Math.max(to, from + 1), y, tall, track.text[k]);
        px = Math.max(px + 1, Math.floor(to));
      }
    }
    bar(style, from, to, y, tall, text) {
      const left = Math.max(-2, from), right = Math.min(this.wide + 2, to), x = this.edge + left, wide = right - left;
      if (wide <= 0) return;
      const place = paint.bar(this.g, style, x, wide, y, tall);
      if (!place || text === "" || wide < 20 || tall < 12) return;
      const shown = Math.max(x, this.edge), said = style === "away" ? words.say("ticket", text) : text;
      paint.name(this.g, said, style, shown, x + wide - shown, place, style === "wait" ? [] : this.marked);
    }
    // Too many spans for bars: the height at each two pixels is the share of their entries that Execute had.
    profile(track, y, tall) {
      const { g } = this, foot = Math.round(y + tall) - 2, first = Math.max(0, Math.floor(this.across(track.from[0])));
      const last = Math.min(this.wide, this.ends(track, track.length - 1));
      g.fillStyle = paint.colours.idle;
      g.fillRect(this.edge + first, foot, last - first, 2);
      g.fillStyle = paint.colours.run;
      for (let px = first; px < last; px += 2) {
        const from = this.entries[px];
        if (from >= this.view.count - 1) break;
        const to = Math.max(from + 1, this.entries[Math.min(this.wide, px + 2)]);
        const share = (track.executed(to) - track.executed(from)) / (to - from), high = Math.ceil(share * (tall - 2));
        if (high > 0) g.fillRect(this.edge + px, foot - high, 2, high);
      }
    }
    // What must not be overlooked and is narrower than two pixels.
    loud(track, y, tall) {
      let n = Math.max(0, spans.below(track.loud, spans.below(track.from, this.entries[0])));
      while (n < track.loud.length) {
        const k = track.loud[n], from = this.across(track.from[k]);
        const to = track.to[k] < 0 ? this.wide : this.across(track.to[k]);
        if (from > this.wide) break;
        if (to >= 0 && to - from < 2) this.bar(track.style[k], from, from + 2, y, tall, "");
        const px = Math.max(0, Math.floor(from)) + 2;
        const last = px < this.wide ? spans.below(track.from, this.entries[px] - 1) : -1;
        n = Math.max(n + 1, spans.below(track.loud, last) + 1);
      }
    }
    // Where marks of this lane stand that would hide a name: at most some tens.
    marksSeen(lane) {
      const found = [], first = Math.max(0, spans.below(lane.at, this.entries[0] - 1));
      for (let k = first; k < lane.at.length && found.length < 60; k += 1) {
        const x = this.x(this.view.middle(lane.at[k]));
        if (x > this.width) break;
        if (lane.mark[k] !== "log" && !this.hides(lane.at[k], lane.mark[k])) found.push(x);
      }
      return found;
    }
    marks(lane, y, tall) {
      const isDense = this.seen(lane.at) > this.wide / DENSE;
      let k = Math.max(0, spans.below(lane.at, this.entries[0] - 1));
      while (k < lane.at.length) {
        const kind = lane.mark[k], x = this.x(this.view.middle(lane.at[k]));
        if (x > this.width + 6) break;
        const isLost = isDense && (kind === "log" || kind === "node");
        if (!isLost && !this.hides(lane.at[k], kind)) {
          paint.mark(this.g, kind, x, y, tall, lane.kind === "batch" ? ROW.wait : 0);
          if (kind.startsWith("end ") && kind !== "end full") this.outcome(lane, x, y, tall);
        }
        const px = Math.max(0, Math.floor(x - this.edge)) + 2;
        k = COMMON.has(kind) && px < this.wide ? Math.max(k + 1, this.past(lane, k, this.entries[px])) : k + 1;
      }
    }
    // How a batch ended stands behind its end, where there is room.
    outcome(lane, x, y, tall) {
      const { g } = this, text = [lane.outcome ?? "", ...lane.left.map(words.left)].join(" · ");
      g.font = paint.colours.font; g.textAlign = "left"; g.fillStyle = paint.colours.ink;
      if (x + 10 + g.measureText(text).width < this.width) g.fillText(text, x + 8, y + tall / 2 + 1);
    }
    // The next mark from the entry on, or an earlier one that must not be overlooked.
    past(lane, k, entry) {
      let next = k + 1;
      while (next < lane.at.length && lane.at[next] < entry && COMMON.has(lane.mark[next])) next += 1;
      return next;
    }
    // The entry under a point of the canvas, or null beside the bars; and the lane there.
    entryAt(x) { return x < this.edge ? null : this.view.entry(this.valueAt(x)); }
    laneAt(y) { return this.lanes[Math.max(0, spans.below(this.tops, y + this.holder.scrollTop))] ?? null; }
  }
  return { Pane, isNarrow };
})();
