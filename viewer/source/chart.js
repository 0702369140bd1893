// The recipe as a chart with the look of IEC 61512-2 procedure function charts, as SVG, with where a batch stands. Each
// part is laid out around its axis: what lies left and right of it, its height, and how it is drawn. Knows nothing of
// entries.
"use strict";
const chart = (() => {
  const GAP = 16, LEAST = 0.8, FIT = 0.9, ROW = 15, BOX = 44, SPACE = "http://www.w3.org/2000/svg";
  const pen = document.createElement("canvas").getContext("2d");
  function wideOf(text, isStrong) {
    pen.font = (isStrong ? "600 13px" : "12px") + paint.colours.font.slice(4);
    return pen.measureText(text).width;
  }
  function put(g, name, attributes, text) {
    const made = g.appendChild(document.createElementNS(SPACE, name));
    for (const [key, value] of Object.entries(attributes)) made.setAttribute(key, value);
    if (text !== undefined) made.textContent = text;
    return made;
  }
  const line = (g, x1, y1, x2, y2, style = "") => put(g, "path",
    { d: `M${x1} ${y1}L${x2} ${y2}`, class: `link ${style}` });
  // A text broken behind its spaces and dots into rows of at most so many letters, where it has any.
  function wrapped(text, letters) {
    const rows = [""];
    for (const piece of text.split(/(?<=[. ])/)) {
      const last = rows.length - 1;
      if (rows[last] && (rows[last] + piece).trim().length > letters) rows.push(piece); else rows[last] += piece;
    }
    return rows.map(row => row.trim());
  }
  // A transition: a bar across the link, its condition beside it, and the values known now.
  function transition(text, now, letters) {
    const rows = wrapped(text, letters).map(row => [row, "when"]);
    rows.push(...now.flatMap(each => wrapped(each, letters)).map(row => [row, "now"]));
    const h = Math.max(28, rows.length * ROW + 12), first = (1 - rows.length) / 2;
    return { l: 10, r: 20 + Math.max(...rows.map(([row]) => wideOf(row))), h, draw(g, x, y, style = "") {
      line(g, x, y, x, y + h, style);
      put(g, "path", { d: `M${x - 9} ${y + h / 2}h18`, class: `bar ${style}` });
      rows.forEach(([row, kind], k) => {
        put(g, "text", { x: x + 15, y: y + h / 2 + 4 + (first + k) * ROW, class: `${kind} ${style}` }, row);
      });
    } };
  }
  function stack(parts, gap = GAP) {
    const h = parts.reduce((sum, part) => sum + part.h, 0) + gap * (parts.length - 1);
    const l = Math.max(...parts.map(part => part.l)), r = Math.max(...parts.map(part => part.r));
    return { l, r, h, draw(g, x, y, style) {
      parts.forEach((part, k) => {
        if (k) { line(g, x, y, x, y + gap, style); y += gap; }
        part.draw(g, x, y, style);
        y += part.h;
      });
    } };
  }
  // Branches side by side between two lines: double ones where all are taken, single ones where one is.
  function branches(parts, isDouble, styles) {
    const ends = isDouble ? 13 : 9, h = Math.max(...parts.map(part => part.h)) + 2 * ends, axes = [];
    let wide = 0;
    for (const part of parts) { axes.push(wide + part.l); wide += part.l + part.r + 20; }
    const axis = (axes[0] + axes[axes.length - 1]) / 2, reach = isDouble ? 10 : 0;
    return { l: axis, r: wide - 20 - axis, h, draw(g, x, y, style) {
      parts.forEach((part, k) => {
        const own = styles?.[k] ?? style, at = x - axis + axes[k];
        line(g, at, y, at, y + ends, own);
        part.draw(g, at, y + ends, own);
        line(g, at, y + ends + part.h, at, y + h, own);
      });
      const from = x - axis + axes[0] - reach, to = x - axis + axes[axes.length - 1] + reach;
      for (const [top, inner] of [[y, y + 4], [y + h, y + h - 4]]) {
        line(g, from, top, to, top, style);
        if (isDouble) line(g, from, inner, to, inner, style);
      }
    } };
  }
  // A loop: a line back at the left, with how often it turned.
  function loop(body, until, turns) {
    const left = body.l + 22;
    return { l: left + 8, r: Math.max(body.r, until.r), h: 20 + body.h + until.h, draw(g, x, y, style = "") {
      const low = y + 10 + body.h + 6;
      line(g, x, y, x, y + 10, style);
      body.draw(g, x, y + 10, style);
      line(g, x, y + 10 + body.h, x, y + 20 + body.h, style);
      put(g, "path", { d: `M${x} ${low}H${x - left}V${y + 4}H${x - 6}`, class: `link ${style}` });
      put(g, "path", { d: `M${x} ${y + 4}l-7 -4v8z`, class: "arrow" });
      if (turns) put(g, "text", { x: x - left + 4, y: low + 15, class: "turns" }, words.many("Turns", turns));
      until.draw(g, x, y + 20 + body.h, style);
    } };
  }
  // The sign of what still runs: a triangle with an exclamation mark on the edge of its step.
  function warning(g, x, y) {
    put(g, "path", { d: `M${x} ${y - 11}l12 21h-24z`, class: "warning" });
    put(g, "text", { x, y: y + 8, class: "sign" }, "!");
  }
  const phaseOf = (place, name) => place.standing?.steps.get(name);
  function step(node, place) {
    const own = phaseOf(place, node.step), under = `${node.service} @ ${node.role}`;
    const wide = Math.max(112, 56 + wideOf(String(node.step), true), 22 + wideOf(under));
    const isAwaited = place.awaits.has(node.step) || place.wait?.step === node.step;
    return { l: wide / 2, r: wide / 2, h: BOX, draw(g, x, y, style = "") {
      const group = put(g, "g", { class: `step ${own?.phase ?? ""} ${style} ${isAwaited ? "waits" : ""}` });
      group.dataset.step = node.step;
      put(group, "title", {}, place.title(node));
      put(group, "rect", { x: x - wide / 2, y, width: wide, height: BOX, rx: 2 });
      put(group, "text", { x, y: y + 19, class: "name" }, node.step);
      put(group, "text", { x, y: y + 35, class: "under" }, under);
      const runs = own && (own.runs > 1 ? `×${own.runs}` : own.phase === "done" ? "✓" : "");
      if (runs) put(group, "text", { x: x + wide / 2 - 6, y: y + 14, class: "runs" }, runs);
      const left = x - wide / 2, middle = y + BOX / 2;
      if (["on", "ending", "held", "broke"].includes(own?.phase)) {
        put(group, "path", { d: `M${left - 4} ${middle}l-9 -6v12z`, class: "stands" });
      }
      if (own?.phase === "left") warning(group, left - 3, middle);
    } };
  }
  const transitionOf = (condition, place, isNow) => transition(recipes.told(condition, place.said),
    isNow && place.isOpen ? place.now(condition) : [], place.letters);
  // The layout of a node. A place says where the batch stands, what it waits for, and how values are said.
  function part(node, known, place) {
    const number = known.numbers.get(node);
    if ("step" in node) {
      const phase = phaseOf(place, node.step), isNow = phase?.phase === "on" || phase?.phase === "held";
      return node.finish ? stack([step(node, place), transitionOf(node.finish, place, isNow)], 0) : step(node, place);
    }
    if (node.seq) return stack(node.seq.map(each => part(each, known, place)));
    if (node.par) return branches(node.par.map(each => part(each, known, place)), true);
    if (node.loop) {
      const turns = place.standing?.turns.get(number) ?? 0;
      return loop(part(node.loop, known, place), transitionOf(node.until, place, true), turns);
    }
    const arm = place.standing?.arms.get(number), isNow = place.awaits.has(number);
    const arms = node.sel.map(each => stack([transitionOf(each.when, place, isNow), part(each.then, known, place)], 0));
    return branches(arms, false, arm === undefined ? null : node.sel.map((_, k) => (k === arm ? "taken" : "dim")));
  }
  // In words, for whom the picture can't be seen.
  function inWords(known, place) {
    const steps = [...(place.standing?.steps ?? [])].map(([name, own]) =>
      `${name}: ${words.say(`phase_${own.phase}`)}`);
    return `${words.say("recipe")} ${known.name}. ${steps.join(", ")}`;
  }
  // The layout with conditions in as long rows as there is room for.
  function laid(known, place, room) {
    let found = null;
    for (const letters of [26, 18, 12]) {
      const whole = part(known.chart, known, { ...place, letters }), l = Math.max(whole.l, 30) + 18;
      found = { whole, l, wide: l + Math.max(whole.r, 60) + 14, h: whole.h + 84 };
      if (found.wide <= room / FIT) break;
    }
    return found;
  }
  function draw(holder, known, place) {
    const room = holder.clientWidth || 600, { whole, l, wide, h } = laid(known, place, room);
    const scale = Math.max(LEAST, Math.min(1, room / wide));
    holder.replaceChildren();
    const g = put(holder, "svg", { viewBox: `0 0 ${wide} ${h}`, width: wide * scale, height: h * scale, role: "img",
      "aria-label": inWords(known, place) });
    put(g, "path", { d: `M${l - 12} 6h24l-12 18z`, class: `end ${place.isReached ? "reached" : ""}` });
    line(g, l, 24, l, 42);
    whole.draw(g, l, 42);
    line(g, l, whole.h + 42, l, whole.h + 60);
    put(g, "path", { d: `M${l - 12} ${whole.h + 78}h24l-12 -18z`, class: `end ${place.isDone ? "reached" : ""}` });
    center(holder, g, scale);
  }
  // Scrolls to the step at which the batch stands.
  function center(holder, g, scale) {
    const here = g.querySelector(".stands") ?? g.querySelector(".waits rect");
    if (!here || (holder.scrollWidth <= holder.clientWidth && holder.scrollHeight <= holder.clientHeight)) return;
    const box = here.getBBox();
    holder.scrollTop = box.y * scale - holder.clientHeight / 2;
    holder.scrollLeft = box.x * scale - holder.clientWidth / 3;
  }
  return { draw };
})();
