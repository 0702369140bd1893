// Which buttons moved just now. A list changes while a finger is on its way: what was meant for one batch must not hit
// another one that came in its place.
"use strict";
const steady = (() => {
  // In milliseconds: how long it takes from the look at a button to the press.
  const LOOK = 600;
  // By button its box on the page, and its moves: when each was, and the box before it, null where it wasn't there.
  const places = new WeakMap();
  function boxOf(button) {
    const { left, top, width, height } = button.getBoundingClientRect();
    return [left + scrollX, top + scrollY, width, height];
  }
  const isAlike = (one, other) => one.every((each, k) => Math.abs(each - other[k]) < 1);
  const covers = ([left, top, width, height], x, y) => x >= left && x < left + width && y >= top && y < top + height;
  function lookAt(button, now) {
    const box = boxOf(button), known = places.get(button);
    if (!known) places.set(button, { box, moves: [{ at: now, before: null }] });
    else if (!isAlike(known.box, box)) {
      const recent = known.moves.filter(({ at }) => now - at < LOOK);
      Object.assign(known, { box, moves: [...recent, { at: now, before: known.box }] });
    }
  }
  // Looks where all of them stand, whenever something was drawn.
  function look() {
    const now = performance.now();
    for (const button of document.querySelectorAll("button[data-deed]")) lookAt(button, now);
  }
  // Whether at this place of the page something else than the button stood a moment ago.
  function isFresh(button, x, y) {
    const now = performance.now();
    lookAt(button, now);
    return places.get(button).moves.some(({ at, before }) => now - at < LOOK && !(before && covers(before, x, y)));
  }
  return { look, isFresh };
})();
