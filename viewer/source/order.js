// What is odd about the order of the stamps: where they fall, where two neighbours stand the wrong way round, where
// numbers are missing, and where nothing stands for far longer than usual. Knows nothing of events, and nothing of
// drawing.
"use strict";
const order = (() => {
  // Nothing stands for long where a step is so many times the one that nine of ten don't exceed. Fewer steps tell
  // nothing.
  const FAR = 50, FEW = 10;
  // A browser holds a stamp of more digits about.
  const said = stamp => (Number.isSafeInteger(stamp) ? "" : "≈ ") + words.stamp(stamp);
  // Would the stamps rise if the k-th and the one before it changed places?
  const isSwapped = (stamps, k) => !(stamps[k - 2] > stamps[k]) && !(stamps[k + 1] < stamps[k - 1]);
  function lastFall(stamps, k) {
    while (stamps[k + 1] < stamps[k]) k += 1;
    return k;
  }
  function falls(stamps) {
    const found = [];
    for (let k = 1; k < stamps.length; k += 1) {
      if (stamps[k] >= stamps[k - 1]) continue;
      const to = lastFall(stamps, k);
      found.push({ key: isSwapped(stamps, k) ? "stampsSwapped" : "stampsFall", from: k - 1, to });
      k = to;
    }
    return found;
  }
  // Stamps that count one by one have no gap at all; others may pause.
  function gaps(stamps) {
    const steps = stamps.slice(1).map((stamp, k) => stamp - stamps[k]);
    const rises = Float64Array.from(steps.filter(step => step > 0)).sort();
    if (rises.length < FEW) return [];
    const usual = rises[Math.floor(rises.length * 0.9)], isCount = usual === 1 && !steps.includes(0);
    const most = isCount ? 1 : FAR * usual, key = isCount ? "stampsMissing" : "stampsPause";
    const isGap = k => steps[k] > most && !(steps[k - 1] < 0) && !(steps[k + 1] < 0);
    return [...steps.keys()].filter(isGap).map(k => ({ key, from: k, to: k + 1 }));
  }
  // What is odd, each with the entry where it is seen. Lines without a stamp are passed over.
  function odd(all) {
    const entries = [...all.keys()].filter(entry => !Number.isNaN(all[entry]));
    const stamps = entries.map(entry => all[entry]);
    const values = ends => [...ends.map(k => entries[k]), ...ends.map(k => said(stamps[k]))];
    return [...falls(stamps), ...gaps(stamps)].map(({ key, from, to }) => ({ at: entries[to], key,
      values: values([from, to]) }));
  }
  return { odd };
})();
