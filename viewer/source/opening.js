// From files that a browser hands over to a history: their texts and checksums, their lines, and what became of them.
// Knows nothing of the drawing.
"use strict";
const opening = (() => {
  const SLICE = 5000;
  const hex = bytes => [...new Uint8Array(bytes)].map(byte => byte.toString(16).padStart(2, "0")).join("");
  // The checksum of some bytes, where the browser gives one.
  async function sumOf(bytes) {
    const digest = await globalThis.crypto?.subtle?.digest("SHA-256", bytes).catch(() => null);
    return digest ? hex(digest) : null;
  }
  // A file's text, with its size and its checksum. Of a kept file it is the lines of its events.
  async function textOf(file) {
    const bytes = await file.arrayBuffer(), sum = await sumOf(bytes);
    const own = kept.read(file.name, bytes), plain = new TextDecoder("utf-8", { ignoreBOM: true });
    const text = own?.text ?? plain.decode(bytes);
    return { name: file.name, size: bytes.byteLength, sum, text, kept: own };
  }
  async function build(found, progress) {
    const history = new past.History(found);
    words.places(at => history.placed(at));
    for (let at = 0; at < found.length; at += 1) {
      try {
        history.take(at, ...found.entry(at));
      } catch {
        found.faults.push({ file: found.fileOf(at), line: found.line(at), why: "unlike" });
      }
      if (at % SLICE === SLICE - 1) {
        progress(at / found.length);
        await lines.pause();
      }
    }
    const verdict = verdicts.own(found, history);
    if (verdict?.audit === "bad") history.doubt(verdict, verdicts.wrong(verdict, found, history));
    history.finish(found.site);
    for (const recipe of history.recipes.values()) recipe.sum = await sumOf(new TextEncoder().encode(recipe.text));
    return history;
  }
  async function open(files, busy) {
    const began = performance.now(), texts = await Promise.allSettled(files.map(textOf));
    const found = await lines.read(texts.flatMap(each => each.value ?? []), share => busy(share / 2));
    texts.forEach((each, k) => {
      if (each.status === "rejected") found.faults.push({ file: files[k].name, line: 0, why: "unreadable" });
    });
    const sorted = performance.now(), history = await build(found, share => busy(0.5 + share / 2));
    const took = { lines: Math.round(sorted - began), history: Math.round(performance.now() - sorted) };
    return { found, history, took };
  }
  return { open };
})();
