// The file of a kept plant, pol.journal, or of an operated one, pol.plant, as the lines of its events. A record is a
// byte that isn't 0, the length of what follows in 8 bytes, and that: a text; of an operated plant a sum, and a header
// or who gave a text. A byte 0 stands behind the last one. Says where a record isn't one; compares no sum. Knows
// nothing of what an event is.
"use strict";
const kept = (() => {
  const HEAD = 9, SUM = 32, BRACE = 0x7b, HEADER = 0, EVENT = 1, VERSION = 1, PRINTABLE = /^[ -~]{1,96}$/;
  const NAMES = new Set(["pol.journal", "pol.plant"]), NAME = /^[\w.-]{1,32}$/;
  const utf8 = new TextDecoder("utf-8", { fatal: true, ignoreBOM: true });
  // Some bytes as text; null where they are none.
  function textOf(bytes) {
    try { return utf8.decode(bytes); } catch { return null; }
  }
  // What the record that begins at a place has, and where it ends; null where none does.
  function recordAt(view, at) {
    if (at + HEAD > view.byteLength || view.getUint8(at) === 0) return null;
    const size = view.getBigUint64(at + 1), from = at + HEAD;
    if (size === 0n || size > BigInt(view.byteLength - from)) return null;
    return { bytes: new Uint8Array(view.buffer, from, Number(size)), end: from + Number(size) };
  }
  // The line of an event in one of the two forms; null where it is none.
  function lineOf(bytes) {
    const text = bytes[0] === BRACE ? textOf(bytes) : null;
    return text === null || text.includes("\n") ? null : text;
  }
  // The name of who gave it is put into the line, where a journal of an operated plant has it.
  function namedLineOf(bytes) {
    if (bytes[SUM] !== EVENT) return null;
    const from = SUM + 2, name = textOf(bytes.subarray(from, from + bytes[SUM + 1]));
    const line = lineOf(bytes.subarray(from + bytes[SUM + 1]));
    if (line === null || name === "") return line;
    return name !== null && NAME.test(name) ? `{"by":"${name}",${line.slice(1)}` : null;
  }
  // Which program began the file of an operated plant, as its first record says; null where that is no header.
  function begunBy(bytes) {
    if (bytes.length < SUM + 3 || bytes[SUM] !== HEADER || bytes[SUM + 1] !== VERSION) return null;
    const told = textOf(bytes.subarray(SUM + 2));
    return told !== null && PRINTABLE.test(told) ? told : null;
  }
  // The events of a kept file as lines, how many they are, and from which byte on it has no record where the byte 0
  // should stand; of an operated plant with who began it. Null for any other file: one that begins with a byte 0 has no
  // events, and counts by its name alone.
  function read(name, bytes) {
    const view = new DataView(bytes), first = recordAt(view, 0), begun = first ? begunBy(first.bytes) : null;
    const events = [], told = begun === null ? lineOf : namedLineOf;
    let at = begun === null ? 0 : first.end;
    for (let record = recordAt(view, at); record !== null; record = recordAt(view, at)) {
      const line = told(record.bytes);
      if (line === null) break;
      events.push(line);
      at = record.end;
    }
    const isClosed = at < view.byteLength && view.getUint8(at) === 0;
    if (begun === null && !events.length && !(isClosed && NAMES.has(name))) return null;
    const text = events.map(line => `${line}\n`).join("");
    return { text, events: events.length, broken: isClosed ? null : at, begun };
  }
  return { read };
})();
