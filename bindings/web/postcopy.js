// The module, called: in a worker of the page, and in node. Every number that crosses is a BigInt, since addresses have 64 bits.
"use strict";

const KINDS = ["", "YES", "CLEAN", "SESSION_TEXT", "CERT_TEXT", "SHAPE", "PAGES", "RUNS", "PAGE", "KNOT", "FAULTY", "NO_MEMORY", "SAFE", "RUNS_TEXT",
  "NO_MERGING", "BROKEN", "READ", "INCOMPLETE", "NO_QUESTION"];

// The questions, by their numbers: each has the name of the call that answers it alone.
const QUESTIONS = ["", "audit", "certify", "audit_all", "missing", "missing_pages", "explain", "explain_page", "explain_line", "draw", "draw_page"];

// How many bytes more than the session the answers take at most, in nearly all cases: those of a picture.
const FIRST_MORE = 1 << 18;

// There was no memory for a question.
class OutOfMemory extends Error {}

// One session's module. Its memory never shrinks, so each session has an instance of its own.
class Postcopy {
  constructor(module) {
    this.calls = new WebAssembly.Instance(module).exports;
  }

  // So many bytes.
  room(length) {
    const at = this.calls.malloc(BigInt(length || 1));
    if (at === 0n) throw new OutOfMemory("the browser gives the page no more memory");
    return { at, length };
  }

  // The bytes of a room. A view lasts until the memory grows.
  view({ at, length }) {
    return new Uint8Array(this.calls.memory.buffer, Number(at), length);
  }

  put(bytes) {
    const room = this.room(bytes.length);
    this.view(room).set(bytes);
    return room;
  }

  free({ at }) {
    this.calls.free(at);
  }

  // The answer of a call, which is written where its first word says.
  answer(call, ...words) {
    const room = this.room(24);
    this.calls["postcopy_" + call](room.at, ...words);
    const view = new DataView(this.calls.memory.buffer, Number(room.at), 24);
    const [kind, line, reason] = [0, 4, 8].map((offset) => view.getUint32(offset, true));
    const length = Number(view.getBigUint64(16, true));
    this.free(room);
    if (KINDS[kind] === "NO_MEMORY") throw new OutOfMemory("the session needs more memory than the browser gives the page");
    return { kind: KINDS[kind], line, reason, length };
  }

  // What a call says that writes a text into a room, with this text. A room of the length `first` is tried, and then one that fits.
  written(ask, first) {
    for (let length = first; ; ) {
      const room = this.room(length), answer = ask(room);
      const bytes = answer.length <= length ? this.view({ at: room.at, length: answer.length }).slice() : undefined;
      this.free(room);
      if (bytes) return { ...answer, bytes };
      length = answer.length;
    }
  }

  // The answers to questions of a session, which is read and judged once: the verdict, and a text by the name of each question.
  // `about` is the page or the line that they are about, where they are about one.
  texts(names, session, about = 0, first = session.length + FIRST_MORE) {
    const questions = this.room(8 * names.length), ends = this.room(8 * names.length);
    new Uint32Array(this.calls.memory.buffer, Number(questions.at), 2 * names.length).set(names.flatMap((it) => [QUESTIONS.indexOf(it), about]));
    const many = BigInt(names.length);
    const ask = (room) => this.answer("answers", session.at, BigInt(session.length), questions.at, many, ends.at, many, room.at, BigInt(room.length));
    const { bytes, ...answer } = this.written(ask, first);
    const places = [...new BigUint64Array(this.calls.memory.buffer, Number(ends.at), names.length)].map(Number);
    for (const it of [questions, ends]) this.free(it);
    return { ...answer, texts: Object.fromEntries(names.map((name, at) => [name, bytes.subarray(at && places[at - 1], places[at])])) };
  }

  // Why a text is refused, where the answer of this kind refuses it: the column in its line, and words on it.
  why(kind, text, first = 4096) {
    const ask = (room) => this.answer("why", text.at, BigInt(text.length), KINDS.indexOf(kind), room.at, BigInt(room.length));
    // (where an answer has its reason, a refusal has its column)
    const { line, reason, bytes } = this.written(ask, first);
    return { line, column: reason, why: new TextDecoder().decode(bytes) };
  }

  // The answer of a call on a session and a text beside it, a certificate or an order.
  both(call, session, beside) {
    return this.answer(call, session.at, BigInt(session.length), beside.at, BigInt(beside.length));
  }

  memory() {
    return this.calls.memory.buffer.byteLength;
  }
}

if (typeof module !== "undefined") module.exports = { Postcopy, OutOfMemory };
