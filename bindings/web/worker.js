// The worker, which holds the module: it answers one question after another, and says how far it has read. The session that it was
// asked of last stays in the module's memory, with what was found of its records.

const PER_MARK = 256;
let compiled;

// The pieces of a file.
async function* piecesOf(file) {
  try {
    yield* file.stream();
  } catch (error) {
    throw new Error(`the file could not be read (${error.message})`);
  }
}

// Reads a file into the module's memory, piece by piece.
async function readInto(it, file, say) {
  const room = it.room(file.size), changed = "the file became another one while it was read";
  let done = 0;
  for await (const piece of piecesOf(file)) {
    if (piece.length > file.size - done) throw new Error(changed);
    it.view(room).set(piece, done);
    done += piece.length;
    say(done, file.size);
  }
  if (done < file.size) throw new Error(changed);
  return room;
}

// How many lines a text has, and where each 256th begins.
async function linesOf(file, say) {
  const marks = [0];
  let lines = 0, done = 0, ended = true;
  for await (const piece of piecesOf(file)) {
    for (let at = piece.indexOf(10); at >= 0; at = piece.indexOf(10, at + 1)) {
      if (++lines % PER_MARK === 0) marks.push(done + at + 1);
    }
    ended = piece[piece.length - 1] === 10;
    done += piece.length;
    say(done, file.size);
  }
  return { lines: lines + !ended, marks, perMark: PER_MARK };
}

// Whether the guest of a session reads or writes a page after a resume. (No other log has records of these words.)
function tellsOfUse(bytes) {
  const [R, S, W, SPACE] = [114, 115, 119, 32];
  let isResumed = false;
  for (let at = 0, end; (end = bytes.indexOf(10, at)) >= 0; at = end + 1) {
    if (isResumed && (bytes[at] === R || bytes[at] === W) && bytes[at + 1] === SPACE) return true;
    isResumed ||= bytes[at] === R && bytes[at + 2] === S;
  }
  return false;
}

let held = {};

// The session of a question, in a module of its own.
async function holding({ number, file }, bytes, say) {
  if (held.number === number) return held;
  held = {};
  compiled ??= WebAssembly.compile(bytes);
  const it = new Postcopy(await compiled);
  const room = await readInto(it, file, say);
  return (held = { number, it, room });
}

// An answer of the module: to questions of the session, or to a call on the session and a text beside it. Where a text is refused, it
// has why.
async function judgement({ it, room }, { call, beside, asks, topic }, say) {
  const second = beside && (await readInto(it, beside, say));
  say(1, 0);
  const began = performance.now();
  const answer = second ? it.both(call, room, second) : it.texts(asks, room, topic);
  const ms = performance.now() - began;
  const refused = { SESSION_TEXT: room, CERT_TEXT: second, RUNS_TEXT: second }[answer.kind];
  const why = refused && it.why(answer.kind, refused);
  if (second) it.free(second);
  const isUsed = answer.kind === "CLEAN" && tellsOfUse(it.view(room));
  return { ...answer, ...why, isUsed, ms, memory: it.memory() };
}

// What is asked of the records, by the name of the question. An order is that of a text with runs, or that which delays the placement
// of a page or the record at a line, or else the found one.
const OF_RECORDS = {
  around: (records, { lines }) => ({ records: records.aroundLines(lines) }),
  vcpu: (records, { vcpu }) => records.ofVcpu(vcpu),
  place: (records, { log, number }) => ({ line: records.lineOfPlace(LOGS.indexOf(log), number) }),
  life: (records, { page, order }) => records.life(page, orderOf(records, order)),
  order: (records, { lines, order }) => records.inOrder(lines, orderOf(records, order)),
};

function orderOf(records, { runs, page, line } = {}) {
  const delayed = page !== undefined ? records.placementOf(page) : line !== undefined ? records.atLine(line) : undefined;
  return (runs && records.orderOf(runs)) ?? records.foundOrder(delayed);
}

async function answered({ call, session, given, bytes }, say) {
  if (call === "lines") return linesOf(session.file, say);
  const it = await holding(session, bytes, say);
  if (!(call in OF_RECORDS)) return judgement(it, { call, ...given }, say);
  it.records ??= new Records(() => it.it.view(it.room));
  const runs = await given.order?.file?.text();
  return OF_RECORDS[call](it.records, { ...given, order: { ...given.order, runs } });
}

async function answer(data) {
  let last = 0;
  const say = (done, total) => {
    const now = performance.now();
    if (total && done < total && now - last < 50) return;
    last = now;
    postMessage({ number: data.number, done, total });
  };
  try {
    const found = await answered(data, say);
    // (all texts of an answer are in one buffer)
    postMessage({ number: data.number, answer: found }, Object.values(found.texts ?? {}).slice(0, 1).map((it) => it.buffer));
  } catch (error) {
    // (a module that was stopped in a call is not asked again)
    held = {};
    const isMemory = error instanceof OutOfMemory || error instanceof RangeError;
    postMessage({ number: data.number, failure: { isMemory, words: String(error.message ?? error) } });
  }
}

let answering = Promise.resolve();
onmessage = ({ data }) => (answering = answering.then(() => answer(data)));
