// Calls the module of the page, in node: web_calls.js MODULE. Each line of the input is a call, the files of its texts, and the page
// or the line that it is about, or null, as JSON; each line of the output is the answer, with its text in base64, why a text is
// refused, and by how much the memory grew when the same was asked once more. The call of this name answers, and has to answer as the
// call for several questions does, which is asked the same among others.
"use strict";
const fs = require("fs");
const { Postcopy } = require("../bindings/web/postcopy.js");

const compiled = new WebAssembly.Module(fs.readFileSync(process.argv[2]));
if (WebAssembly.Module.imports(compiled).length) throw new Error("the module takes something from elsewhere");

const isSame = (one, other) => Buffer.compare(Buffer.from(one), Buffer.from(other)) === 0;

// The answer of the call that answers one question, with its text.
function single(it, call, session, numbers) {
  return it.written((room) => it.answer(call, session.at, BigInt(session.length), ...numbers, room.at, BigInt(room.length)), 0);
}

// The answer of a call. Each text is asked for with no room at first, and then with its own.
function answered([call, names, topic]) {
  const it = new Postcopy(compiled);
  const [session, certificate] = names.map((name) => it.put(fs.readFileSync(name)));
  const numbers = topic === null ? [] : [topic];
  const ask = () => (certificate ? it.both("check", session, certificate) : single(it, call, session, numbers));
  const { bytes, ...answer } = ask();
  if (!certificate) {
    const names = ["audit", call, "missing"], { texts, length, ...several } = it.texts(names, session, topic ?? 0, 0);
    const others = names.map((name) => (name === call ? bytes : single(it, name, session, []).bytes));
    // (what is missing has a kind of its own where it is asked alone)
    const wanted = { ...answer, kind: answer.kind === "INCOMPLETE" ? "CLEAN" : answer.kind };
    const isRight = ["kind", "line", "reason"].every((name) => several[name] === wanted[name]) && names.every((name, at) => isSame(texts[name], others[at]));
    if (!isRight) throw new Error(`${call} is answered otherwise among several questions: ${JSON.stringify(several)}`);
  }
  const before = it.memory();
  ask();
  const grown = it.memory() - before;
  const refused = { SESSION_TEXT: session, CERT_TEXT: certificate }[answer.kind];
  return { ...answer, grown, ...(refused && it.why(answer.kind, refused, 0)), text: Buffer.from(bytes ?? []).toString("base64") };
}

console.log(JSON.stringify(WebAssembly.Module.exports(compiled).map(({ name }) => name).sort()));
for (const line of fs.readFileSync(0, "utf8").split("\n")) {
  if (line) console.log(JSON.stringify(answered(JSON.parse(line))));
}
