// What the page says of an answer, in words. It is a part of the script of page.js, and stands before it.
"use strict";

const at = (name) => document.getElementById(name);
const made = (tag, given, ...children) => {
  const it = Object.assign(document.createElement(tag), given);
  it.append(...children);
  return it;
};

// What each verdict says first, and whether it is good, bad or neither.
const VERDICTS = {
  CLEAN: ["good", "Safe."],
  FAULTY: ["bad", "Not safe."],
  KNOT: ["bad", "These records cannot all have happened.", "Some of them wait for one another, so they have no order."],
  SHAPE: ["bad", "This session has not the right shape."],
  SESSION_TEXT: ["odd", "This is not a session."],
};

// What a safe session shows: where it tells that the guest used pages at the target, and where it does not.
const FOUND = "In every order in which the parties may have acted, the guest found each page in place and as it left it.";
const UNUSED = "Each page came as the guest left it. But the session tells of no use of any page after the resume, so nothing shows what the guest found.";

// What a clean session lacks that does not tell that its guest moved, by the library's line, where $1 is a page.
const LACKS = [
  [/^incomplete halt$/, "No record says that the guest was halted, so nothing says that it moved."],
  [/^incomplete returned$/, "The guest returned to the source, which started it again: it never went on at the target."],
  [/^incomplete resume$/, "No record says that the guest went on at the target."],
  [/^incomplete page (\d+)$/, "No record says that page $1 came: it was owed to the target, and was neither placed nor released there."],
  [/^(.*)$/, "The library says: $1."],
];

// What the verdict on a certificate says, where @ is the line that it names. (RIGHT is of a session that lacks something.)
const CERTIFICATES = {
  YES: "The certificate is right: it shows that the session is safe.",
  RIGHT: "The certificate is right: it shows that nothing goes wrong in what was recorded.",
  CERT_TEXT: "The other file is not a certificate: it is refused at @.",
  PAGES: "The certificate is of a machine of another size than the session's.",
  RUNS: "The certificate is not right: its run at @ cannot be taken.",
  PAGE: "The certificate is not right: its entry at @ is wrong.",
};

// What becomes of a session in the order of the runs in a file, $, where @ is the line that is named.
const ORDERS = {
  SAFE: "In the order of $ each record finds what it demands; other orders may go wrong.",
  BROKEN: "In the order of $ it goes wrong first at @.",
  NO_MERGING: "The runs in $ are no order of this session.",
  RUNS_TEXT: "The file $ has no runs: it is refused at @.",
};

const REASONS = {
  1: "a record stands in the wrong phase",
  2: "a record names what is not there, or of the wrong kind",
  3: "a log does not begin, or end, as it has to",
  4: "a page is sent a second time",
  5: "the source starts the guest again, which was resumed at the target",
  11: "the guest reads another value than on one machine that never moved",
  12: "the guest uses a page that it was not seen to have by then",
  13: "a page is sent that the guest had released",
  14: "a page is sent with other contents than it has at the halt",
  15: "a page is placed a second time",
  16: "a page is placed with other contents than it has at the halt",
  17: "zeros are placed for a page that was not released",
  18: "a page is placed over the guest's release at the target",
};

// The kinds of reports, by the first words of their first lines.
const KINDS_BY_WORD = { clean: "CLEAN", incomplete: "CLEAN", faulty: "FAULTY", knot: "KNOT", shape: "SHAPE", "session-text": "SESSION_TEXT" };

const mib = (length) => (length < 1 << 20 ? `${Math.ceil(length / 1024)} KiB` : `${(length / (1 << 20)).toFixed(1)} MiB`);

// A verdict in words: its colour, which says whether it is good, bad or neither, what it says first, and more sentences.
const worded = (colour, head, ...sentences) => ({ colour, head, sentences: sentences.filter(Boolean) });

// Why a text is refused, as a sentence.
const whyRefused = ({ column, why }) => (why ? `At column ${column}: ${why}.` : "");

function verdictOnLack(lack) {
  const [shape, words] = LACKS.find(([it]) => it.test(lack));
  return worded("odd", "Not a whole migration.", "Nothing went wrong in what was recorded, but it does not tell of a whole migration.", lack.replace(shape, words));
}

function verdictOn({ kind, line, reason, lack, isUsed, ...refusal }) {
  const [colour, head, sentence] = VERDICTS[kind];
  const why = REASONS[reason];
  if (kind === "CLEAN") return lack ? verdictOnLack(lack) : worded(colour, head, isUsed ? FOUND : UNUSED);
  if (kind === "SESSION_TEXT") {
    return worded(colour, head, refusal.why ? `Line ${line}, column ${refusal.column}: ${refusal.why}.` : `Its text is refused at line ${line}.`);
  }
  return worded(colour, head, sentence, why ? `${why[0].toUpperCase()}${why.slice(1)}: line ${line}.` : line ? `The first of them: line ${line}.` : "");
}

// The verdict on a session that a report has not, by what was said first of it when the report was made. Nothing was, where it was not
// judged.
function verdictOnLeft(says) {
  const [, word, line, reason] = says.match(/^(\S+)(?: line (\d+) ?(.*))?/) ?? [], kind = KINDS_BY_WORD[word];
  if (!kind) return worded("odd", "Not judged.");
  const { colour, head, sentences } = verdictOn({ kind, line, reason: NUMBERS[reason], lack: word === "incomplete" ? says : "" });
  // (of a clean one it is not known whether its guest used a page)
  return worded(colour, head, ...(says === "clean" ? [] : sentences));
}

function verdictOnFailure({ isMemory, words }, { file }) {
  if (!isMemory) return worded("odd", "The session could not be judged.", `Why: ${words}. Nothing is said of the session.`);
  return worded("odd", "The memory did not suffice.", `The page may not take as much memory as this session of ${mib(file.size)} needs: ${words}.`,
    "Nothing is said of the session. Close other pages and try again, or have the program judge it: postcopy audit FILE.");
}
