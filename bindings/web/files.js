// The files that are handed to the page: what each of them is, and the list of the sessions among them. It is a part of the script
// of page.js, and stands before it.
"use strict";

// How a text of each kind begins. What begins in no such way is judged as a session is, which says why it is none.
const BEGINNINGS = {
  session: /^postcopy-session /,
  certificate: /^postcopy-certificate /,
  runs: /^postcopy-runs /,
  records: /^postcopy-records /,
  report: /^(clean\n|(faulty|knot|shape|session-text) line \d)/,
};
const LONGEST_BEGINNING = 64, LONGEST_FIRST_LINE = 80;

// How the files of a recorder are named, which may be empty.
const OF_RECORDER = /^((machine|guest|source|link|lane|pager)\.\d+\.\d+|recording-name)$/;

// What goes with a session, by its kind.
const BESIDE = { certificate: "a certificate", runs: "a file of runs", report: "a report" };

// The files that were handed over last, and the session among them that is shown.
let handed = [], shown;

const unreadWords = (name, error) => `${name} could not be read: ${error.message}`;

// A name as the program shows it: one with a character that is not seen, or that turns what stands beside it, is a string of JSON.
const UNSEEN = /[\p{Cc}\p{Cf}\p{Zl}\p{Zp}]/u;
const codeOf = (unit) => `\\u${unit.charCodeAt(0).toString(16).padStart(4, "0")}`;
function shownName(name) {
  if (!UNSEEN.test(name) && !name.startsWith('"')) return name;
  return `"${[...name].map((it) => (UNSEEN.test(it) ? it.split("").map(codeOf).join("") : it.replace(/["\\]/, "\\$&"))).join("")}"`;
}

// What is handed over, by its kind: files, or words on one that cannot be read. Of a folder it is all that is in there.
const opened = async (given) => (await Promise.all(given.map((it) => (it.entries ? inFolder(it) : it.left ? leftOut(it) : read(it))))).flat();

// What a file is called, and how that is shown.
const naming = (called) => ({ called, name: shownName(called) });

// `take` takes a file of a folder, `within`.
async function read({ take = () => undefined, file, name = file?.name ?? "What was dropped", word, within }) {
  const it = naming(name);
  try {
    file ??= await take();
    if (!file) throw new Error("the browser gives the page no file");
    // (a browser may take a file that is gone for an empty one, and notice only where the whole is read)
    const head = await (file.size > LONGEST_BEGINNING ? file.slice(0, LONGEST_BEGINNING) : file).text();
    const kind = Object.keys(BEGINNINGS).find((it) => BEGINNINGS[it].test(head)) ?? (OF_RECORDER.test(file.name) ? "records" : "other");
    return { ...it, file, kind, word, within, pages: +(head.match(/^postcopy-session .*\npages (\d+)\n/)?.[1] ?? 0) };
  } catch (error) {
    return { ...it, unread: unreadWords(it.name, error) };
  }
}

async function inFolder({ name, entries }) {
  const it = naming(name);
  try {
    const found = await opened(await entries());
    return found.length ? found : [{ ...it, unread: `${it.name} is a folder without files.` }];
  } catch (error) {
    return [{ ...it, unread: unreadWords(it.name, error) }];
  }
}

// What a report has not. Of a session it has what was said first of it: `says`.
function leftOut({ name, left, kind, says }) {
  const it = { ...naming(name), left, unread: left };
  return kind ? { ...it, kind, says, verdict: verdictOnLeft(says) } : it;
}

// What was handed over, with words on each folder in place of the recorder's files that are in it. A shell takes the folder's name so.
function withoutRecords(all) {
  const folders = new Set(all.filter(({ kind }) => kind === "records").map(({ within }) => within));
  return [...all.filter(({ kind }) => kind !== "records"), ...[...folders].map((folder) => {
    const it = naming(folder ?? "FOLDER"), word = /^[\w./-]+$/.test(it.name) ? it.name : `'${it.name.replace(/'/g, "'\\''")}'`;
    const whose = folder === undefined ? "A recorder's files are no sessions" : `${it.name} has a recorder's files, which are no sessions`;
    return { ...it, unread: `${whose}: postcopy session ${word} -o session makes the session of ${folder === undefined ? "their folder" : "them"}.` };
  })];
}

const filesOf = (kind) => handed.filter((it) => it.kind === kind);
const isSession = ({ kind }) => kind === "session" || kind === "other";
const sessions = () => handed.filter(isSession);
const unread = () => handed.flatMap((it) => it.unread ?? []);

// What is said beside the verdict on a session: that it is a part of another one, and which files cannot be read.
const asideOf = ({ word }) => [...(word ? [word] : []), ...unread()];

// What is said where no session is among the files.
function noSession() {
  const beside = handed.filter(({ kind }) => kind).map(({ name, kind }) => `${name} is ${BESIDE[kind]}, which goes with a session: choose both together.`);
  return worded("odd", "There is no session.", ...beside, ...unread());
}

// The session to show where none is wanted: of those that begin as one does, the first of the worst, and of these one that is here.
function firstToShow() {
  const named = filesOf("session"), all = named.length ? named : sessions(), among = [...all.filter(({ file }) => file), ...all.filter(({ left }) => left)];
  return ["bad", "odd", "good"].map((colour) => among.find(({ verdict }) => verdict.colour === colour)).find(Boolean);
}

// Lists the sessions, where there are more than one, each with a way to it.
function listSessions() {
  const all = sessions();
  at("sessions").hidden = all.length < 2;
  at("left").hidden = at("faults").hidden && at("sessions").hidden;
  at("list").replaceChildren(...all.map((it) => {
    it.way = made("button", { type: "button", className: "link", textContent: it.name, onclick: () => work(it) });
    it.said = made("td", { textContent: "not judged yet" });
    it.row = made("tr", {}, made("td", {}, it.way), it.said);
    if (it.verdict) sayInList(it);
    return it.row;
  }));
}

// Has in the list what the verdict on a session is, and which session is shown.
function sayInList(it) {
  const { colour, head, sentences } = it.verdict, why = it.left ?? (colour === "good" ? "" : (sentences.at(-1) ?? ""));
  Object.assign(it.row, { className: colour, title: why });
  it.said.replaceChildren(it.left ? `${head} Not in this report.` : head, ...(why ? [made("span", { className: "meaning" }, ` ${why}`)] : []));
  it.said.dataset.line = it.answer?.line || "";
}

function showInList() {
  for (const it of sessions()) it.way.setAttribute("aria-current", it === shown);
}

// What judging a session takes, where that is much: it is told before it is taken. The numbers are those of docs/EMBEDDING.md.
const MUCH = 512 << 20, OF_PAGE = 74, OF_BYTE = 5, PAGES_A_SECOND = 1.3e6;
function costWords({ name, file, pages }) {
  if (!file) return undefined;
  const bytes = pages * OF_PAGE + file.size * OF_BYTE, seconds = Math.ceil(pages / PAGES_A_SECOND + file.size / (40 << 20));
  if (bytes < MUCH) return undefined;
  return `${name} has ${mib(file.size)} and names ${pages.toLocaleString("en")} pages: to judge it takes up to ${mib(bytes)} of memory and some ${seconds} seconds.`;
}

// What a report says first, beside what the report on the session says first.
async function reportWords({ name, file }, { answer: { firstLine } }) {
  try {
    const said = (await file.slice(0, LONGEST_FIRST_LINE).text()).split("\n")[0];
    return said === firstLine ? `The report ${name} says the same: ${said}.` : `The report ${name} is not on this session: it says ${said}.`;
  } catch (error) {
    return unreadWords(name, error);
  }
}

async function certificateWords({ name, file }, session) {
  const answer = await ask("check", session.file, { beside: file });
  const which = filesOf("certificate").length > 1 || sessions().length > 1 ? `${name}, tried with this session: ` : "";
  if (answer.failure) return `The certificate ${name} could not be judged: ${answer.failure.words}.`;
  const kind = answer.kind === "YES" && session.answer.lack ? "RIGHT" : answer.kind;
  const words = CERTIFICATES[kind]?.replace("@", () => `line ${answer.line} of ${name}`);
  if (!words) return `${which}The certificate is not judged: that takes a session of the right shape.`;
  return which + words + (answer.why ? ` ${whyRefused(answer)}` : "");
}

// What is said of the files that go with a session.
async function besideWords(session) {
  const found = [];
  for (const it of filesOf("certificate")) found.push(await certificateWords(it, session));
  for (const it of filesOf("report")) found.push(await reportWords(it, session));
  for (const it of filesOf("runs")) found.push(await runsWords(it, session));
  return found;
}

// What becomes of a session in the order of a file of runs.
async function runsWords({ name, file }, session) {
  const answer = await ask("replay", session.file, { beside: file });
  if (answer.failure) return `The runs ${name} could not be replayed: ${answer.failure.words}.`;
  const words = ORDERS[answer.kind]?.replace("@", () => `line ${answer.line}`).replace("$", () => name);
  return (words ?? `The runs ${name} are not replayed: that takes a session of the right shape.`) + (answer.why ? ` ${whyRefused(answer)}` : "");
}
