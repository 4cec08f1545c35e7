// The page: it hands the files that are chosen or dropped to a worker, which holds the module, and shows what that answers.
"use strict";

const MOST_LINES = 400;
const AT = /\b[Ll]ine (\d+)\b(?: \(\w+ \d+\))?/g;

// The worker and its questions.

// The number that the worker knows a file by.
const numbers = new WeakMap();
let numbered = 0;
function numberOf(file) {
  if (!numbers.has(file)) numbers.set(file, ++numbered);
  return numbers.get(file);
}

// The worker of a page, with the page's module. It is started where it is asked first.
function asker(page) {
  const textOf = (id) => page.querySelector(`#${id}`).textContent, bytes = unspelled(textOf("module")), waiting = new Map();
  let worker, asking = 0;

  function started() {
    const place = URL.createObjectURL(new Blob([textOf("worker")], { type: "text/javascript" }));
    const it = new Worker(place);
    it.onmessage = ({ data }) => {
      const { say, done } = waiting.get(data.number) ?? {};
      if (data.total !== undefined) return say?.(data.done, data.total);
      waiting.delete(data.number);
      done?.(data.answer ?? { failure: data.failure });
    };
    it.onerror = (event) => {
      event.preventDefault();
      const all = [...waiting.values()];
      waiting.clear();
      for (const { done } of all) done({ failure: { isMemory: false, words: event.message || "the worker ended" } });
    };
    return it;
  }

  // The answer of a call on a session, or `failure` in its place. `given` is what the call takes besides: `asks`, the questions of
  // "answers", `topic`, the page or the line that they are about, `beside`, another text, and what is asked of records. `say` is told
  // how many bytes of how many were read.
  function ask(call, file, { say, ...given } = {}) {
    worker ??= started();
    return new Promise((done) => {
      waiting.set(++asking, { say, done });
      worker.postMessage({ number: asking, call, session: { number: numberOf(file), file }, given, bytes });
    });
  }

  function end() {
    worker?.terminate();
    worker = undefined;
    waiting.clear();
  }

  return { ask, end };
}

const { ask, end: stop } = asker(document);

// How far it is. Screen readers are told where something new is done, and at each quarter of it.
let toldLast = "";
function busy(what, done, total) {
  at("busy").hidden = !what;
  const quarter = total ? `${what.split(":")[0]}: ${Math.floor((4 * done) / total) * 25} of 100` : (what ?? "");
  if (quarter !== toldLast) at("progress-words").textContent = toldLast = quarter;
  if (!what) return;
  at("doing").textContent = what;
  if (total) Object.assign(at("progress"), { max: total, value: done });
  else at("progress").removeAttribute("value");
}

// Shows a verdict, and the name of the file that it is on.
function show({ colour, head, sentences }, name, more = []) {
  at("verdict").className = colour;
  const of = name ? [made("p", { className: "soft", textContent: name })] : [];
  at("verdict").replaceChildren(made("h2", { className: colour }, head), ...of, ...[...sentences, ...more].map((it) => made("p", {}, it)));
}

// The record that is marked, in the words, the picture and the text.

let marked = 0, text;
const wordsOf = (line) => [...at("words").querySelectorAll(`[data-line="${line}"]`)];

function go(it) {
  it?.scrollIntoView({ block: "center", inline: "nearest" });
  it?.focus({ preventScroll: true });
}

function goToPicture() {
  showPane("drawn");
  goToRow(rowOf(marked));
}

function goToText() {
  showPane("texts");
  scrollToLine(marked || +at("line").value);
  go(at("lines").querySelector(".marked .link") ?? at("lines"));
}

// Marks a record by the line of the session that it is, and tells its story; 0 marks none.
async function mark(line) {
  for (const it of at("words").querySelectorAll(".marked")) it.classList.remove("marked");
  for (const it of picture?.querySelectorAll(".marked") ?? []) it.classList.remove("marked");
  marked = line;
  for (const it of wordsOf(line)) it.classList.add("marked");
  rowOf(line)?.classList.add("marked");
  at("bar").hidden = !line;
  at("name").textContent = rowOf(line)?.dataset.title ?? wordsOf(line)[0]?.textContent ?? `line ${line}`;
  at("to-words").disabled = !wordsOf(line).length;
  at("to-picture").disabled = !rowOf(line);
  if (!line) return showLines(first);
  const told = tellRecord(line);
  await showText(texts[0], line);
  return told;
}

// Unmarks the record. Where what had the focus is gone, its row in the picture has it, or its line in the text, or the text.
async function unmark() {
  const line = marked;
  await mark(0);
  if (document.activeElement !== document.body && !at("bar").contains(document.activeElement)) return;
  if (!at("drawn").hidden && rowOf(line)) goToRow(rowOf(line));
  else (at("lines").children[line - first]?.querySelector(".link") ?? at("lines")).focus({ preventScroll: true });
}

// The words.

function withMarks(sentence) {
  const parts = [];
  let end = 0;
  for (const found of sentence.matchAll(AT)) {
    const line = +found[1];
    const it = made("button", { type: "button", className: "link", textContent: found[0] });
    it.dataset.line = line;
    it.onclick = () => mark(line).then(() => (rowOf(line) ? goToPicture() : goToText()));
    parts.push(sentence.slice(end, found.index), it);
    end = found.index + found[0].length;
  }
  return [...parts, sentence.slice(end)];
}

function showWords(words) {
  const to = at("words");
  to.replaceChildren();
  for (const line of words.split("\n")) {
    const list = to.lastElementChild?.tagName === "UL" ? to.lastElementChild : undefined;
    if (line.startsWith("  ")) (list ?? to.appendChild(made("ul"))).append(made("li", {}, ...withMarks(line.trim())));
    else if (line) to.append(made("p", {}, ...withMarks(line)));
  }
  at("story").hidden = false;
}

// The texts: the session, and what was written of it. A part of the lines is shown at a time.

let texts = [], first = 1, showing = 0;

// Where a text's lines stand.
async function indexed(it) {
  const found = it.index ?? (await ask("lines", it.file));
  if (found.failure) throw new Error(found.failure.words);
  return (it.index = found);
}

// So many lines of a text from one on.
async function linesFrom(it, from, count) {
  const { marks, perMark, lines } = await indexed(it);
  const before = Math.floor((from - 1) / perMark), last = Math.min(from - 1 + count, lines);
  const end = marks[Math.ceil(last / perMark)] ?? it.file.size;
  const found = (await it.file.slice(marks[before], end).text()).split("\n");
  return found.slice(from - 1 - before * perMark, last - before * perMark);
}

async function showLines(from) {
  const mine = ++showing, it = text;
  try {
    const { lines } = await indexed(it);
    from = Math.max(1, Math.min(from, lines - MOST_LINES + 1));
    const found = await linesFrom(it, from, MOST_LINES);
    if (mine === showing) fillLines(it, lines, from, found);
  } catch (error) {
    if (mine === showing) at("extent").textContent = unreadWords(it.file.name, error);
  }
}

function fillLines(it, lines, from, found) {
  first = from;
  const isSession = it === texts[0];
  at("lines").start = from;
  at("lines").replaceChildren(...found.map((words, place) => {
    const line = from + place, isMarked = isSession && line === marked;
    if (!isSession || (!isMarked && !wordsOf(line).length && !rowOf(line))) return made("li", {}, words);
    const it = made("button", { type: "button", className: "link", textContent: words || " " });
    it.onclick = () => mark(line).then(() => (wordsOf(line).length ? go(wordsOf(line)[0]) : goToPicture()));
    return made("li", { className: isMarked ? "marked" : "" }, it);
  }));
  at("earlier").disabled = from === 1;
  at("later").disabled = from + MOST_LINES > lines;
  at("extent").textContent = `of ${lines}, ${mib(it.file.size)}`;
  at("line").max = lines;
}

// Shows a text with a line of it in the middle.
async function showText(it, line = 1) {
  text = it;
  for (const button of at("which").children) button.setAttribute("aria-pressed", button.textContent === it.name);
  at("line").value = line;
  URL.revokeObjectURL(at("save").href);
  Object.assign(at("save"), { href: URL.createObjectURL(it.file), download: it.file.name ?? it.name });
  await showLines(line - MOST_LINES / 2);
  scrollToLine(line);
}

function scrollToLine(line) {
  const list = at("lines"), shown = list.children[line - first];
  if (shown) list.scrollTop = shown.offsetTop - list.clientHeight / 2;
}

function addText(name, file, index) {
  const it = { name, file, index };
  texts.push(it);
  at("which").append(made("button", { type: "button", textContent: name, onclick: () => showText(it) }));
  return it;
}

const pictureFile = (bytes) => new File([bytes], "picture.svg", { type: "image/svg+xml" });

// The sessions are judged, and one of them is shown.

let judging = 0;

// What says how much of a session is read, and then what is done with it.
const sayingOf = ({ name }, what, current) => (done, total) => current() && busy(total ? `Reading ${name}: ${mib(done)} of ${mib(total)}` : what, done, total);

// Nothing is shown of the session before, and nothing is asked of it.
function cleared() {
  stop();
  showing++;
  marked = first = 0;
  texts = [];
  about = shown = undefined;
  picture?.replaceChildren();
  drawing = life = undefined;
  around = new Map();
  delete document.body.dataset.done;
  for (const it of ["story", "about", "drawn", "texts", "bar", "seek", "finds", "orders", "orders-beside", "life", "question"]) at(it).hidden = true;
  for (const it of ["words", "which", "lines"]) at(it).replaceChildren();
  listFaults([]);
  for (const it of ["numbers", "of-report"]) at(it).textContent = "";
}

// Judges what was handed over, in place of what was there.
async function judged(files) {
  const mine = ++judging;
  cleared();
  handed = [];
  listSessions();
  show(worded("", "Reading .."));
  const found = await opened(files);
  if (mine !== judging) return;
  handed = withoutRecords(found);
  const named = sessions().length === 1 ? sessions() : handed;
  document.title = `postcopy: ${named.length === 1 ? named[0].name : `${named.length} files`}`;
  document.body.classList.toggle("shown", sessions().length > 0);
  listSessions();
  const dear = sessions().flatMap((it) => costWords(it) ?? []);
  if (sessions().length && !dear.length) return work();
  busy();
  show(dear.length ? worded("odd", "This takes much memory.", ...dear) : noSession());
  at("question").hidden = !dear.length;
  document.body.dataset.done = judging;
}

// Tells of the session that is wanted, or the only one, and judges those that are not judged yet; where none is wanted, it tells of the
// worst then.
async function work(wanted = sessions().length === 1 ? sessions()[0] : undefined) {
  const mine = ++judging, current = () => mine === judging;
  cleared();
  at("given").open = false;
  if (wanted) await tell(wanted, current);
  await judgeOthers(current);
  if (!wanted && current()) await tell(firstToShow(), current);
  finish(current);
}

function finish(current) {
  if (!current()) return;
  busy();
  document.body.dataset.done = judging;
}

async function judgeOthers(current) {
  for (const it of sessions()) {
    if (current() && !it.verdict) await judge(it, current);
  }
}

const firstLineOf = (bytes) => new TextDecoder().decode(bytes.subarray(0, LONGEST_FIRST_LINE)).split("\n")[0];

// What is asked of each session, and what besides of one that is shown. What is asked together is answered by one judgement. A session
// of more bytes than these is asked for its verdict first, and for the story after it.
const MOST_AT_ONCE = 1 << 24;
const OF_VERDICT = ["audit", "missing_pages"], OF_STORY = ["explain", "draw", "audit_all"];

// What a worker answers on a session, and what it says first of it: the first line of the report, or of a clean session the `halt`, the
// `resume` or the page that is missing.
async function judgement(ask, file, story = [], how = {}) {
  const { failure, texts, ...answer } = await ask("answers", file, { asks: [...OF_VERDICT, ...story], ...how });
  if (failure) return { failure };
  const firstLine = firstLineOf(texts.audit), lack = answer.kind === "CLEAN" ? firstLineOf(texts.missing_pages) : "";
  return { texts, answer: { ...answer, lack, firstLine }, says: lack || firstLine };
}

// Asks for the verdict on a session, and together with it for the story, where there is memory for both.
async function judge(it, current, story = []) {
  busy(`Reading ${it.name}`);
  if (!shown) show(worded("", `Judging ${it.name} ..`));
  const { failure, texts, answer, says } = await judgement(ask, it.file, story, { say: sayingOf(it, `Judging ${it.name}`, current) });
  if (!current()) return;
  if (failure?.isMemory && story.length) return judge(it, current);
  it.verdict = failure ? verdictOnFailure(failure, it) : verdictOn(answer);
  it.says = says;
  it.answer = failure ? undefined : { ...answer, report: new File([texts.audit], "report") };
  if (!failure && story.length) it.told = Object.fromEntries(story.map((name) => [name, texts[name].slice()]));
  sayInList(it);
}

// Shows the verdict on a session, the words, the picture and the texts, one after another.
async function tell(it, current) {
  if (!it.answer && !it.left) await judge(it, current, it.file.size <= MOST_AT_ONCE ? OF_STORY : []);
  if (!current()) return;
  shown = it;
  showInList();
  show(it.verdict, it.name, asideOf(it));
  const { answer } = it;
  if (!answer) return;
  const say = (memory) => `${it.name}, ${mib(it.file.size)}: judged in ${answer.ms.toFixed(0)} ms, with ${mib(answer.memory)} of memory${memory > answer.memory ? `; told with ${mib(memory)}` : ""}`;
  at("numbers").textContent = say(0);
  it.beside = [...asideOf(it), ...(await besideWords(it))];
  if (!current()) return;
  show(it.verdict, it.name, it.beside);
  const told = it.told ?? (await storyOf(it, current, (memory) => (at("numbers").textContent = say(memory))));
  if (!told || !current()) return;
  showWords(new TextDecoder().decode(told.explain));
  addText("Session", it.file);
  addText("Report", answer.report);
  await showText(texts[0], answer.line || 1);
  if (!current()) return;
  showPane("texts");
  at("seek").hidden = false;
  listFaults(faultsOf(answer.firstLine, []));
  const drawn = answer.kind !== "SESSION_TEXT" && told.draw;
  if (drawn) {
    showPicture(new TextDecoder().decode(drawn));
    addText("Picture", pictureFile(drawn));
  }
  // (the report on a clean session has the certificate after its first line)
  if (current() && answer.kind === "CLEAN") addText("Certificate", new File([answer.report.slice(answer.firstLine.length + 1)], "certificate"));
  const faults = answer.kind === "FAULTY" ? faultsIn(told.audit_all) : [];
  await showText(texts[0], answer.line || 1);
  if (!drawn || !current()) return;
  listFaults(faultsOf(answer.firstLine, faults));
  showTopics(it, answer.line, faults);
  const fault = faultOf();
  await showMore(it, fault?.page, answer.line, fault?.reason, current);
}

// The texts that tell the story of a session which was judged before, or nothing where there is no memory for them.
async function storyOf(it, current, sayMemory) {
  const { failure, texts, memory } = await ask("answers", it.file, { asks: OF_STORY, say: sayingOf(it, "Finding out what happened", current) });
  if (!current()) return undefined;
  if (failure) show(it.verdict, it.name, [...it.beside, `No more could be told: ${failure.words}.`]);
  else sayMemory(memory);
  return texts;
}

// The examples, and what the reader does.

const examples = JSON.parse(at("data").textContent);

function judgeExample() {
  const it = examples.find(({ name }) => location.hash === `#${name}`);
  if (!it) return;
  const certificate = it.certificate === undefined ? [] : [{ file: new File([it.certificate], "certificate") }];
  judged([{ file: new File([it.session], "session"), name: `session of the example ${it.name}` }, ...certificate]);
  at("verdict").scrollIntoView({ block: "nearest" });
}

// Judges files of the reader: the address names no example any more.
function judgeFiles(files) {
  history.replaceState(null, "", location.href.split("#")[0]);
  judged(files);
}

// The files that are dropped, and of a folder what tells the files in it. (Chromium reads no entry of a page that is a file, but handles.)
const droppedFiles = ({ items }) => [...items].filter(({ kind }) => kind === "file").map((it) => {
  const file = it.getAsFile(), entry = it.webkitGetAsEntry?.(), name = file?.name ?? entry?.name;
  if (!entry?.isDirectory) return { file, name };
  const handle = it.getAsFileSystemHandle?.().catch(() => undefined);
  return { name, entries: async () => ((await handle) ? inHandle(await handle, name) : inEntry(entry, name)) };
});

// What is in a folder: each file by its way from there.
async function inHandle(handle, within) {
  const found = [];
  for await (const [last, it] of handle.entries()) {
    const name = `${within}/${last}`;
    found.push(it.kind === "directory" ? { name, entries: () => inHandle(it, name) } : { name, within, take: () => it.getFile() });
  }
  return found;
}

async function inEntry(entry, within) {
  const reader = entry.createReader(), found = [];
  for (let more; (more = await new Promise((done, failed) => reader.readEntries(done, failed))).length; ) found.push(...more);
  return found.map((it) => {
    const name = `${within}/${it.name}`;
    return it.isDirectory ? { name, entries: () => inEntry(it, name) } : { name, within, take: () => new Promise((done, failed) => it.file(done, failed)) };
  });
}

// What is judged or told is stopped, and nothing more is asked.
function endWork() {
  judging++;
  stop();
  busy();
  if (about) stayAtTopic();
  else if (shown) show(shown.verdict, shown.name, [...(shown.beside ?? asideOf(shown)), "It was stopped: no more is told."]);
  else show(worded("odd", "Stopped.", "Nothing is said of what is not judged yet."));
  at("verdict").focus({ preventScroll: true });
  document.body.dataset.done = judging;
}

// What single keys do, where they are on.
const goIfSeveral = (step) => (about?.faults.length > 1 ? void goToFault(step) : false);
const KEYS = {
  n: () => goIfSeveral(1), p: () => goIfSeveral(-1),
  "+": () => setZoom(zoom * ZOOM), "-": () => setZoom(zoom / ZOOM), 0: () => setZoom(FIRST_ZOOM),
  "/": () => (at("seek").hidden ? false : at("sought").focus()),
};

function listen() {
  addEventListener("dragover", (event) => {
    event.preventDefault();
    at("choose").classList.add("over");
  });
  addEventListener("dragleave", () => at("choose").classList.remove("over"));
  addEventListener("drop", (event) => {
    event.preventDefault();
    at("choose").classList.remove("over");
    const files = droppedFiles(event.dataTransfer);
    if (files.length) judgeFiles(files);
  });
  at("files").onchange = () => {
    const files = [...at("files").files].map((file) => ({ file }));
    // (the same file, chosen again, is another choice)
    at("files").value = "";
    if (files.length) judgeFiles(files);
  };
  at("stop").onclick = endWork;
  at("next-fault").onclick = () => goToFault(1);
  at("previous-fault").onclick = () => goToFault(-1);
  at("agree").onclick = () => work();
  at("seek").onsubmit = (event) => {
    event.preventDefault();
    seek();
  };
  at("save-report").onclick = saveReport;
  at("filter").oninput = showFaults;
  at("smaller").onclick = () => setZoom(zoom / ZOOM);
  at("larger").onclick = () => setZoom(zoom * ZOOM);
  at("fit").onclick = () => setZoom(FIRST_ZOOM);
  at("show-texts").onclick = () => {
    showPane("texts");
    scrollToLine(+at("line").value);
    at("show-picture").focus();
  };
  at("show-picture").onclick = () => {
    showPane("drawn");
    at("show-texts").focus();
  };
  for (const [id, to] of [["first-step", () => 0], ["previous-step", () => life.at - 1], ["next-step", () => life.at + 1], ["last-step", () => life.steps.length - 1]]) at(id).onclick = () => goToStep(to());
  at("page").onchange = () => at("page").validity.valid && tellOf(at("page").value === "" ? undefined : +at("page").value);
  at("to-words").onclick = () => go(wordsOf(marked)[0]);
  at("to-picture").onclick = goToPicture;
  at("to-text").onclick = () => showText(texts[0], marked).then(goToText);
  at("unmark").onclick = unmark;
  at("lines").onclick = ({ target }) => target.tagName === "LI" && text === texts[0] && chooseLine(first + [...at("lines").children].indexOf(target));
  at("earlier").onclick = () => showLines(first - MOST_LINES);
  at("later").onclick = () => showLines(first + MOST_LINES);
  at("line").onchange = () => showText(text, Math.max(1, Math.min(+at("line").value || 1, +at("line").max)));
  addEventListener("keydown", (event) => {
    if (event.key === "Escape" && marked) unmark();
    const isForPage = at("keys").checked && !event.ctrlKey && !event.altKey && !event.metaKey && !/^(INPUT|SELECT)$/.test(event.target.tagName);
    if (isForPage && Object.hasOwn(KEYS, event.key) && KEYS[event.key]() !== false) event.preventDefault();
  });
  addEventListener("hashchange", judgeExample);
}

// Whether the browser has what the module needs.
function canJudge() {
  try {
    new WebAssembly.Memory({ address: "i64", initial: 1n, maximum: 2n });
    return true;
  } catch {
    return false;
  }
}

at("examples").append(...examples.map(({ name, what }) => made("li", {}, made("a", { href: "#" + name, textContent: name }), ": " + what)));
if (canJudge()) {
  listen();
  keptIn(document).then((kept) => (kept.length ? judged(kept) : judgeExample()), (error) => show(worded("odd", "This report is not whole.", `Its sessions cannot be read: ${error.message}.`)));
} else {
  show(worded("odd", "This browser cannot judge.", "It has no WebAssembly with 64-bit addresses. Chromium has it from 133 on, and Firefox from 134 on."));
  at("files").disabled = true;
}
