// The story of what is chosen: of a record, what it comes after and what waits for it; of a page, its life, step by step, in an order.
// It is a part of the script of page.js, and stands before it.
"use strict";

// What the records around those of the picture are, by line.
let around = new Map(), life;

const AT_RECORD = ({ line, log, number }) => `line ${line} (${log} ${number})`;

// A way to a record.
function wayTo({ line }, words, ...more) {
  const way = made("button", { type: "button", className: "link", textContent: words, onclick: () => choose(line) });
  way.dataset.to = line;
  return made("span", {}, way, ...more);
}

// What has to come before a record, and what waits for it.
function relationsOf({ names, earlier, namedBy, named, later }) {
  const way = (it) => wayTo(it, AT_RECORD(it), ` ${shortened(it.text)}`), rest = named - namedBy.length;
  const before = [...names.map((it) => ["it names ", way(it)]), ...(earlier ? [["before it in its log: ", way(earlier)]] : [])];
  const after = [...namedBy.map((it) => ["it is named by ", way(it)]), ...(rest > 0 ? [[`and by ${rest} more`]] : []), ...(later ? [["after it in its log: ", way(later)]] : [])];
  return [["Comes after", before, "Nothing has to come before it."], ["Waits for it", after, "Nothing waits for it."]];
}

async function readAround(session, current) {
  const found = await ask("around", session.file, { lines: [...drawing.records.keys()] });
  if (current() && !found.failure) around = new Map(found.records.map((it) => [it.line, it]));
}

// Says in a line or two what a record of the picture is, and marks what it comes after and what waits for it.
function hint(line) {
  const it = around.get(line), { title } = drawing.records.get(line);
  for (const row of picture.querySelectorAll(".before, .after")) row.classList.remove("before", "after");
  const said = [made("p", {}, made("strong", { textContent: title }))];
  if (it) {
    for (const { line } of [...it.names, it.earlier ?? {}]) rowOf(line)?.classList.add("before");
    for (const { line } of [...it.namedBy, it.later ?? {}]) rowOf(line)?.classList.add("after");
    said.push(...relationsOf(it).map(([head, all, none]) => made("p", {}, ...(all.length ? [`${head}: `, ...all.flatMap((words, place) => [place ? "; " : "", ...words])] : [none]))));
  }
  at("hint").replaceChildren(...said);
}

// The story of a record: its text, what is around it, and what the module says of it.
async function tellRecord(line) {
  const mine = marked, session = shown, isShown = () => mine === marked && session === shown;
  for (const it of ["record-text", "record-around", "record-words"]) at(it).replaceChildren();
  at("to-page").hidden = true;
  const found = await ask("around", session.file, { lines: [line] });
  if (!isShown() || found.failure || !found.records.length) return;
  const it = found.records[0];
  at("record-text").textContent = it.text;
  at("record-around").replaceChildren(...relationsOf(it).map(([head, all, none]) => made("p", {}, `${head}: `, ...(all.length ? [made("ul", {}, ...all.map((words) => made("li", {}, ...words)))] : [none]))));
  at("to-page").hidden = it.page < 0 || !about;
  Object.assign(at("to-page"), { textContent: `Page ${it.page}`, onclick: () => tellOf(it.page) });
  if (wordsOf(line).length || rowOf(line)) return;
  const told = await ask("answers", session.file, { asks: ["explain_line"], topic: line });
  if (!isShown() || told.failure) return;
  const sentence = new TextDecoder().decode(told.texts.explain_line).split("\n").find((it) => it.startsWith("This is ")) ?? "";
  at("name").textContent = sentence.replace("This is ", "") || at("name").textContent;
}

// Chooses a record, wherever it stands.
async function choose(line) {
  await mark(line);
  if (rowOf(line)) goToRow(rowOf(line));
  else at("bar").scrollIntoView({ block: "nearest" });
}

// Tells the story of the record at a line of the session's text, where one stands there.
async function chooseLine(line) {
  const session = shown, found = await ask("around", session.file, { lines: [line] });
  if (session === shown && found.records?.length) await mark(line);
}

// What the reader looks for.

const SOUGHT = [
  [/^(?:line )?(\d+)$/, (line) => ({ call: "around", given: { lines: [+line] }, what: `Line ${line} tells no record.` })],
  [/^(guest|source|link|lane|pager) (\d+)$/, (log, number) => ({ call: "place", given: { log, number: +number }, what: `The log of the ${log} has no record ${number}.` })],
  [/^(?:page|p) ?(\d+)$/, (page) => ({ page: +page })],
  [/^(?:virtual processor|processor|vcpu|v) ?(\d+)$/, (vcpu) => ({ call: "vcpu", given: { vcpu: +vcpu }, what: `Virtual processor ${vcpu} did nothing.`, head: `What virtual processor ${vcpu} did` })],
];

function asked(words) {
  for (const [form, question] of SOUGHT) {
    const found = words.trim().toLowerCase().replace(/\s+/g, " ").match(form);
    if (found) return question(...found.slice(1));
  }
  return { what: "Look for a line, as 2566; a record of a log, as guest 12; a page, as page 7; or a virtual processor, as vcpu 0." };
}

async function seek() {
  const session = shown, { page, call, given, what, head } = asked(at("sought").value);
  delete document.body.dataset.sought;
  showFinds();
  if (page !== undefined && about) return tellOf(page).then(() => (document.body.dataset.sought = "page"));
  const found = call ? await ask(call, session.file, given) : {};
  if (session !== shown) return;
  const line = found.line || found.records?.length === 1 && !head && found.records[0].line;
  if (line) await choose(line);
  else if (found.records?.length) showFinds(`${head}: ${found.count > found.records.length ? `the first ${found.records.length} of ` : ""}${found.count}`, found.records);
  else showFinds(found.failure ? `It could not be told: ${found.failure.words}.` : what);
  document.body.dataset.sought = line || "words";
}

function showFinds(words, records = []) {
  at("finds").hidden = !words;
  at("finds-head").textContent = words ?? "";
  at("found").replaceChildren(...records.map((it) => made("li", {}, wayTo(it, AT_RECORD(it), ` ${it.text}`))));
  if (words) at("finds").scrollIntoView({ block: "nearest" });
}

// Orders: that of the picture beside the found one, and a page's life in an order.

// What is told besides of a page or of the report: what is around the records, the other order, and the page's life.
async function showMore(session, page, line, reason, current) {
  for (const it of ["orders", "orders-beside", "life"]) at(it).hidden = true;
  around = new Map();
  if (session.answer.kind === "SESSION_TEXT") return;
  await readAround(session, current);
  const isDelayed = reason === "early" || reason === "over";
  if (current() && isDelayed) await showBeside(session, page, line, current);
  if (current() && page !== undefined) await readOrders(session, page, line, isDelayed && reason, current);
}

async function showBeside(session, page, line, current) {
  const found = await ask("order", session.file, { lines: [...drawing.records.keys()] });
  if (!current() || found.failure) return;
  const here = drawing.rows, there = rowsInOrder(found);
  const isOfPage = (it) => it.line && (it.line === line || /of-page|cause|against|faulty/.test(it.kinds.join(" ")) || /^(resume|halt)/.test(it.words));
  const items = (rows) => made("ol", {}, ...rows.filter(isOfPage).map((it) => made("li", { className: it.line === line ? "wrong" : "" }, wayTo(it, `line ${it.line}`, ` ${shortened(it.words)}`))));
  at("beside").replaceChildren(made("div", {}, made("strong", { textContent: "In this order, in which it goes wrong" }), items(here)), made("div", {}, made("strong", { textContent: "In the found order" }), items(there)));
  at("orders-beside").hidden = false;
  const ways = [["In this order", here], ["In the found order", there]].map(([words, rows]) => made("button", { type: "button", textContent: words, onclick: (event) => {
    showRows(rows);
    for (const it of at("orders").children) it.setAttribute("aria-pressed", it === event.currentTarget);
  } }));
  ways[0].setAttribute("aria-pressed", true);
  at("orders").replaceChildren(...ways);
  at("orders").hidden = false;
}

// The orders in which a page's life may be told.
async function readOrders(session, page, line, reason, current) {
  const wrong = { early: [["an order in which it goes wrong", { page }]], over: [["an order in which it goes wrong", { line }]] }[reason] ?? [];
  const orders = [...wrong, ["the found order", {}], ...filesOf("runs").map(({ name, file }) => [`the order of ${name}`, { file }])];
  const select = at("life-order");
  select.replaceChildren(...orders.map(([words]) => made("option", { textContent: words })));
  select.onchange = () => readLife(session, page, line, orders[select.selectedIndex][1], () => session === shown);
  await readLife(session, page, line, orders[0][1], current);
}

async function readLife(session, page, line, order, current) {
  const found = await ask("life", session.file, { page, order });
  if (!current() || found.failure || !found.isThere) return;
  life = { ...found, at: 0, line };
  const place = found.steps.findIndex((it) => it.line === line);
  at("life-head").textContent = `The life of page ${page}`;
  at("step-list").replaceChildren(...lifeRows());
  at("life").hidden = false;
  goToStep(Math.max(place, 0), false);
}

const cellWords = (contents, before) => {
  if (!contents) return contents === null ? "not there" : "";
  if (contents.length === 1) return shortened(contents[0]);
  const changed = contents.flatMap((it, cell) => (it !== before?.[cell] ? [cell] : []));
  if (!changed.length) return "the same";
  return `[${changed[0]}] = ${shortened(contents[changed[0]])}${changed.length > 1 ? `, and ${changed.length - 1} more` : ""}`;
};

// The steps as rows of a table, with what each changed. Each step gets the contents that the page has after it.
function lifeRows() {
  const { initial, steps, left } = life;
  let flat = initial.contents, target = null;
  const cells = (words) => words.map((it, place) => made("td", { className: place ? "" : "number" }, it));
  const begin = made("tr", {}, ...cells([initial.line || "–", initial.line ? "init" : "init: zeros", cellWords(initial.contents, []), "not there"]));
  const rows = steps.map((it, place) => {
    const before = { flat, target };
    if (it.flat) [flat, target] = [it.flat, it.target];
    Object.assign(it, { now: { flat, target } });
    const words = [`${it.log} ${it.number}: ${shortened(it.text)}`, ...(it.wrong ? [made("br"), made("strong", { textContent: `✗ ${shortened(it.wrong)}` })] : []), it.isTaken ? "" : " (not taken)"];
    const changed = it.flat ? [cellWords(flat, before.flat), JSON.stringify(target) === JSON.stringify(before.target) ? "" : cellWords(target, before.target)] : ["", ""];
    const row = made("tr", { className: it.wrong ? "wrong" : "" }, made("td", { className: "number" }, wayTo(it, it.line)), made("td", {}, ...words), ...changed.map((it) => made("td", {}, it)));
    row.onclick = ({ target }) => target.tagName !== "BUTTON" && goToStep(place);
    return row;
  });
  const more = left ? [made("tr", {}, made("td", { colSpan: 4, className: "soft", textContent: `${left} reads and writes in the middle, with nothing wrong, are left out.` }))] : [];
  return [begin, ...rows, ...more];
}

// Goes to a step: the page's contents there, its row, and its record in the picture.
function goToStep(place, isShown = true) {
  const { steps } = life;
  if (!steps.length) return;
  life.at = Math.min(Math.max(place, 0), steps.length - 1);
  const it = steps[life.at], { flat, target } = it.now, rows = [...at("step-list").children];
  rows.forEach((row, number) => row.classList.toggle("now", number === life.at + 1));
  const box = at("steps"), row = rows[life.at + 1];
  if (!box.hidden) box.scrollTop = row.offsetTop - box.clientHeight / 2;
  at("step").textContent = `step ${life.at + 1} of ${steps.length}: ${AT_RECORD(it)}${it.wrong ? ", wrong" : ""}`;
  const differs = (cell) => target && target[cell] !== flat[cell];
  at("contents").replaceChildren(...flat.map((value, cell) => made("div", { className: differs(cell) ? "marked" : "" }, `cell ${cell}: never moved ${value}; at the target ${target ? target[cell] : "not there"}${differs(cell) ? " ✗" : ""}`)));
  for (const it of picture.querySelectorAll(".now")) it.classList.remove("now");
  rowOf(it.line)?.classList.add("now");
  if (isShown) rowOf(it.line)?.scrollIntoView({ block: "nearest" });
  for (const [id, isOff] of [["first-step", life.at === 0], ["previous-step", life.at === 0], ["next-step", life.at === steps.length - 1], ["last-step", life.at === steps.length - 1]]) at(id).disabled = isOff;
}
