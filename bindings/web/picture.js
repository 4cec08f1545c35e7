// The picture: the rows that `draw` writes, laid out for the window. Column heads stay in view, the columns take the width that there
// is, and long numbers are shortened in the boxes. It is a part of the script of page.js, and stands before it.
"use strict";

// In a tree of its own, so that its styles are its own.
const OF_PICTURE = `:host { --faulty: light-dark(#c21e1e, #ff7b72); --cause: light-dark(#6639ba, #b392f0); --against: light-dark(#9a6700, #e3b341); --of-page: light-dark(#0969da, #58a6ff); --stuck: light-dark(#a40e6e, #f778ba); --edge: light-dark(#818b98, #656c76) }
* { box-sizing: border-box }
.frame { container-type: inline-size }
.sheet { --row: calc(26px * var(--zoom)); --gutter: calc(3.1rem * var(--zoom)); position: relative; width: calc(100% * max(1, var(--zoom))); font-size: calc(12px * var(--zoom)) }
.heads { position: sticky; top: 0; z-index: 1; height: 1.8em; background: var(--paper); border-bottom: 1px solid var(--line); font-weight: bold } .heads > div { position: relative; margin-left: var(--gutter) }
.heads span { position: absolute; text-align: center } .heads .of-lines { left: calc(-1 * var(--gutter)); width: calc(var(--gutter) - .5em); text-align: right; font-weight: normal; color: var(--soft) }
.rows { position: relative; margin-left: var(--gutter); height: calc(var(--row) * var(--count)) }
.life { position: absolute; top: 0; bottom: 0; border-left: 1px solid var(--line) }
.arrows { position: absolute; inset: 0; width: 100%; height: 100%; pointer-events: none; overflow: visible }
.arrows line { stroke: var(--edge); stroke-width: 1.2; vector-effect: non-scaling-stroke } .arrows .arrow-page { stroke: var(--of-page); stroke-width: 2 } .arrows .arrow-tied { stroke: var(--faulty); stroke-width: 2; stroke-dasharray: 5 3 }
.row { position: absolute; left: 0; right: 0; height: var(--row); top: calc(var(--row) * var(--at)) }
.row .line { position: absolute; left: calc(-1 * var(--gutter)); width: calc(var(--gutter) - .5em); text-align: right; color: var(--soft); line-height: var(--row) }
.fold { position: absolute; left: 50%; top: 50%; transform: translate(-50%, -50%); white-space: nowrap; max-width: 100%; overflow: hidden; text-overflow: ellipsis; padding: 0 .8em; border: 1px dotted var(--edge); border-radius: 1em; background: var(--paper); color: var(--soft) }
.box { position: absolute; top: 50%; transform: translateY(-50%); display: flex; align-items: center; gap: .5em; padding: 0 .5em; height: calc(var(--row) - 5px * var(--zoom)); border: 1px solid var(--edge); border-radius: 4px; background: light-dark(#f6f8fa, #151b23) }
.box .words { overflow: hidden; text-overflow: ellipsis; white-space: nowrap; flex: 1 1 auto } .box .number { color: var(--soft) }
.box-page { border: 2px solid var(--of-page); background: light-dark(#dbeafe, #10305c) } .box-against { border: 2.5px dashed var(--against); background: light-dark(#fff3d6, #3b2a00) }
.box-faulty { border: 3.5px solid var(--faulty); background: light-dark(#ffe3dc, #5a1414) } .box-cause { border: 2.5px solid var(--cause); background: light-dark(#efe6fd, #2f1d55) } .box-stuck { border: 2px dotted var(--stuck); background: light-dark(#fbe7f3, #40122d) }
.sign { font-weight: bold } .cross { color: var(--faulty) } .flag { color: var(--cause) } .diamond { color: var(--against) }
.tip { position: absolute; top: calc(50% - 4px); border: 4px solid transparent } .tip.left { right: 100%; border-left: 7px solid var(--edge); border-right: 0 } .tip.right { left: 100%; border-right: 7px solid var(--edge); border-left: 0 }
.tip.page.left { border-left-color: var(--of-page) } .tip.page.right { border-right-color: var(--of-page) } .tip.tied.left { border-left-color: var(--faulty) } .tip.tied.right { border-right-color: var(--faulty) }
.stub::before { content: ""; position: absolute; top: -1px; width: 1em; border-top: 1.5px dashed var(--edge) } .stub.left::before { right: 5px } .stub.right::before { left: 5px }
.record { cursor: pointer } .record:focus { outline: none } .record:is(:focus, .marked) .box { outline: 3px solid Highlight; outline-offset: 1px } .marked .line { font-weight: bold; color: inherit }
.row.before .box, .row.after .box { outline: 2px solid var(--link); outline-offset: 1px } .row.before .line::before { content: "▲ " } .row.after .line::before { content: "▼ " } .row.now .line::after { content: " ▶" }
.legend { display: flex; flex-wrap: wrap; gap: .3em 1.2em; margin: .8em 0 .2em; font-size: 12px; color: var(--soft) } .legend .box { position: static; transform: none; display: inline-flex; width: 2.4em; height: 1.3em; vertical-align: middle; margin-right: .4em; --zoom: 1; justify-content: center; gap: .2em; padding: 0 .1em }
.legend .way { display: inline-block; width: 2.4em; border-top: 2px solid var(--edge); vertical-align: middle; margin-right: .4em } .legend .arrow-page { border-color: var(--of-page) } .legend .arrow-tied { border-color: var(--faulty); border-top-style: dashed } .legend .from-no-row { border-top-style: dashed }
@container (max-width: 50rem) { .sheet { font-size: calc(11px * var(--zoom)) } .box { gap: .2em; padding: 0 .25em } .rows { margin-right: 2px } }
@container (max-width: 30rem) {
  .sheet { --row: calc(50px * var(--zoom)); --gutter: calc(2.3rem * var(--zoom)); font-size: calc(11px * var(--zoom)) }
  .box { gap: .3em; padding: 0 .25em } .box .words { white-space: normal; line-height: 1.1; max-height: 100%; overflow-wrap: anywhere } .box .number { display: none }
}
@media (forced-colors: active) { .box { forced-color-adjust: preserve-parent-color } .box-faulty { border-style: double; border-width: 5px } .arrows line { stroke: CanvasText } }
@media print { .sheet { --zoom: 1 !important; width: 100% } .heads { position: relative } .row { break-inside: avoid } }`;

const SVG = "http://www.w3.org/2000/svg", FIRST_ZOOM = 1, MOST_ZOOM = 4, ZOOM = 1.25;

// The height of a row of the drawing.
const HEIGHT = 26;
const SIGNS = { cross: "✗", flag: "⚑", diamond: "◆" };

// What the marks of a row say to one who hears it.
const SAID = { faulty: "faulty", cause: "the cause", against: "what it is set against" };

// What the picture was read from, and what is shown of it.
let picture, drawing, zoom = FIRST_ZOOM;
const rowOf = (line) => picture?.querySelector(`[data-line="${line}"]`);
const rowsOfRecords = () => [...(picture?.querySelectorAll(".record") ?? [])];

// Numbers of ten digits and more, and contents, with the middle left out.
const shortened = (words) => words.replace(/\b[\da-f]{16,}\b|\d{10,}/g, (it) => `${it.slice(0, 3)}…${it.slice(-3)}`);

// What `draw` wrote: the columns, the rows from above to below, the arrows between them, and the legend.
function readDrawing(svg) {
  const drawn = new DOMParser().parseFromString(svg, "image/svg+xml").documentElement;
  const number = (it, name) => +it.getAttribute(name);
  const columns = [...drawn.querySelectorAll("text[font-weight=bold][text-anchor=middle]")].map((it) => ({ name: it.textContent, x: number(it, "x") }));
  // (the figures of a box stand from right to left)
  const figures = (it) => [...it.querySelectorAll("path")].map((path) => path.getAttribute("class")).reverse();
  const nearest = (all, at, of) => all.reduce((best, it) => (Math.abs(of(it) - at) < Math.abs(of(best) - at) ? it : best), all[0]);
  const rows = [...drawn.querySelectorAll("g.row")].map((it) => {
    const box = it.querySelector("rect"), y = number(box, "y") + number(box, "height") / 2, kinds = [...it.classList];
    if (kinds.includes("fold-row")) return { y, fold: it.textContent };
    const [place, words] = it.querySelectorAll("tspan"), title = it.querySelector("title").textContent;
    const column = columns.indexOf(nearest(columns, number(box, "x") + number(box, "width") / 2, ({ x }) => x));
    return { y, kinds, column, title, line: +title.match(/^line (\d+)/)[1], number: place.textContent, words: words.textContent, box: box.getAttribute("class"), figures: figures(it) };
  }).sort((one, other) => one.y - other.y);
  const records = rows.filter(({ line }) => line);
  const arrows = [...drawn.querySelectorAll("line[class^=arrow]")].filter((it) => !it.closest(".legend")).map((it) => {
    const [from, to] = ["y1", "y2"].map((end) => nearest(records, number(it, end), ({ y }) => y)), isFromNoRow = it.getAttribute("y1") === it.getAttribute("y2");
    // (of two that lead to and fro, each goes a little beside the middle)
    const beside = (number(it, "y1") - from.y) / HEIGHT;
    return { from: isFromNoRow ? undefined : from.line, to: to.line, kind: it.getAttribute("class"), side: number(it, "x1") < number(it, "x2") ? "left" : "right", beside };
  });
  const legend = [...drawn.querySelectorAll(".legend > g")].map((it) => {
    const sign = it.querySelector("rect, line");
    return { kind: sign.getAttribute("class") + (sign.getAttribute("stroke-dasharray") === "3 2" ? " from-no-row" : ""), figures: figures(it), words: it.textContent };
  });
  return { columns, rows, records: new Map(records.map((it) => [it.line, it])), arrows, legend };
}

// Where the columns stand, in hundredths of the width: each as wide as its longest words ask, but none too narrow.
function columnsOf({ columns, records }) {
  const longest = columns.map(() => 12);
  for (const { column, number, words } of records.values()) longest[column] = Math.max(longest[column], number.length + shortened(words).length + 3);
  const most = Math.max(...longest), widths = longest.map((it) => Math.max(it, most * 0.36)), all = widths.reduce((sum, it) => sum + it, 0);
  let start = 0;
  return widths.map((it) => {
    const width = (it / all) * 100, found = { start: start + 1, width: width - 2 };
    start += width;
    return found;
  });
}

function showPicture(svg) {
  const host = at("picture");
  picture = host.shadowRoot ?? host.attachShadow({ mode: "open" });
  drawing = readDrawing(svg);
  showRows(drawing.rows);
  showPane("drawn");
}

// Shows rows, in the order in which they stand: those of the drawing, or the same in another order.
function showRows(rows) {
  const columns = columnsOf(drawing), places = new Map(rows.map((it, place) => [it.line, place]));
  const within = ({ start, width }, it) => (Object.assign(it.style, { left: `${start}%`, width: `${width}%` }), it);
  const names = drawing.columns.map(({ name }, place) => within(columns[place], made("span", { className: "head", textContent: name })));
  const heads = made("div", { className: "heads" }, made("div", {}, made("span", { className: "of-lines", textContent: "line" }), ...names));
  const lives = columns.map(({ start, width }) => within({ start: start + width / 2, width: 0 }, made("i", { className: "life" })));
  const arrows = drawing.arrows.filter(({ from, to }) => from !== undefined && places.has(from) && places.has(to));
  const shown = rows.map((row, place) => {
    const it = row.fold === undefined ? rowOfRecord(row, within, columns) : made("div", { className: "row fold-row" }, made("span", { className: "fold", textContent: row.fold }));
    it.style.setProperty("--at", place);
    return it;
  });
  const all = made("div", { className: "rows" }, ...lives, arrowsOf(arrows, places, columns, rows.length), ...shown);
  all.style.setProperty("--count", rows.length);
  const sheet = made("div", { className: "sheet" }, heads, all);
  picture.replaceChildren(made("style", { textContent: OF_PICTURE }), made("div", { className: "frame" }, sheet, legendOf(drawing)));
  setZoom(zoom);
  listenToRows();
}

const signsOf = (figures) => figures.map((it) => made("span", { className: `sign ${it}`, textContent: SIGNS[it], ariaHidden: "true" }));

function rowOfRecord({ kinds, column, title, line, number, words, box, figures }, within, columns) {
  // (an arrow from a record that has no row is a stub)
  const tips = drawing.arrows.filter((it) => it.to === line).map(({ from, kind, side }) => made("i", { className: `tip ${side} ${kind.slice("arrow-".length)} ${from === undefined ? "stub" : ""}` }));
  const place = within(columns[column], made("span", { className: `box ${box}` }, made("span", { className: "number", textContent: number }), made("span", { className: "words", textContent: shortened(words) }), ...signsOf(figures), ...tips));
  const it = made("div", { className: kinds.join(" ") }, made("span", { className: "line", textContent: line }), place);
  Object.assign(it.dataset, { line, title });
  return it;
}

// An arrow goes from a box to another, from the side at which that stands.
function arrowsOf(arrows, places, columns, count) {
  const all = document.createElementNS(SVG, "svg");
  for (const [name, value] of [["class", "arrows"], ["viewBox", `0 0 100 ${count}`], ["preserveAspectRatio", "none"], ["aria-hidden", "true"]]) all.setAttribute(name, value);
  for (const { from, to, kind, side, beside } of arrows) {
    const [one, other] = [from, to].map((line) => columns[drawing.records.get(line).column]), isRight = side === "left";
    const line = document.createElementNS(SVG, "line");
    const ends = { x1: one.start + (isRight ? one.width : 0), y1: places.get(from) + 0.5 + beside, x2: other.start + (isRight ? 0 : other.width), y2: places.get(to) + 0.5 + beside };
    for (const [name, value] of Object.entries({ ...ends, class: kind })) line.setAttribute(name, value);
    all.append(line);
  }
  return all;
}

function legendOf({ legend }) {
  const signs = ({ kind, figures }) => (kind.startsWith("arrow") ? made("span", { className: `way ${kind}` }) : made("span", { className: `box ${kind}` }, ...signsOf(figures)));
  return made("div", { className: "legend" }, ...legend.map((it) => made("span", {}, signs(it), it.words)));
}

// The same records in another order, with what stands between them.
const ofLogs = (counts) => counts.flatMap((it, log) => (it ? `${["guest", "source", "link", "lane", "pager"][log]} ${it}` : [])).join(", ");
function foldsOf(counts) {
  const all = counts.reduce((sum, it) => sum + it, 0);
  return all ? [{ fold: `${all} ${all === 1 ? "record" : "records"}: ${ofLogs(counts)}` }] : [];
}
const rowsInOrder = ({ rows, rest }) => [...rows.flatMap(({ line, between }) => [...foldsOf(between), drawing.records.get(line)]), ...foldsOf(rest)];

function setZoom(to) {
  zoom = Math.min(MOST_ZOOM, Math.max(1 / MOST_ZOOM, to));
  picture?.querySelector(".sheet")?.style.setProperty("--zoom", zoom);
}

// The rows, by the pointer and by the keyboard.

function goAmongRows(event, rows, place) {
  const to = { ArrowDown: place + 1, ArrowUp: place - 1, Home: 0, End: rows.length - 1 }[event.key];
  if (event.key === "Enter" || event.key === " ") rows[place].onclick();
  else if (rows[to]) goToRow(rows[to]);
  else return;
  event.preventDefault();
}

// Goes to a row: it alone can be reached by Tab then.
function goToRow(row) {
  for (const it of rowsOfRecords()) it.setAttribute("tabindex", it === row ? 0 : -1);
  go(row);
}

function listenToRows() {
  const rows = rowsOfRecords(), current = rows.find((it) => it.classList.contains("faulty")) ?? rows[0];
  rows.forEach((row, place) => {
    const { title, line } = row.dataset;
    row.setAttribute("role", "button");
    row.setAttribute("aria-label", [title, ...Object.keys(SAID).filter((it) => row.classList.contains(it)).map((it) => SAID[it])].join(", "));
    row.setAttribute("tabindex", row === current ? 0 : -1);
    row.onclick = () => (marked === +line ? goToText() : mark(+line).then(() => goToRow(rowOf(line))));
    row.onkeydown = (event) => goAmongRows(event, rows, place);
    row.onmouseenter = row.onfocus = () => hint(+line);
  });
}

// Which of the two stands in the middle: the picture, or the texts.
function showPane(name) {
  for (const it of ["drawn", "texts"]) at(it).hidden = it !== name;
  at("show-picture").hidden = !picture?.firstChild;
}
