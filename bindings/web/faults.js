// The list of all faults, or of the one record that a session is refused for: by page, by line, by reason. It is a part of the script
// of page.js, and stands before it.
"use strict";

// The numbers of the reasons, by their names in a report.
const NUMBERS = { phases: 1, named: 2, start: 3, "second-send": 4, both: 5, read: 11, early: 12, given: 13, stale: 14, twice: 15, altered: 16, unfit: 17, over: 18 };
const MOST_ROWS = 300, HEADS = ["page", "line", "reason"];

let listed = [], sorting = { by: "line", isDown: false };

// The faults of a session: those that `audit --all` lists, or what the report's first line names.
function faultsOf(firstLine, faults) {
  const [, line, reason] = firstLine.match(/ line (\d+) ?(.*)$/) ?? [];
  return faults.length ? faults : line ? [{ line: +line, reason: reason || firstLine.split(" ")[0] }] : [];
}

const meaningOf = (reason) => REASONS[NUMBERS[reason]] ?? "";

function sorted(faults) {
  const { by, isDown } = sorting, key = (it) => it[by] ?? -1;
  const order = (one, other) => (by === "reason" ? one.reason.localeCompare(other.reason) : key(one) - key(other)) || one.line - other.line;
  return [...faults].sort((one, other) => (isDown ? order(other, one) : order(one, other)));
}

// Those that have each word of the filter: a number is a page or a line, other words are of the reason.
function filtered(faults) {
  const words = at("filter").value.toLowerCase().split(/[\s,]+/).filter(Boolean);
  const has = ({ page, line, reason }, word) => (/^\d+$/.test(word) ? page === +word || line === +word : `${reason} ${meaningOf(reason)}`.includes(word));
  return faults.filter((it) => words.every((word) => has(it, word)));
}

function listFaults(faults) {
  listed = faults;
  at("filter").value = "";
  at("faults").hidden = !faults.length;
  at("left").hidden = at("faults").hidden && at("sessions").hidden;
  at("fault-heads").replaceChildren(...HEADS.map((by) => {
    const head = made("th", { scope: "col", className: by === "reason" ? "" : "number" }, made("button", { type: "button", textContent: by[0].toUpperCase() + by.slice(1), onclick: () => sortBy(by) }));
    head.dataset.by = by;
    return head;
  }));
  showFaults();
}

function sortBy(by) {
  sorting = { by, isDown: sorting.by === by && !sorting.isDown };
  showFaults();
  if (about) nameTopic();
}

function showFaults() {
  for (const it of at("fault-heads").children) it.ariaSort = it.dataset.by === sorting.by ? (sorting.isDown ? "descending" : "ascending") : "none";
  const found = sorted(filtered(listed)), rows = found.slice(0, MOST_ROWS);
  at("fault-list").replaceChildren(...rows.map((it) => {
    const number = (words) => made("td", { className: "number" }, words);
    const way = made("button", { type: "button", className: "link", textContent: it.line, onclick: () => goToFaulty(it) });
    way.setAttribute("aria-label", `${it.page === undefined ? "" : `page ${it.page}, `}line ${it.line}, ${it.reason}`);
    const row = made("tr", { title: meaningOf(it.reason) }, number(it.page ?? "–"), number(way), made("td", {}, made("strong", { textContent: it.reason }), made("span", { className: "meaning soft", textContent: ` ${meaningOf(it.reason)}` })));
    row.dataset.line = it.line;
    return row;
  }));
  const all = `${listed.length} ${listed.length === 1 ? "fault" : "faults"}`;
  at("fault-count").textContent = listed.length < 2 ? "" : found.length === rows.length ? (found.length === listed.length ? all : `${found.length} of ${all}`) : `the first ${rows.length} of ${found.length}: a filter shows the others`;
  showCurrentFault();
}

function goToFaulty({ page, line }) {
  if (page === undefined || !about) return mark(line).then(() => (rowOf(line) ? goToRow(rowOf(line)) : goToText()));
  return tellOf(page);
}

// Marks the fault that is told of.
function showCurrentFault() {
  const line = (about && faultOf(about.page)?.line) ?? (about && about.page === undefined ? about.line : 0);
  for (const row of at("fault-list").children) row.querySelector("button").setAttribute("aria-current", +row.dataset.line === line);
}
