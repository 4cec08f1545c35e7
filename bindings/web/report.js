// A report: this page with sessions in it, as one file that opens by itself. postcopy-report makes the same of files. It is a part of
// the script of page.js, and stands before it.
"use strict";

// The page as it came, before anything is shown in it, and where a page has its sessions.
const PAGE = document.documentElement.cloneNode(true);
const SLOT = "script#kept";

// How large a session may be that a report has whole. (postcopy-report puts in windows of larger ones.)
const MOST_WHOLE = 8 << 20;

const through = (file, stream) => new Response(file.stream().pipeThrough(stream));
const PIECE = 1 << 15;

// Bytes in base64, and back.
function spelled(bytes) {
  let text = "";
  for (let at = 0; at < bytes.length; at += PIECE) text += String.fromCharCode(...bytes.subarray(at, at + PIECE));
  return btoa(text);
}
const unspelled = (text) => Uint8Array.from(atob(text), (it) => it.charCodeAt(0));

function slotOf(page) {
  const slot = page.querySelector(SLOT);
  if (!slot) throw new Error("the page has no place for sessions");
  return slot;
}

// The files that are in a page. `word` is what is said of one that is only a part of another, and `left` of one that is not there.
async function keptIn(page) {
  return Promise.all(JSON.parse(slotOf(page).textContent).map(async ({ packed, ...it }) => {
    if (it.left) return it;
    const file = await through(new Blob([unspelled(packed)]), new DecompressionStream("gzip")).blob();
    return { ...it, file: new File([file], it.name) };
  }));
}

async function packed({ called, name, file, word, unread, kind, says = "" }) {
  if (file?.size <= MOST_WHOLE) {
    const whole = await file.arrayBuffer().catch((error) => Promise.reject(new Error(unreadWords(name, error))));
    const bytes = await through(new Blob([whole]), new CompressionStream("gzip")).arrayBuffer();
    return { name: called, packed: spelled(new Uint8Array(bytes)), ...(word ? { word } : {}) };
  }
  const isOne = isSession({ kind }), said = !isOne ? "" : says ? ` The audit says of it: ${says}.` : " It was not judged.";
  return { name: called, left: unread ?? `${name} has ${mib(file.size)}, and is not in this report.${said}`, ...(isOne ? { kind, says } : {}) };
}

// The page with files in it. Nothing that a file or its name has can end the element that they stand in.
async function reportOf(files, title) {
  const page = PAGE.cloneNode(true), kept = JSON.stringify(await Promise.all(files.map(packed)));
  slotOf(page).textContent = kept.replace(/</g, "\\u003c");
  page.querySelector("title").textContent = title;
  return `<!doctype html>\n${page.outerHTML}`;
}

// What a page says first of a file: of a session its verdict, where it is judged, and else what it is.
const saidOf = (it) => (isSession(it) ? it.says : it.kind);

// What a report says first of each of its files of which this page said something. It is opened, and its own worker judges.
async function saidIn(report, here) {
  const page = new DOMParser().parseFromString(report, "text/html"), { ask, end } = asker(page);
  try {
    const found = await opened(await keptIn(page));
    for (const it of found.filter((it, place) => here[place] !== undefined && isSession(it) && !it.left)) {
      const { failure, says } = await judgement(ask, it.file);
      if (failure) throw new Error(`${it.name} cannot be judged in it: ${failure.words}`);
      it.says = says;
    }
    return found.map(saidOf);
  } finally {
    end();
  }
}

// Saves a report of what is open, where the report says of it what the page says.
async function saveReport() {
  const files = handed, here = files.map(saidOf);
  at("of-report").textContent = "The report is made and judged ..";
  try {
    const report = await reportOf(files, document.title), there = await saidIn(report, here);
    const other = here.findIndex((said, place) => said !== undefined && said !== there[place]);
    if (other >= 0) throw new Error(`it would say ${there[other]} of ${files[other].name}, and here that is ${here[other]}. Open the files anew`);
    const place = URL.createObjectURL(new File([report], "report.html", { type: "text/html" }));
    made("a", { href: place, download: "report.html" }).click();
    setTimeout(() => URL.revokeObjectURL(place), 60_000);
    const large = files.filter(({ file }) => file?.size > MOST_WHOLE).length;
    at("of-report").textContent = large ? `${large} of these files ${large === 1 ? "has" : "have"} more than ${mib(MOST_WHOLE)}: the report has only the verdict on it. postcopy-report puts in windows.` : "The report is saved.";
  } catch (error) {
    at("of-report").textContent = `There is no report: ${error.message.replace(/\.?\s*$/, "")}.`;
  }
}
