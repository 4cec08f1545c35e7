// What the page tells of: what the report names, a page with a fault and then the next, or any page. It is a part of the script of
// page.js, and stands before it.
"use strict";

// What the words and the picture are about: the report, or the page of a number. `fault` is that from which one goes to the next.

let about;

// The pages that have a fault, each with the line and the reason of its first, as `audit --all` lists them.
const faultsIn = (bytes) =>
  [...new TextDecoder().decode(bytes).matchAll(/^page (\d+) line (\d+) (\S+)$/gm)].map(([, page, line, reason]) => ({ page: +page, line: +line, reason }));

// Which of the faults is that of the page, or that which the report names, where one is.
const faultOf = (page) => about.faults.find((it) => (page === undefined ? it.line === about.line : it.page === page));

// (the faults are counted as the list has them)
function nameTopic() {
  const { faults, page } = about, fault = faultOf(page), named = page === undefined ? "" : `page ${page}`;
  at("topic").textContent = fault && faults.length > 1 ? `fault ${sorted(faults).indexOf(fault) + 1} of ${faults.length}: page ${fault.page}` : named;
  at("page").value = page ?? "";
  showCurrentFault();
}

function showTopics(session, line, faults) {
  about = { session, line, faults };
  about.fault = faultOf();
  for (const it of ["previous-fault", "next-fault"]) at(it).hidden = faults.length < 2;
  at("about").hidden = false;
  nameTopic();
}

// Tells of a page, or of the report, in words and as a picture.
async function tellOf(page) {
  const mine = ++judging, current = () => mine === judging, { session } = about, fault = faultOf(page);
  about.fault = fault ?? about.fault;
  delete document.body.dataset.done;
  const asks = page === undefined ? ["explain", "draw"] : ["explain_page", "draw_page"];
  const { failure, texts } = await ask("answers", session.file, { asks, topic: page, say: sayingOf(session, "Finding out what happened", current) });
  if (failure && current()) at("topic").textContent = `It could not be told: ${failure.words}.`;
  const [told, drawn] = current() && !failure ? asks.map((it) => texts[it]) : [];
  const line = fault?.line ?? (page === undefined ? about.line : 0);
  if (drawn) await showTold(page, told, drawn, line);
  if (drawn) await showMore(session, page ?? fault?.page, line, fault?.reason, current);
  await judgeOthers(current);
  finish(current);
}

async function showTold(page, told, drawn, line) {
  about.page = page;
  nameTopic();
  showWords(new TextDecoder().decode(told));
  showPicture(new TextDecoder().decode(drawn));
  Object.assign(texts.find((it) => it.name === "Picture"), { file: pictureFile(drawn), index: undefined });
  await mark(0);
  await showText(line ? texts[0] : text, line || +at("line").value || 1);
}

// What was asked for last was stopped: the page goes on with what it shows.
function stayAtTopic() {
  about.fault = faultOf(about.page) ?? about.fault;
  nameTopic();
}

// Tells of the page with the next fault, or with the one before, among those that the list shows and in its order; the first comes after
// the last.
function goToFault(step) {
  const all = step < 0 ? sorted(about.faults).reverse() : sorted(about.faults), behind = all.indexOf(about.fault) + 1;
  const [next] = filtered([...all.slice(behind), ...all.slice(0, behind)]);
  if (next) tellOf(next.page);
}

