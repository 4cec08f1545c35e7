// What the worker of the page finds in the records of sessions, in node: each line of the input is a session's file, the order that
// is asked for besides the found one, as JSON, and pages; each line of the output is what was found.
"use strict";
const fs = require("fs");
const { Records } = require("../bindings/web/records.js");

for (const line of fs.readFileSync(0, "utf8").split("\n")) {
  if (!line) continue;
  const { file, delayed, pages } = JSON.parse(line), bytes = new Uint8Array(fs.readFileSync(file)), records = new Records(() => bytes);
  const ids = Array.from({ length: records.count }, (_, id) => id), id = delayed.page === undefined ? records.atLine(delayed.line ?? 0) : records.placementOf(delayed.page);
  const order = records.foundOrder(), other = records.foundOrder(id), lines = (all) => Array.from(all, (it) => records.lineOf(it));
  const vcpus = Array.from({ length: 4 }, (_, vcpu) => records.ofVcpu(vcpu).count);
  const lives = Object.fromEntries(pages.map((page) => [page, [records.life(page, order), records.life(page, other)]]));
  console.log(JSON.stringify({ around: records.aroundLines(lines(ids)), found: lines(order), delayed: lines(other), vcpus, lives }));
}
