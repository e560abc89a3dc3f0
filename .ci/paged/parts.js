// Runs the parts of the page that look things up, without a browser: node parts.js FOLDER RECORD.. prints of each record who holds each end at each
// moment, what each process waits for in words, and the causes of each event; the events of each story; and whether the lines of boxes are counted as they
// are made.
"use strict";
const { readFileSync } = require("fs");
const vm = require("vm");

const PARTS = ["run", "moment", "causes", "reasons", "story", "layout"];
const ASKED = `(() => {
  const found = [];
  for (let at = START; at < count; at += 1) {
    const held = heldAt(at);
    const doings = doingsAt(held, at);
    const causes = [];
    for (let other = 0; at !== START && other < count; other += 1) if (isBefore(other, at)) causes.push(other);
    found.push({ held: held.map(({ name, is, isDead, since }) => [name, is, isDead, reasonOf(name, is, since)]), causes,
      waits: run.homes.map((_, process) => waitsWords(process, doings[process], at)), told: at === START ? "" : eventWords(at) });
  }
  const stories = Object.fromEntries([...eventsAt.map((_, kernel) => "k" + kernel), ...run.homes.map((_, process) => "p" + process), ...run.ends]
    .map((name) => [name, Array.from(storyOf(pickedBy(name)))]));
  const parts = run.boxes.join("\\n").split("\\n").filter(Boolean);
  const isCounted = (most) => parts.every((part) => wrapped(part, most).length === countWrapped(part, 0, part.length, most));
  return JSON.stringify({ moments: found, stories, isCounted: [15, 18, 27, 44].every(isCounted) });
})()`;

const [folder, ...records] = process.argv.slice(2);
const code = PARTS.map((part) => readFileSync(`${folder}/${part}.js`, "utf8")).join("\n");
for (const record of records) {
  const textContent = readFileSync(record, "utf8");
  const context = vm.createContext({ document: { getElementById: () => ({ textContent }) }, performance });
  console.log(vm.runInContext(`${code}\n${ASKED}`, context));
}
