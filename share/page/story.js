// The story of one end, link, process or kernel: the events that it is about, and the picture of these alone.

const EVERY = Int32Array.from({ length: count }, (_, number) => number);
// What is picked, as { kind, name, of, ends }, or null; `shown` are the events of its story, or all.
const story = { picked: null, shown: EVERY };

function pickedBy(word) {
  const name = word.trim().toLowerCase().replace(/^(kernel|process|link|end) */, (kind) => (kind[0] === "k" || kind[0] === "p" ? kind[0] : ""));
  const number = Number(name.slice(1));
  if (/^k\d+$/.test(name) && number < run.kernels) return { kind: "kernel", name, of: number, ends: [] };
  if (/^p\d+$/.test(name) && number < run.homes.length) return { kind: "process", name, of: number, ends: [] };
  if (placeOfEnd.has(name)) return { kind: "end", name, of: placeOfEnd.get(name), ends: [name] };
  if (placeOfEnd.has(`${name}a`)) return { kind: "link", name, of: 0, ends: [`${name}a`, `${name}b`] };
  return null;
}

function storyOf(picked) {
  if (picked.kind === "kernel") return Int32Array.from(eventsAt[picked.of]);
  const found = new Set(picked.kind === "process" ? eventsNaming([picked.name], "") : eventsNaming(picked.ends, "+"));
  const ends = new Set(picked.ends.map((end) => placeOfEnd.get(end)));
  run.holds.at.forEach((at, turn) => {
    if (at >= 0 && (ends.has(run.holds.who[turn]) || run.holds.is[turn] === picked.name)) found.add(at);
  });
  return Int32Array.from(found).sort();
}

// The events of which a line has one of these names as a word, also behind such a sign or before a colon.
function eventsNaming(names, sign) {
  const form = new RegExp(`[ ${sign}](?:${names.map((name) => name.replace(".", "\\.")).join("|")})(?=[ :]|$)`);
  const found = [];
  let number = -1;
  for (const line of lines) {
    if (line[0] !== ".") number += 1;
    if (form.test(line) && found[found.length - 1] !== number) found.push(number);
  }
  return found;
}

// Shows the story of what the word names, or all where it names nothing. Answers whether the word could be read.
function pick(word) {
  const picked = word.trim() === "" || word.trim().toLowerCase() === "all" ? null : pickedBy(word);
  if (!picked && word.trim() !== "" && word.trim().toLowerCase() !== "all") return false;
  story.picked = picked;
  story.shown = picked ? storyOf(picked) : EVERY;
  return true;
}

// The event of the story that is nearest to a moment, not behind it where there is one before.
function nearestShown(moment) {
  return story.shown[Math.max(0, lastUpTo(story.shown, moment))] ?? START;
}

function isShown(number) {
  return story.picked === null || story.shown[lastUpTo(story.shown, number)] === number;
}

function storyWords() {
  return story.picked ? `The story of ${story.picked.kind} ${story.picked.name.replace(/^[kp]/, "")}` : "";
}
