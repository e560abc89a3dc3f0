// The picture, of which only what is in sight is drawn, and a little above and below.

const scroller = document.getElementById("picture");
const room = document.getElementById("room");
const sheet = document.getElementById("sheet");
const heads = document.getElementById("heads");
// The heights between which the picture is drawn now, the ends that have columns there, and the names above.
const picture = { from: 0, to: 0, columns: [], heads: "" };
// The moment, and whether causes and effects are lit.
const state = { at: START, isLit: false, found: new Set() };

function layOutPicture() {
  layOut(scroller.clientWidth);
  room.style.width = `${layout.width}px`;
  room.style.height = `${layout.height}px`;
  drawPicture();
}

// Draws anew where what is in sight is not drawn yet.
function follow() {
  const { scrollTop, clientHeight } = scroller;
  if (scrollTop < picture.from || scrollTop + clientHeight > picture.to) drawPicture();
}

function drawPicture() {
  const { scrollTop, clientHeight } = scroller;
  picture.from = Math.max(0, scrollTop - clientHeight * 0.7);
  picture.to = Math.max(picture.from + 1, Math.min(layout.height, scrollTop + clientHeight * 1.7));
  const rows = { first: rowAt(picture.from), last: layout.rows ? rowAt(picture.to) : -1 };
  const events = shownIn(rows);
  picture.columns = columnsIn(events);
  const high = Math.max(1, layout.height > picture.to ? picture.to - picture.from : layout.height - picture.from);
  const look = state.isLit && state.at !== START ? ' class="lit"' : "";
  sheet.style.top = `${picture.from}px`;
  sheet.innerHTML = `<svg${look} width="${layout.width}" height="${high}" role="presentation"><g aria-hidden="true">${[
    stripes(rows), lifelines(high), columnParts(), packetParts(events), restBoxes(),
  ].join("")}</g>${boxes(events)}</svg>`;
  drawHeads();
  if (state.at !== START && document.getElementById(`e${state.at}`)) scroller.setAttribute("aria-activedescendant", `e${state.at}`);
  else scroller.removeAttribute("aria-activedescendant");
}

function shownIn(rows) {
  if (rows.last < rows.first || !layout.rows) return [];
  const end = rows.last + 1 < layout.rows ? layout.first[rows.last + 1] : story.shown.length;
  return Array.from(story.shown.subarray(layout.first[rows.first], end));
}

function stripes(rows) {
  const found = [];
  const current = state.at === START ? -1 : rowOf(state.at);
  for (let row = rows.first; layout.rows && row <= rows.last; row += 1) {
    const y = layout.top[row] - picture.from;
    const high = rowEnd(row) - layout.top[row];
    if (row % 2 === 0) found.push(`<rect class="stripe" x="0" y="${y}" width="${layout.width}" height="${high}"/>`);
    if (row === current) found.push(`<rect class="now" x="0" y="${y}" width="${layout.width}" height="${high}"/>`);
    found.push(`<text class="label quiet" x="${LEFT - 16}" y="${y + 21}" text-anchor="end">${stampOf[story.shown[layout.first[row]]]}</text>`);
  }
  return found.join("");
}

function lifelines(high) {
  return eventsAt.map((_, kernel) => `<path class="lifeline" d="M${leftOf(kernel) + wideOf(kernel) / 2} 0 V${high}"/>`).join("");
}

// ---- boxes

function boxes(events) {
  return events.map(boxOf).join("");
}

function boxOf(number, place) {
  const texts = textOf(number);
  const [x, y, wide] = [leftOf(kernelOf[number]), topOf(number) - picture.from, wideOf(kernelOf[number])];
  const high = texts.length * LINE + 2 * PAD;
  const frame = `x="${x}" y="${y}" width="${wide}" height="${high}" rx="4"`;
  const bar = processOf[number] < 0 ? "" : `<rect x="${x}" y="${y}" width="6" height="${high}" rx="2" fill="${run.fills[processOf[number]]}"/>`;
  const words = texts.map(({ text, look }, row) => {
    const place = `x="${x + 2 * PAD + 2}" y="${y + PAD + 10 + row * LINE}"`;
    return `<text class="${look}" ${place} xml:space="preserve">${safe(text)}</text>`;
  });
  const ring = number === state.at ? `<rect class="ring" x="${x - 3}" y="${y - 3}" width="${wide + 6}" height="${high + 6}" rx="6"/>` : "";
  const tip = `<title>${safe(linesOf(number).join("\n"))}</title>`;
  return `<g id="e${number}" ${marksOf(number)}>${tip}${ring}<rect class="box" ${frame}/>${bar}${words.join("")}${signOf(number, x + wide, y)}</g>`;
}

function marksOf(number) {
  const how = state.isLit && state.at !== START ? standing(number, state.at) : "";
  const isRefused = run.boxes[number].includes("\nrefuse ");
  const looks = { card: true, taking: processOf[number] < 0, refusal: isRefused, [how]: how !== "", found: state.found.has(number) };
  const kinds = Object.keys(looks).filter((look) => looks[look]).join(" ");
  const told = `line ${lineOf(number)}, stamp ${stampOf[number]}: ${eventWords(number)}${how && how !== "chosen" ? `; ${HOW[how]}` : ""}`;
  const place = `aria-setsize="${story.shown.length}" aria-posinset="${lastUpTo(story.shown, number) + 1}"`;
  const chosen = `aria-selected="${number === state.at}"`;
  return `class="${kinds}" role="option" ${chosen} ${place} aria-label="${safe(told)}" data-line="${lineOf(number)}"`;
}

const HOW = { cause: "a cause of the chosen event", effect: "an effect of the chosen event", apart: "neither cause nor effect" };

// What tells causes and effects apart where colours are not seen.
function signOf(number, right, y) {
  if (!state.isLit || state.at === START) return "";
  const how = standing(number, state.at);
  if (how !== "cause" && how !== "effect") return "";
  const sign = how === "cause" ? "↑" : "↓";
  return `<g class="sign ${how}"><circle cx="${right}" cy="${y}" r="7"/><text x="${right}" y="${y + 3.5}" text-anchor="middle">${sign}</text></g>`;
}

function packetParts(events) {
  if (!events.length) return "";
  const numbers = new Map();
  const arrows = packetsBetween(events[0], events[events.length - 1]).map((head) => {
    const tail = run.tails[head];
    const place = numbers.get(tail) ?? 0;
    numbers.set(tail, place + 1);
    return arrowOf(head, Math.min(place, 4));
  });
  return arrows.join("") + stubNames() + restArrows(events);
}

// The packets that nobody took, of events in sight, or all where the place below all rows is in sight.
function restArrows(events) {
  const isBottom = picture.to >= layout.body;
  const isSeen = ({ tail }) => isBottom || (tail >= events[0] && tail <= events[events.length - 1]);
  return eventsAt.map((_, kernel) => restsAt(kernel).map((packet, place) => (isSeen(packet) ? restArrow(packet, place) : ""))
    .filter(Boolean).slice(0, 4 * MOST_RESTS).join("")).join("");
}

function restBoxes() {
  if (picture.to < layout.body) return "";
  return eventsAt.map((_, kernel) => {
    const rests = restsAt(kernel).map((packet) => packet.short);
    const words = rests.length > MOST_RESTS + 1 ? [...rests.slice(0, MOST_RESTS), `and ${rests.length - MOST_RESTS} more`] : rests;
    return words.length ? restBox(kernel, words) : "";
  }).join("");
}

function restBox(kernel, words) {
  const [x, y] = [leftOf(kernel), layout.body + 22 - picture.from];
  const texts = words.map((word, row) => {
    const [text] = wrapped(word, layout.letters);
    return `<text class="step" x="${x + 12}" y="${y + PAD + 10 + row * LINE}">${safe(text)}</text>`;
  });
  const high = words.length * LINE + 2 * PAD;
  return `<g class="card rest"><rect class="box" x="${x}" y="${y}" width="${wideOf(kernel)}" height="${high}" rx="4"/>${texts.join("")}
    <text class="label quiet" x="${x}" y="${y - 4}">${run.wrong.length ? "under way" : "not taken"}</text></g>`;
}

// ---- columns of ends

// The ends of what is picked; else those that move at all; else, where these are many, those that change hands in sight.
function columnsIn(events) {
  if (story.picked && story.picked.ends.length) return story.picked.ends.map((name) => placeOfEnd.get(name));
  if (moving.size <= MOST_COLUMNS || !events.length) return [...moving].sort(byName).slice(0, MOST_COLUMNS);
  const [first, last] = [events[0], events[events.length - 1]];
  const found = new Set(picture.columns.filter((end) => changesIn(end, first, last)));
  const end = lastUpTo(run.holds.at, last);
  for (let turn = lastUpTo(run.holds.at, first - 1) + 1; turn <= end && found.size < MOST_COLUMNS; turn += 1) {
    if (moving.has(run.holds.who[turn])) found.add(run.holds.who[turn]);
  }
  return [...found].sort(byName);
}

function changesIn(end, first, last) {
  const { at } = holdsOf[end];
  return lastUpTo(at, last) > lastUpTo(at, first - 1);
}

function byName(one, other) {
  return one - other;
}

function columnAt(place) {
  return layout.right + place * (isSlim() ? SLIM_COLUMN : WIDE_COLUMN);
}

function columnParts() {
  return picture.columns.map((end, place) => {
    const x = columnAt(place);
    return holdsIn(end).map((hold) => holdPart(end, hold, x)).join("") + deadEdge(end, x);
  }).join("");
}

// How an end is held in what is drawn: from which height on, and up to which.
function holdsIn(end) {
  const { at, is } = holdsOf[end];
  const found = [];
  at.forEach((since, turn) => {
    const top = heightIn(since);
    const bottom = turn + 1 < at.length ? heightIn(at[turn + 1]) : layout.body;
    if (bottom > picture.from && top < picture.to && bottom > top) found.push({ is: is[turn], since, top, bottom });
  });
  return found;
}

// The height of the row of an event, which may not be shown.
function heightIn(number) {
  if (number === START) return 0;
  const place = lastUpTo(story.shown, number);
  if (place < 0) return 0;
  return story.shown[place] === number ? layout.top[rowOf(number)] : rowEnd(rowOf(number));
}

function holdPart(end, { is, since, top, bottom }, x) {
  const width = (isSlim() ? SLIM_COLUMN : WIDE_COLUMN) - 3;
  const y = Math.max(top, picture.from - 20) - picture.from;
  const high = Math.min(bottom, picture.to + 20) - picture.from - y - 1;
  const label = isProcess(is) ? is : `in ${is}`;
  const told = `<title>${run.ends[end]}: ${holderWords(is)}, since ${since === START ? "the start" : `line ${lineOf(since)}`}</title>`;
  if (is === "destroyed") return `<path class="cross" d="M${x + width / 2 - 4} ${y + 10} l8 8 m0 -8 l-8 8">${told}</path>`;
  const fill = isProcess(is) ? run.fills[Number(is.slice(1))] : "url(#enclosed)";
  const look = isProcess(is) ? ` class="label on" style="${run.inks[Number(is.slice(1))]}"` : ' class="label on inside"';
  const frame = `x="${x}" y="${y + 1}" width="${width}" height="${Math.max(1, high)}" fill="${fill}"`;
  const box = `<rect class="hold pick" ${frame} data-pick="${run.ends[end]}">${told}</rect>`;
  return box + labelIn(label, x, y, width, high, look);
}

function labelIn(label, x, y, width, high, look) {
  const most = Math.floor(width / 5.9);
  const short = label.length > most ? `${label.slice(0, most - 1)}…` : label;
  if (!isSlim()) return high > 16 ? `<text${look} x="${x + width / 2}" y="${y + 13}" text-anchor="middle">${short}</text>` : "";
  const long = label.length * 5.8 + 6;
  if (high < long) return "";
  return `<text${look} x="${x + width / 2 + 3.5}" y="${y + long - 1}" transform="rotate(-90 ${x + width / 2 + 3.5} ${y + long - 1})">${label}</text>`;
}

function deadEdge(end, x) {
  if (!deathOf.has(end)) return "";
  const { at, is } = holdsOf[end];
  const top = heightIn(deathOf.get(end));
  const bottom = is[is.length - 1] === "destroyed" ? heightIn(at[at.length - 1]) : layout.body;
  const [from, to] = [Math.max(top, picture.from), Math.min(bottom, picture.to)];
  const width = (isSlim() ? SLIM_COLUMN : WIDE_COLUMN) - 3;
  return from < to ? `<rect class="dead" x="${x + width - 6}" y="${from - picture.from + 1}" width="6" height="${to - from - 1}" fill="url(#dead)"/>` : "";
}

// ---- the names above

function drawHeads() {
  const chips = eventsAt.map((_, kernel) => chipsOf(kernel));
  const high = 26 + 21 * Math.max(1, ...chips.map((mine) => mine.rows));
  const names = chips.map(({ parts }, kernel) => {
    const name = wideOf(kernel) > EMPTY_LANE ? `kernel ${kernel}` : `k${kernel}`;
    const text = `<text class="sans head" x="${leftOf(kernel)}" y="15">${name}</text>`;
    return headPart(`k${kernel}`, `kernel ${kernel}`, text) + parts.join("");
  });
  const ends = picture.columns.map((end, place) => headColumn(run.ends[end], columnAt(place), high));
  const stamp = `<text class="sans quiet" x="${LEFT - 16}" y="15" text-anchor="end">stamp</text>`;
  const markup = `<svg width="${layout.width}" height="${high}" role="presentation" aria-hidden="true">${stamp}${names.join("")}${ends.join("")}</svg>`;
  if (picture.heads !== markup) heads.innerHTML = markup;
  picture.heads = markup;
}

// What is above, and shows a story when it is clicked.
function headPart(name, told, parts) {
  return `<g class="pick" data-pick="${name}"><title>the story of ${told}</title>${parts}</g>`;
}

// The processes at a kernel, side by side and below each other as its lane has room.
function chipsOf(kernel) {
  const most = Math.max(1, Math.floor(wideOf(kernel) / 30));
  const mine = run.homes.map((home, process) => (home === kernel ? process : -1)).filter((process) => process >= 0);
  const parts = mine.map((process, place) => headChip(process, leftOf(kernel) + (place % most) * 30, 22 + 21 * Math.floor(place / most)));
  return { rows: Math.ceil(mine.length / most), parts };
}

function headChip(process, x, y) {
  const look = `style="${run.inks[process]}"`;
  return headPart(`p${process}`, `process ${process}`, `<rect x="${x}" y="${y}" width="26" height="17" rx="8" fill="${run.fills[process]}"/>
    <text class="label on" ${look} x="${x + 13}" y="${y + 12}" text-anchor="middle">p${process}</text>`);
}

function headColumn(name, x, high) {
  const middle = x + (isSlim() ? SLIM_COLUMN : WIDE_COLUMN) / 2 - 1.5;
  const turn = isSlim() ? ` transform="rotate(-90 ${middle + 3} ${high - 4})"` : "";
  const anchor = isSlim() ? "start" : "middle";
  const place = `x="${isSlim() ? middle + 3 : middle}" y="${high - 4}" text-anchor="${anchor}"${turn}`;
  return headPart(name, `end ${name}`, `<text class="label" ${place}>${name}</text>`);
}
