// Where everything stands in the picture: lanes side by side, a row for each stamp, columns of ends at the right. Measures are in points.

const LINE = 14;
const PAD = 5;
const GAP = 12;
const LETTER = 6.7;
const LEFT = 62;
const FEWEST_LETTERS = 15;
const MOST_LETTERS = 44;
const MOST_COLUMNS = run.kernels > 4 ? 8 : 12;
const WIDE_COLUMN = 66;
const SLIM_COLUMN = 19;
const MOST_RESTS = 12;
// A kernel that has no part in the story has a lane of this width.
const EMPTY_LANE = 44;
const EMPTY_GUTTER = 12;
// No browser shows what is much higher. Where a picture would be, its boxes have two lines at most.
const MOST_HIGH = 15_000_000;
const layout = { letters: 0, lines: Infinity, gutter: 0, lanes: [], right: 0, width: 0, rows: 0, height: 0, body: 0, first: [], top: [] };
// The ends that ever go into a message.
const moving = new Set();
run.holds.is.forEach((is, turn) => {
  if (is.includes(" ")) moving.add(run.holds.who[turn]);
});

// A text in lines of at most so many letters, all but the first set in by two blanks; a word that is too long is cut.
function wrapped(text, most) {
  const found = [];
  for (const whole of text.split(" ")) {
    const room = found.length ? most - 2 : most;
    const word = whole.length > room ? `${whole.slice(0, room - 1)}…` : whole;
    const last = found.length - 1;
    if (last >= 0 && found[last].length + 1 + word.length <= most) found[last] += ` ${word}`;
    else found.push(last >= 0 ? `  ${word}` : word);
  }
  return found;
}

// How many lines these are, for the part of the text from one place to another.
function countWrapped(text, start, stop, most) {
  let found = 0;
  let length = 0;
  for (let from = start, end = start; end < stop; from = end + 1) {
    end = text.indexOf(" ", from);
    if (end < 0 || end > stop) end = stop;
    const wide = Math.min(end - from, found ? most - 2 : most);
    if (found && length + 1 + wide <= most) {
      length += 1 + wide;
    } else {
      length = found ? wide + 2 : wide;
      found += 1;
    }
  }
  return found;
}

function textOf(number) {
  const found = [];
  run.boxes[number].split("\n").forEach((part, place) => {
    const look = place === 0 ? "" : part.startsWith("refuse ") ? "step wrongly" : "step";
    for (const text of wrapped(part, layout.letters)) found.push({ text, look });
  });
  return found.slice(0, layout.lines);
}

function heightOf(number) {
  const box = run.boxes[number];
  let texts = 0;
  for (let from = 0, end = 0; end >= 0; from = end + 1) {
    end = box.indexOf("\n", from);
    const part = end < 0 ? box.length : end;
    texts += part - from <= layout.letters ? 1 : countWrapped(box, from, part, layout.letters);
  }
  return Math.min(texts, layout.lines) * LINE + 2 * PAD;
}

function layOut(width) {
  placeLanes(width);
  layout.lines = Infinity;
  placeRows();
  if (layout.height <= MOST_HIGH) return;
  layout.lines = 2;
  placeRows();
}

function longestText() {
  let longest = 8;
  for (const number of story.shown) {
    if (longest >= MOST_LETTERS) break;
    if (run.boxes[number].length <= longest) continue;
    for (const part of run.boxes[number].split("\n")) longest = Math.max(longest, part.length);
  }
  return longest;
}

function placeLanes(width) {
  const busy = busyKernels();
  const columns = columnsWide();
  layout.gutter = run.kernels > 4 ? 30 : width < 900 ? 34 : 60;
  const free = width - LEFT - columns - (run.kernels - busy.size) * (EMPTY_LANE + EMPTY_GUTTER);
  const letters = Math.floor((free / Math.max(1, busy.size) - layout.gutter - 4 * PAD) / LETTER);
  layout.letters = Math.min(longestText(), Math.max(FEWEST_LETTERS, Math.min(MOST_LETTERS, letters)));
  const wide = Math.round(layout.letters * LETTER + 4 * PAD);
  layout.right = LEFT;
  layout.lanes = eventsAt.map((_, kernel) => {
    const lane = { x: layout.right, width: busy.has(kernel) ? wide : EMPTY_LANE };
    layout.right += busy.has(kernel) ? wide + layout.gutter : EMPTY_LANE + EMPTY_GUTTER;
    return lane;
  });
  layout.width = Math.max(width, layout.right + columns);
}

// The kernels that have a part in the story; all, where nothing is picked.
function busyKernels() {
  if (!story.picked) return new Set(eventsAt.keys());
  const busy = new Set();
  for (const number of story.shown) busy.add(kernelOf[number]);
  for (const packet of run.rest) if (isShown(packet.tail)) busy.add(packet.to);
  return busy;
}

// How many columns there are, and whether they are slim.
function columnsMost() {
  const ends = story.picked && story.picked.ends.length ? story.picked.ends.length : moving.size;
  return Math.min(ends, MOST_COLUMNS);
}

function isSlim() {
  return columnsMost() > 4;
}

function columnsWide() {
  const most = columnsMost();
  return most ? most * (isSlim() ? SLIM_COLUMN : WIDE_COLUMN) + 20 : 0;
}

function placeRows() {
  const { shown } = story;
  const first = [];
  const top = [];
  let y = 8;
  for (let place = 0; place < shown.length; ) {
    const stamp = stampOf[shown[place]];
    let high = 0;
    first.push(place);
    top.push(y);
    for (; place < shown.length && stampOf[shown[place]] === stamp; place += 1) high = Math.max(high, heightOf(shown[place]));
    y += high + GAP;
  }
  Object.assign(layout, { first, top, rows: first.length, body: y, height: y + restHeight() + 12 });
}

// The packets that nobody took stand below all rows, in the lane of the kernel that they were sent to.
function restsAt(kernel) {
  return run.rest.filter((packet) => packet.to === kernel && isShown(packet.tail));
}

function restHeight() {
  const most = Math.max(0, ...eventsAt.map((_, kernel) => Math.min(restsAt(kernel).length, MOST_RESTS + 1)));
  return most ? most * LINE + 2 * PAD + 30 : 0;
}

function leftOf(kernel) {
  return layout.lanes[kernel].x;
}

function wideOf(kernel) {
  return layout.lanes[kernel].width;
}

function rightOf(kernel) {
  return leftOf(kernel) + wideOf(kernel);
}

function rowOf(number) {
  return lastUpTo(layout.first, lastUpTo(story.shown, number));
}

// Where the box of a shown event begins; of an event that is not shown, the row behind which it would stand.
function topOf(number) {
  const row = number === START ? -1 : rowOf(number);
  return row < 0 ? 0 : layout.top[row] + GAP / 2;
}

function rowAt(y) {
  return Math.max(0, lastUpTo(layout.top, y));
}

function rowEnd(row) {
  return row + 1 < layout.rows ? layout.top[row + 1] : layout.body;
}
