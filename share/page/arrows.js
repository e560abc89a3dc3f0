// The arrows of packets: from the box of the event that sent one to that of the event that took it. Where one of the two is not shown, a short stroke
// and the line where it is.

const MANNERS = { s: "sent", f: "forwarded", r: "resent" };
const STUB = 22;
// Packets between two kernels are taken in the order in which they are sent: so of each pair tails and heads ascend both.
const pairs = pairsOfKernels();
// So many packets are drawn that only pass by, from rows above to rows below.
const MOST_PASSING = 40;

function pairsOfKernels() {
  const found = new Map();
  for (let head = 0; head < count; head += 1) {
    const tail = run.tails[head];
    if (tail < 0) continue;
    const pair = kernelOf[tail] * run.kernels + kernelOf[head];
    if (!found.has(pair)) found.set(pair, { heads: [], tails: [] });
    found.get(pair).heads.push(head);
    found.get(pair).tails.push(tail);
  }
  return [...found.values()];
}

// The packets, by their heads, of which an arrow meets the events from `first` to `last`.
function packetsBetween(first, last) {
  const found = [];
  let passing = 0;
  for (const { heads, tails } of pairs) {
    const end = lastUpTo(tails, last);
    for (let place = lastUpTo(heads, first - 1) + 1; place <= end; place += 1) {
      const isPassing = tails[place] < first && heads[place] > last;
      passing += isPassing;
      if (!isPassing || passing <= MOST_PASSING) found.push(heads[place]);
    }
  }
  return found;
}

function familyOf(text) {
  return run.families[text.split(" ", 1)[0]];
}

function arrowOf(head, place) {
  const tail = run.tails[head];
  const ends = [isShown(tail), isShown(head)];
  if (!ends[0] && !ends[1]) return "";
  const what = whatOf(head);
  const look = `packet ${MANNERS[run.manners[head]]} ${run.families[what[0]]}${litLook(tail, head)}`;
  const way = { from: kernelOf[tail], to: kernelOf[head], start: topOf(tail) + PAD + 9 + 4 * place, stop: topOf(head) + PAD + 4 };
  const told = `${what.join(" ")}\nfrom line ${lineOf(tail)}, kernel ${way.from}, to line ${lineOf(head)}, kernel ${way.to}`;
  const cargo = what.filter((word) => word[0] === "+").length;
  const stroke = ends[0] && ends[1] ? wayOf(way) : stubOf(way, ends[0]);
  const band = cargo ? `<path class="cargo${litLook(tail, head)}" d="${stroke}" stroke-width="${Math.min(5 + 3 * cargo, 20)}"/>` : "";
  const tip = ends[1] ? ` marker-end="url(#to-${run.families[what[0]]})"` : "";
  if (!ends[0] || !ends[1]) noteStub(way, ends[0], tail, head);
  return `${band}<path class="${look}" d="${stroke}"${tip}><title>${safe(told)}</title></path>`;
}

// An arrow is lit where it leads to the chosen event, or away from it.
function litLook(tail, head) {
  if (!state.isLit || state.at === START) return "";
  const leadsTo = head !== null && (head === state.at || isBefore(head, state.at));
  return leadsTo || tail === state.at || isBefore(state.at, tail) ? " shining" : " dim";
}

// From side to side between lanes; a kernel's packet to itself turns round at the right of its lane.
function wayOf({ from, to, start, stop }) {
  const y = [start, stop].map((at) => at - picture.from);
  if (from !== to) return from < to ? `M${rightOf(from)} ${y[0]} L${leftOf(to)} ${y[1]}` : `M${leftOf(from)} ${y[0]} L${rightOf(to)} ${y[1]}`;
  const right = rightOf(from);
  const bend = right + Math.min(18, layout.gutter / 2);
  return `M${right} ${y[0]} C${bend} ${y[0]} ${bend} ${y[0]} ${bend} ${y[0] + 8} V${y[1] - 8} C${bend} ${y[1]} ${bend} ${y[1]} ${right} ${y[1]}`;
}

// The side of the box at which the stroke stands: 1 is the right one.
function sideOf({ from, to }, isTailShown) {
  return from === to || (isTailShown ? from < to : from > to) ? 1 : -1;
}

function stubOf(way, isTailShown) {
  const side = sideOf(way, isTailShown);
  const kernel = isTailShown ? way.from : way.to;
  const x = side > 0 ? rightOf(kernel) : leftOf(kernel);
  const y = (isTailShown ? way.start : way.stop) - picture.from;
  return isTailShown ? `M${x} ${y} h${side * STUB}` : `M${x + side * STUB} ${y} H${x}`;
}

// The lines to which the strokes at one side of a box lead, in one text.
const stubs = new Map();

function noteStub(way, isTailShown, tail, head) {
  const [here, there] = isTailShown ? [tail, head] : [head, tail];
  const side = sideOf(way, isTailShown);
  const kernel = isTailShown ? way.from : way.to;
  const x = side > 0 ? rightOf(kernel) + STUB + 3 : leftOf(kernel) - STUB - 3;
  const key = `${here} ${side}`;
  if (!stubs.has(key)) stubs.set(key, { x, side, y: topOf(here) - picture.from + PAD + 10, lines: [] });
  stubs.get(key).lines.push(lineOf(there));
}

function stubNames() {
  const found = [...stubs.values()].map(({ x, y, side, lines }) => {
    const told = lines.length > 3 ? `${lines.slice(0, 3).join(", ")} ..` : lines.join(", ");
    return `<text class="label quiet" x="${x}" y="${y}" text-anchor="${side > 0 ? "start" : "end"}">${told}</text>`;
  });
  stubs.clear();
  return found.join("");
}

// The packets that nobody took go to the boxes below all rows.
function restArrow(packet, place) {
  const way = { from: packet.from, to: packet.to, start: topOf(packet.tail) + PAD + 9, stop: layout.body + 30 + Math.min(place, MOST_RESTS) * LINE };
  const family = familyOf(packet.text);
  const told = `${packet.text}\nfrom line ${lineOf(packet.tail)}, kernel ${packet.from}, to kernel ${packet.to}, which did not take it`;
  const look = `packet ${MANNERS[packet.manner]} ${family} untaken${litLook(packet.tail, null)}`;
  return `<path class="${look}" d="${wayOf(way)}" marker-end="url(#to-${family})"><title>${safe(told)}</title></path>`;
}
