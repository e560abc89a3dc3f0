// The moment in words, beside the picture.

const MOST_ROWS = 60;

function put(id, markup) {
  document.getElementById(id).innerHTML = markup;
}

function tellMoment() {
  const held = heldAt(state.at);
  document.getElementById("moment-name").textContent = state.at === START
    ? "The start"
    : `Line ${lineOf(state.at)}, stamp ${stampOf[state.at]}, kernel ${kernelOf[state.at]}`;
  put("event", state.at === START ? startWords() : eventPart(state.at));
  tellStory();
  tellHolds(held);
  put("waits", waitRows(held));
}

function startWords() {
  const told = counted(run.homes.length, "process", "processes");
  const links = `${counted(run.wires.length, "link")} that exist${run.wires.length === 1 ? "s" : ""} from the start`;
  return `<p>Before all events: ${told} on ${counted(run.kernels, "kernel")}, and ${links}.</p>
    <p class="soft">Press <kbd>↓</kbd> or click an event to walk through the run; <kbd>?</kbd> tells all keys.</p>`;
}

function eventPart(number) {
  const changes = changesOf(number).map((change) => `<li>${withNames(changeWords(change))}</li>`);
  return `<pre>${safe(linesOf(number).join("\n"))}</pre>
    ${changes.length ? `<ul class="changes">${changes.join("")}</ul>` : ""}
    <ul class="ways">${causeRows(number)}${effectRows(number)}</ul>
    <p><button type="button" id="light" aria-pressed="${state.isLit}">Light causes and effects <kbd>Enter</kbd></button>
    ${state.isLit ? standingsPart(number) : ""}</p>`;
}

function standingsPart(number) {
  const { cause, effect, apart } = countStandings(number);
  return `<span class="standings"><span class="cause">↑ ${counted(cause, "cause")}</span> <span class="effect">↓ ${counted(effect, "effect")}</span>
    <span class="soft">${apart.toLocaleString("en")} neither</span></span>`;
}

function causeRows(number) {
  const before = beforeAt(number);
  const sent = run.tails[number];
  const rows = [];
  if (sent >= 0) rows.push(`<li>Its packet was sent in ${lineLink(sent)}: ${safe(run.boxes[sent].split("\n", 1)[0])} ${mannerWords(number)}</li>`);
  if (before >= 0) rows.push(`<li>Before it at kernel ${kernelOf[number]}: ${lineLink(before)}</li>`);
  return rows.join("");
}

function mannerWords(head) {
  return { f: "(forwarded)", r: "(sent again)" }[run.manners[head]] ?? "";
}

function effectRows(number) {
  const taken = takenFrom(number).map((head) => {
    const what = safe(run.boxes[head].split("\n", 1)[0]);
    return `<li>It sends ${what} to kernel ${kernelOf[head]}, taken in ${lineLink(head)}</li>`;
  });
  const rest = (restOf.get(number) ?? []).map((packet) => `<li>It sends ${safe(packet.short)} to kernel ${packet.to}, which nobody took</li>`);
  return taken.concat(rest).join("");
}

// ---- who holds each end

function tellHolds(held) {
  const wanted = document.getElementById("finder").value.trim().toLowerCase();
  const found = held.filter(({ name, is }) => !wanted || name.includes(wanted) || holderWords(is).includes(wanted));
  // of many, those that changed now come first
  if (found.length > MOST_ROWS) found.sort((one, other) => (other.since === state.at) - (one.since === state.at));
  const rows = found.slice(0, MOST_ROWS).map(holdRow);
  const names = ["End", "Held by", "Since, and why"].map((name) => `<th scope="col">${name}</th>`).join("");
  put("holds", `<thead><tr>${names}</tr></thead><tbody>${rows.join("")}</tbody>`);
  const more = document.getElementById("holds-more");
  more.hidden = found.length <= MOST_ROWS;
  more.textContent = `and ${(found.length - MOST_ROWS).toLocaleString("en")} more: name an end or a holder above to see them`;
}

function holdRow({ name, end, is, since, isDead }) {
  const dead = isDead ? ' <span class="bad">its opposite end was destroyed</span>' : "";
  const isNew = since === state.at && since !== START;
  return `<tr data-end="${name}" data-holder="${is}"${isDead ? " data-dead" : ""}${isNew ? ' class="new"' : ""}>
    <th scope="row">${pickButton(name)}</th><td>${holderPiece(is)}${dead}</td>
    <td>${isNew ? "now" : lineLink(since)}: <span class="soft">${safe(reasonOf(name, is, since))}</span></td></tr>`;
}

// ---- what processes wait for

function waitRows(held) {
  const doings = doingsAt(held, state.at);
  return run.homes.map((home, process) => {
    const words = waitsWords(process, doings[process], state.at);
    const since = sinceOf(process, state.at);
    const link = since === START || words.startsWith("runs") ? "" : ` <span class="soft">since ${since === state.at ? "now" : lineLink(since)}</span>`;
    return `<li data-process="${process}" class="${words.split(" ", 1)[0]}">${processChip(process)} ${withNames(words)}${link}</li>`;
  }).join("");
}

// ---- the story

function tellStory() {
  const part = document.getElementById("told-part");
  part.hidden = story.picked === null;
  if (part.hidden) return;
  document.getElementById("told-name").textContent = storyWords();
  const near = nearTo(story.picked).map((name) => pickButton(name)).join(", ");
  const many = `${counted(story.shown.length, "event")} of ${count.toLocaleString("en")}`;
  put("told", `<p class="soft">${many}; see too ${near}</p>${story.picked.ends.map(holdsStory).join("") || takesStory()}`);
}

// What else a story is near to: the link and the opposite of an end, the ends of a link, the kernel of a process, the processes of a kernel.
function nearTo({ kind, name, of, ends }) {
  if (kind === "end") return [name.slice(0, -1), name.slice(0, -1) + (name.endsWith("a") ? "b" : "a")];
  if (kind === "link") return ends;
  if (kind === "process") return [`k${run.homes[of]}`];
  return run.homes.map((home, process) => (home === of ? `p${process}` : "")).filter(Boolean);
}

// All holders of an end, those around the moment where they are many.
function holdsStory(name) {
  const { at, is } = holdsOf[placeOfEnd.get(name)];
  const now = lastUpTo(at, state.at);
  const from = Math.max(0, Math.min(now - MOST_ROWS / 2, at.length - MOST_ROWS));
  const rows = at.slice(from, from + MOST_ROWS).map((since, place) => storyRow(name, is[from + place], since, from + place === now));
  return `<h3>Who held ${name}</h3><ol start="${from + 1}">${rows.join("")}</ol>`;
}

function storyRow(name, holder, since, isNow) {
  const mark = isNow ? ' aria-current="true"' : "";
  return `<li${mark}>${lineLink(since)}: ${holderPiece(holder)} <span class="soft">${safe(reasonOf(name, holder, since))}</span></li>`;
}

// What came to the hands of a process.
function takesStory() {
  if (story.picked.kind !== "process") return "";
  const turns = [];
  run.holds.is.forEach((is, turn) => {
    if (is === story.picked.name) turns.push(turn);
  });
  const now = lastUpTo(turns.map((turn) => run.holds.at[turn]), state.at);
  const from = Math.max(0, Math.min(now - MOST_ROWS / 2, turns.length - MOST_ROWS));
  const rows = turns.slice(from, from + MOST_ROWS).map((turn) => {
    const [name, since] = [run.ends[run.holds.who[turn]], run.holds.at[turn]];
    return `<li>${lineLink(since)}: ${pickButton(name)} <span class="soft">${safe(reasonOf(name, story.picked.name, since))}</span></li>`;
  });
  return `<h3>What came to ${story.picked.name}</h3><ol start="${from + 1}">${rows.join("")}</ol>`;
}
