// Pieces of HTML in which the moment is told: names that show a story when they are pressed, and lines that lead there.

function lineLink(number, words = `line ${lineOf(number)}`) {
  return number === START ? '<a href="#at=1">the start</a>' : `<a href="#at=${lineOf(number)}">${words}</a>`;
}

function pickButton(name, words = name) {
  return `<button type="button" class="name" data-pick="${safe(name)}" title="the story of ${safe(name)}">${words}</button>`;
}

function processChip(process) {
  const name = `p${process}`;
  const chip = `<svg class="chip" width="30" height="18" aria-hidden="true"><rect width="30" height="18" rx="9" fill="${run.fills[process]}"/>
    <text class="label on" x="15" y="12.5" text-anchor="middle" style="${run.inks[process]}">${name}</text></svg><span class="unseen">${name}</span>`;
  return pickButton(name, chip);
}

function holderPiece(holder) {
  if (isProcess(holder)) return processChip(Number(holder.slice(1)));
  if (holder === "destroyed") return "destroyed";
  const [end, number] = holder.split(" ");
  return `<span class="inside">in message ${number} of ${pickButton(end)}</span>`;
}

// The names of ends in a text, as buttons.
function withNames(text) {
  return safe(text).replace(/\b\d+\.\d+[ab]\b/g, (name) => (placeOfEnd.has(name) ? pickButton(name) : name));
}

function say(text) {
  document.getElementById("said").textContent = text;
}

// What is said when the moment changes. The box of the event tells itself where the picture has the focus.
function momentSaid() {
  if (state.at === START) return "The start, before all events";
  const changes = changesOf(state.at).map(changeWords).join("; ");
  const told = document.activeElement === scroller ? "" : `line ${lineOf(state.at)}: ${eventWords(state.at)}. `;
  return told + changes;
}
