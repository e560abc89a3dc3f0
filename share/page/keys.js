// What keys and the mouse do.

const PAGE = 20;

// The event so many further in the story; START before the first one.
function stepped(steps) {
  const place = Math.max(-1, Math.min(story.shown.length - 1, lastUpTo(story.shown, state.at) + steps));
  return place < 0 ? START : story.shown[place];
}

function causeOf(number) {
  if (number === START) return START;
  return run.tails[number] >= 0 ? run.tails[number] : Math.max(START, beforeAt(number));
}

function effectOf(number) {
  if (number === START) return count ? 0 : START;
  const [taken] = takenFrom(number);
  const behind = taken ?? behindAt(number);
  return behind < 0 ? number : behind;
}

const MOVES = {
  ArrowDown: () => stepped(1), j: () => stepped(1), ArrowUp: () => stepped(-1), k: () => stepped(-1),
  PageDown: () => stepped(PAGE), PageUp: () => stepped(-PAGE), Home: () => START, End: () => stepped(count),
  ArrowLeft: () => causeOf(state.at), ArrowRight: () => effectOf(state.at),
};

const ACTS = {
  Enter: light, "/": () => focusOn("search"), s: () => focusOn("story"), g: () => focusOn("line"), m: () => focusOn("moment"), p: () => focusOn("picture"),
  n: () => goToMatch(1), N: () => goToMatch(-1), "?": openHelp, Escape: clear,
};

function focusOn(id) {
  const field = document.getElementById(id);
  field.focus();
  if (field.select) field.select();
}

function openHelp() {
  document.getElementById("help").showModal();
}

function light() {
  state.isLit = !state.isLit && state.at !== START;
  refresh();
  if (state.isLit) {
    const { cause, effect } = countStandings(state.at);
    say(`${counted(cause, "cause")} and ${counted(effect, "effect")} are lit`);
  }
}

function clear() {
  if (state.isLit) light();
  else if (story.picked) showStory("");
}

// Letters and arrows belong to a field that has the focus; arrows and Enter to whatever has it beside the picture.
function onKey(pressed) {
  const target = pressed.target;
  if (pressed.ctrlKey || pressed.metaKey || pressed.altKey || document.getElementById("help").open) return;
  if (target.matches("input")) {
    if (pressed.key === "Escape") scroller.focus();
    return;
  }
  const isFree = target === document.body || target === scroller;
  const move = MOVES[pressed.key];
  const act = ACTS[pressed.key];
  if (!(isFree || (pressed.key.length === 1 || pressed.key === "Escape"))) return;
  if (!move && !act) return;
  pressed.preventDefault();
  if (move) moveTo(move());
  else act();
}

function onClick(clicked) {
  const pickable = clicked.target.closest("[data-pick]");
  if (pickable) {
    showStory(pickable.dataset.pick);
    return;
  }
  if (clicked.target.closest("#light")) light();
  if (clicked.target.closest(".skip")) {
    clicked.preventDefault();
    focusOn("moment");
  }
  const box = clicked.target.closest("#sheet g.card[data-line]");
  if (box) lightAt(eventOfLine(Number(box.dataset.line)));
}

function lightAt(number) {
  state.isLit = !(state.isLit && state.at === number);
  moveTo(number);
}

document.addEventListener("keydown", onKey);
document.addEventListener("click", onClick);
for (const [id, move] of Object.entries({ first: "Home", back: "ArrowUp", next: "ArrowDown", last: "End" })) {
  document.getElementById(id).addEventListener("click", () => moveTo(MOVES[move]()));
}
document.getElementById("help-open").addEventListener("click", openHelp);
