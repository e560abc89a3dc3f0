// The moment and the story change together all that is shown; the address names both.

const storyField = document.getElementById("story");
const lineField = document.getElementById("line");
const slider = document.getElementById("slider");

function moveTo(number) {
  if (number !== START && !isShown(number)) pick("");
  state.at = number;
  refresh();
  say(momentSaid());
}

function refresh() {
  nameMoment();
  layOutFor(story.shown);
  bringInSight();
  drawPicture();
  keepFocus(tellMoment);
}

// What had the focus in the part that is told anew has it again, or the part itself.
function keepFocus(tell) {
  const had = document.activeElement;
  const part = had.closest("aside [id]");
  const mark = ["data-pick", "href", "id"].find((name) => had.hasAttribute(name));
  tell();
  if (!part || part === had || document.contains(had)) return;
  const again = mark && document.querySelector(`#${part.id} [${mark}="${had.getAttribute(mark)}"]`);
  (again ?? document.getElementById("moment")).focus({ preventScroll: true });
}

let laidOut = null;
function layOutFor(shown) {
  if (laidOut !== shown) layOutPicture();
  laidOut = shown;
}

function nameMoment() {
  const place = lastUpTo(story.shown, state.at);
  lineField.value = state.at === START ? run.first - 1 : lineOf(state.at);
  slider.max = story.shown.length;
  slider.value = place + 1;
  slider.setAttribute("aria-valuetext", state.at === START ? "the start" : `line ${lineOf(state.at)}`);
  const of = story.shown.length.toLocaleString("en");
  document.getElementById("progress").textContent = `event ${(place + 1).toLocaleString("en")} of ${of}${story.picked ? " in the story" : ""}`;
  storyField.value = story.picked ? story.picked.name : "";
  document.getElementById("story-end").hidden = story.picked === null;
  const address = `#at=${lineField.value}${story.picked ? `&of=${story.picked.name}` : ""}`;
  if (location.hash !== address) history.replaceState(null, "", address);
}

function bringInSight() {
  const head = heads.offsetHeight;
  const top = state.at === START ? 0 : topOf(state.at);
  const high = state.at === START ? 0 : heightOf(state.at);
  const { scrollTop, clientHeight } = scroller;
  if (top - 16 < scrollTop || top + high + head + 16 > scrollTop + clientHeight) scroller.scrollTop = Math.max(0, top - clientHeight / 3);
  bringAcross();
}

function bringAcross() {
  if (state.at === START) return;
  const x = leftOf(kernelOf[state.at]);
  const { scrollLeft, clientWidth } = scroller;
  if (x < scrollLeft || rightOf(kernelOf[state.at]) > scrollLeft + clientWidth) scroller.scrollLeft = Math.max(0, x - LEFT);
}

function showStory(word) {
  const isRead = pick(word);
  storyField.setAttribute("aria-invalid", String(!isRead));
  if (!isRead) {
    say(`nothing is named ${word}`);
    return;
  }
  if (state.at !== START && !isShown(state.at)) state.at = nearestShown(state.at);
  find();
  refresh();
  say(story.picked ? `${storyWords()}: ${counted(story.shown.length, "event")}` : "all events are shown");
}

// The moment and the story that the address names. A moment that is not of the story that was picked before shows all again.
function readAddress() {
  const named = new URLSearchParams(location.hash.slice(1));
  if (named.has("of")) pick(named.get("of"));
  if (named.has("at")) state.at = Math.min(count - 1, eventOfLine(Number(named.get("at")) || 0));
  if (state.at !== START && !isShown(state.at)) {
    if (named.has("of")) state.at = nearestShown(state.at);
    else pick("");
  }
  refresh();
  say(momentSaid());
}

function nameStories() {
  const names = [...eventsAt.map((_, kernel) => `k${kernel}`), ...run.homes.map((_, process) => `p${process}`), ...run.ends.slice(0, 500)];
  put("stories", names.map((name) => `<option value="${name}"></option>`).join(""));
}

function tellWrong() {
  const told = document.getElementById("wrong");
  told.hidden = !run.wrong.length;
  told.textContent = run.wrong.map(({ line, texts, why, sentence }) => `Wrong at line ${line}: ${why}. ${sentence} (${texts.join("; ")})`).join(" ")
    + (run.wrong.length ? " What stands before is shown." : "");
}

storyField.addEventListener("change", () => showStory(storyField.value));
document.getElementById("story-form").addEventListener("submit", (submitted) => {
  submitted.preventDefault();
  showStory(storyField.value);
});
document.getElementById("story-end").addEventListener("click", () => showStory(""));
lineField.addEventListener("change", () => moveTo(Math.min(count - 1, eventOfLine(Number(lineField.value)))));
slider.addEventListener("input", () => moveTo(stepped(Number(slider.value) - 1 - lastUpTo(story.shown, state.at))));
document.getElementById("finder").addEventListener("input", () => tellHolds(heldAt(state.at)));
scroller.addEventListener("scroll", follow, { passive: true });
window.addEventListener("resize", layOutPicture);
window.addEventListener("hashchange", readAddress);

nameStories();
tellWrong();
readAddress();
scroller.focus({ preventScroll: true });
document.documentElement.dataset.opened = Math.round(performance.now());
document.documentElement.dataset.worked = Math.round(performance.now() - opened);
