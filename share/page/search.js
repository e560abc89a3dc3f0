// The search in the lines, of the events that are shown.

const searchField = document.getElementById("search");
const search = { matches: [] };

function find() {
  const wanted = searchField.value.trim().toLowerCase();
  const found = new Set();
  let number = -1;
  for (const line of wanted ? lines : []) {
    if (line[0] !== ".") number += 1;
    if (line.toLowerCase().includes(wanted) && isShown(number)) found.add(number);
  }
  search.matches = [...found];
  state.found = found;
  document.getElementById("matches").textContent = wanted ? matchWords() : "";
  drawPicture();
}

function matchWords() {
  const place = lastUpTo(search.matches, state.at);
  if (!search.matches.length) return "no match";
  const is = search.matches[place] === state.at ? `${place + 1} of ` : "";
  return is + counted(search.matches.length, "match", "matches");
}

// To the next match, or the one before, round the ends of the run.
function goToMatch(step) {
  const { matches } = search;
  if (!matches.length) return;
  const place = lastUpTo(matches, step > 0 ? state.at : state.at - 1);
  moveTo(matches[(place + (step > 0 ? 1 : 0) + matches.length) % matches.length]);
  document.getElementById("matches").textContent = matchWords();
}

searchField.addEventListener("input", find);
document.getElementById("search-form").addEventListener("submit", (submitted) => {
  submitted.preventDefault();
  goToMatch(1);
});
document.getElementById("search-back").addEventListener("click", () => goToMatch(-1));
