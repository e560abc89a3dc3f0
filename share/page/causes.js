// What happened before an event, and what behind it: by the order of events at a kernel, and by packets from the event that sent them to the one that took
// them. `clocks` has of each event how many events of each kernel are among its causes, itself included.

const clocks = new Int32Array(count * run.kernels);

function fillClocks() {
  for (let number = 0; number < count; number += 1) {
    joinClock(number, beforeAt(number));
    joinClock(number, run.tails[number]);
    clocks[number * run.kernels + kernelOf[number]] = orderOf[number];
  }
}

function joinClock(number, cause) {
  if (cause < 0) return;
  const [at, from] = [number * run.kernels, cause * run.kernels];
  for (let kernel = 0; kernel < run.kernels; kernel += 1) {
    if (clocks[from + kernel] > clocks[at + kernel]) clocks[at + kernel] = clocks[from + kernel];
  }
}

fillClocks();

function isBefore(cause, effect) {
  return cause !== effect && clocks[effect * run.kernels + kernelOf[cause]] >= orderOf[cause];
}

// How an event stands to the one that is chosen.
function standing(number, chosen) {
  if (number === chosen) return "chosen";
  if (isBefore(number, chosen)) return "cause";
  return isBefore(chosen, number) ? "effect" : "apart";
}

function countStandings(chosen) {
  const found = { cause: 0, effect: 0, apart: 0, chosen: 0 };
  for (let number = 0; number < count; number += 1) found[standing(number, chosen)] += 1;
  return found;
}
