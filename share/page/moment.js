// Who holds each end at a moment, and what each process waits for: what changed last up to then.

// The changes of each end or process, in the order of their events.
function seriesOf(turns, many) {
  const series = Array.from({ length: many }, () => null);
  turns.at.forEach((at, turn) => {
    const who = turns.who[turn];
    series[who] ??= { at: [], is: [] };
    series[who].at.push(at);
    series[who].is.push(turns.is[turn]);
  });
  return series;
}

function withoutDeaths(holds) {
  const kept = { at: [], who: [], is: [] };
  holds.is.forEach((is, turn) => {
    if (is === "dead") return;
    for (const name of ["at", "who", "is"]) kept[name].push(holds[name][turn]);
  });
  return kept;
}

const holdsOf = seriesOf(withoutDeaths(run.holds), run.ends.length);
const doingsOf = seriesOf(run.doings, run.ends.length);
const phasesOf = seriesOf(run.phases, run.homes.length);
const placeOfEnd = new Map(run.ends.map((name, place) => [name, place]));
// The event in which the kernel of an end learnt that the opposite end was destroyed.
const deathOf = new Map();
run.holds.is.forEach((is, turn) => {
  if (is === "dead") deathOf.set(run.holds.who[turn], run.holds.at[turn]);
});

function isAt(series, moment) {
  const place = series ? lastUpTo(series.at, moment) : -1;
  return place < 0 ? null : { is: series.is[place], since: series.at[place] };
}

// All ends that exist at a moment and are not destroyed before it.
function heldAt(moment) {
  const found = [];
  run.ends.forEach((name, end) => {
    const hold = isAt(holdsOf[end], moment);
    if (hold && (hold.is !== "destroyed" || hold.since === moment)) found.push({ name, end, ...hold, isDead: isDeadAt(end, moment) });
  });
  return found;
}

function isDeadAt(end, moment) {
  return deathOf.has(end) && deathOf.get(end) <= moment;
}

function isProcess(holder) {
  return holder[0] === "p" && !holder.includes(" ");
}

function holderWords(holder) {
  if (isProcess(holder)) return holder;
  if (holder === "destroyed") return "destroyed";
  const [end, number] = holder.split(" ");
  return `in message ${number} of ${end}`;
}

// ---- what processes wait for

const DOINGS = {
  w: (end, number) => `its message ${number} on ${end} waits until a receive asks for it`,
  m: (end, number) => `its message ${number} on ${end} is under way to the receive that asked for it`,
  p: (end) => `its receive on ${end} waits for a message`,
  x: (end) => `its receive on ${end} is being cancelled`,
  o: (end, number) => `its message ${number} on ${end} has a report`,
  i: (end) => `its receive on ${end} has a report`,
};

const WAITED = {
  w: (end, number) => `until a receive asks for message ${number} on ${end}, and takes it`,
  m: (end, number) => `until message ${number} on ${end}, which is under way, is taken`,
  p: (end) => `for a message on ${end}`,
  x: (end) => `for the answer to its cancel of the receive on ${end}`,
};

// What is under way on the ends of each process, as pairs of an end and a state.
function doingsAt(held, moment) {
  const found = run.homes.map(() => []);
  for (const { name, end, is } of held) {
    if (!isProcess(is)) continue;
    const doing = isAt(doingsOf[end], moment);
    for (const state of doing && doing.is ? doing.is.split(" ") : []) found[Number(is.slice(1))].push({ end: name, state });
  }
  return found;
}

function told(words, doings) {
  return doings.filter(({ state }) => state[0] in words).map(({ end, state }) => words[state[0]](end, state.slice(1)));
}

function waitsWords(process, doings, moment) {
  const turn = isAt(phasesOf[process], moment);
  const phase = turn ? turn.is[0] : "r";
  const reports = turn ? Number(turn.is.slice(1)) : 0;
  if (phase === "x") return "has exited";
  if (phase === "c") return `waits ${joined(told({ x: WAITED.x }, doings))}`;
  if (phase === "w") return `waits ${joined(told(WAITED, doings), " or ")}`;
  const ready = reports ? [`${counted(reports, "report")} ${reports === 1 ? "is" : "are"} ready for its next wait`] : [];
  return ["runs, and waits for nothing", ...ready, ...told(DOINGS, doings.filter(({ state }) => !"oi".includes(state[0])))].join("; ");
}

function joined(parts, between = ", and ") {
  return parts.join(between);
}

function sinceOf(process, moment) {
  const turn = isAt(phasesOf[process], moment);
  return turn ? turn.since : START;
}
