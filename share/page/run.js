"use strict";

// What the page holds of the run (share/page/record.py), and where to find it. An event has a number; START is the moment before the first one.

const opened = performance.now();
const run = JSON.parse(document.getElementById("run").textContent);
const lines = run.lines ? run.lines.split("\n") : [];
const count = run.boxes.length;
const START = -1;

// Of each event: the place of its line among `lines`, its stamp and kernel, the process that calls or -1, and its number among those of its kernel.
const placeOf = new Int32Array(count);
const stampOf = new Float64Array(count);
const kernelOf = new Uint8Array(count);
const processOf = new Int16Array(count);
const orderOf = new Int32Array(count);
const eventsAt = Array.from({ length: run.kernels }, () => []);
// Of each event the first packet that it sent, by the event that took it, and of each taking the next one of the same sender; -1 where there is none.
const firstTaken = new Int32Array(count).fill(-1);
const nextTaken = new Int32Array(count).fill(-1);
const restOf = new Map();

function readLines() {
  let number = 0;
  lines.forEach((line, place) => {
    if (line[0] === ".") return;
    readLine(line, number);
    placeOf[number] = place;
    number += 1;
  });
}

function readLine(line, number) {
  const stamp = line.indexOf(" ");
  const kernel = line.indexOf(" ", stamp + 1);
  const actor = line.indexOf(" ", kernel + 1);
  stampOf[number] = Number(line.slice(0, stamp));
  kernelOf[number] = Number(line.slice(stamp + 2, kernel));
  processOf[number] = line[kernel + 1] === "p" ? Number(line.slice(kernel + 2, actor)) : -1;
  const mine = eventsAt[kernelOf[number]];
  mine.push(number);
  orderOf[number] = mine.length;
}

function joinPackets() {
  for (let head = count - 1; head >= 0; head -= 1) {
    const tail = run.tails[head];
    if (tail < 0) continue;
    nextTaken[head] = firstTaken[tail];
    firstTaken[tail] = head;
  }
  for (const packet of run.rest) {
    restOf.set(packet.tail, [...(restOf.get(packet.tail) ?? []), packet]);
  }
}

readLines();
joinPackets();

// The number of the last item of an ascending list that is not above the value, and -1 where all are.
function lastUpTo(list, value) {
  let low = 0;
  let high = list.length;
  while (low < high) {
    const middle = (low + high) >> 1;
    if (list[middle] <= value) low = middle + 1;
    else high = middle;
  }
  return low - 1;
}

function lineOf(number) {
  return number === START ? run.first - 1 : run.first + placeOf[number];
}

// The event to which a line of the transcript belongs.
function eventOfLine(line) {
  return lastUpTo(placeOf, line - run.first);
}

// The lines of an event as they stand in the transcript.
function linesOf(number) {
  const end = number + 1 < count ? placeOf[number + 1] : lines.length;
  return lines.slice(placeOf[number], end);
}

// What the event is: the call, or the packet that is taken.
function whatOf(number) {
  const words = lines[placeOf[number]].split(" ");
  return words.slice(processOf[number] < 0 ? 4 : 3);
}

function senderOf(number) {
  return kernelOf[run.tails[number]];
}

function takenFrom(number) {
  const found = [];
  for (let head = firstTaken[number]; head >= 0; head = nextTaken[head]) found.push(head);
  return found;
}

// The event before this one at its kernel, and the next one; -1 where there is none.
function beforeAt(number) {
  return orderOf[number] > 1 ? eventsAt[kernelOf[number]][orderOf[number] - 2] : -1;
}

function behindAt(number) {
  return eventsAt[kernelOf[number]][orderOf[number]] ?? -1;
}

const LETTERS = { "&": "&amp;", "<": "&lt;", ">": "&gt;", '"': "&quot;" };

function safe(text) {
  return String(text).replace(/[&<>"]/g, (letter) => LETTERS[letter]);
}

function counted(number, one, many = `${one}s`) {
  return `${number.toLocaleString("en")} ${number === 1 ? one : many}`;
}
