// Events in words, and why an end is held as it is.

function eventWords(number) {
  const kernel = kernelOf[number];
  const [what, ...steps] = run.boxes[number].split("\n");
  const told = processOf[number] < 0 ? `kernel ${kernel} takes ${what} from kernel ${senderOf(number)}` : `${what}, a call at kernel ${kernel}`;
  return [told, ...steps].join("; ");
}

// Why the end came to this holder in this event.
function reasonOf(name, holder, number) {
  if (number === START) return "from the start, by a wire";
  const words = whatOf(number);
  return processOf[number] < 0 ? reasonOfPacket(name, holder, words, number) : reasonOfCall(name, holder, words, `p${processOf[number]}`);
}

function reasonOfCall(name, holder, words, caller) {
  switch (words[0]) {
    case "make": return `${caller} made the link`;
    case "send": return `${caller} sent it away`;
    case "cancel": return `${caller} cancelled the message that had it`;
    case "exit": return `${caller} exited, which destroys its ends`;
    case "destroy": return words[1] === name ? `${caller} destroyed it` : `it was in a message of ${words[1]}, which ${caller} destroyed`;
    default: return `by a call of ${caller}`;
  }
}

function reasonOfPacket(name, holder, words, number) {
  const opposite = words[1].replace(/[ab]$/, (side) => (side === "a" ? "b" : "a"));
  if (words[0] === "parcel") return `${holder} took message ${words[2]} of ${opposite}, which carried it`;
  if (words[0] === "back" && holder === "destroyed") return `message ${words[2]} of ${words[1]} came back, and nobody was left to have it`;
  if (words[0] === "back") return `message ${words[2]} of ${words[1]}, which carried it, came back undelivered`;
  return `kernel ${kernelOf[number]} learnt that the link of the message that had it was destroyed`;
}

// What an event changed of who holds what.
function changesOf(number) {
  const from = lastUpTo(run.holds.at, number - 1) + 1;
  const end = lastUpTo(run.holds.at, number) + 1;
  const found = [];
  for (let turn = from; turn < end; turn += 1) found.push({ name: run.ends[run.holds.who[turn]], is: run.holds.is[turn] });
  return found;
}

function changeWords({ name, is }) {
  if (is === "dead") return `it is known at the kernel of ${name} that the opposite end was destroyed`;
  if (is === "destroyed") return `${name} is destroyed`;
  return isProcess(is) ? `${is} holds ${name}` : `${name} is ${holderWords(is)}, and nobody's`;
}
