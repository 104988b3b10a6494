// What is shown beside the drawing: the packet of an operation, and the words of the granule along the order found.

// A table with these heads and rows; a cell is a text, or an element.
function makeTable(heads, rows) {
  const table = element("table");
  const head = element("tr");
  for (const text of heads) head.append(element("th", "", text));
  table.append(head);
  for (const row of rows) {
    const line = element("tr");
    for (const cell of row) {
      const made = element("td");
      made.append(cell);
      line.append(made);
    }
    table.append(line);
  }
  return table;
}

// The lines of text about an operation: a name and a value each.
function factsOf(trace, place, number) {
  const op = trace.operations[place];
  const lanes = lanesOf(op);
  const bytes = (use, member) => textOf(lanes.filter((lane) => lane.use === use), member);
  const withValue = (digits) => `${digits} (${valueOf(op, digits)})`;
  const facts = [
    ["request", String(op.request)],
    ["requester, transaction", `${op.src}, ${op.txn}`],
    ["opcode", `${op.op.toString(16).padStart(2, "0")} ${op.name}`],
    ["address, size", `${op.addr}, ${op.size}`],
    ["time", timeOf(op)],
    ["byte order", op.endian === 1 ? "big-endian" : "little-endian"],
  ];
  if (op.name === "AtomicCompare") facts.push(["compare", withValue(bytes("compare", "sent"))], ["swap", withValue(bytes("swap", "sent"))]);
  else if (op.name === "WriteNoSnpPtl") facts.push(["written", sentOf(op)]);
  else if (op.name !== "ReadNoSnp") facts.push(["operand", withValue(bytes("operand", "sent"))]);
  if (op.reply === null) facts.push(["returned", "no reply was seen"]);
  else if (op.reply === "comp") facts.push(["returned", "comp, no data"]);
  else facts.push(["returned", withValue(bytes(op.name === "AtomicCompare" ? "compare" : "operand", "returned"))]);
  facts.push(["number in the order", number === undefined ? "not in it" : String(number)]);
  return trace.blame !== null && trace.blame.place === place ? [...facts, ...blameFactsOf(trace.blame, op)] : facts;
}

// The same about the operation that is blamed: which replies would be legal, and which other answers may be the wrong ones.
function blameFactsOf({ legal, suspects }, op) {
  const facts = [];
  if (legal.length > 0) facts.push(["legal would be", legal.map((reply) => returnedOf({ ...op, reply })).join(" or ")]);
  if (suspects.length > 1) facts.push(["suspects", `${suspects.join(" ")}: any one of these answers may be the wrong one`]);
  return facts;
}

// The 16 lanes of an operation's packet: a column for each.
function makePacket(op) {
  const lanes = lanesOf(op);
  const line = (name, cell) => [name, ...lanes.map(cell)];
  const table = makeTable(line("lane", (lane) => String(lane.lane)), [
    line("address ends in", (lane) => lane.addr.slice(-2)),
    line("sent", (lane) => (lane.sent === null ? "" : lane.sent)),
    line("byte enable", (lane) => (lane.enabled ? "1" : "0")),
    line("use", (lane) => lane.use.slice(0, 3)),
    line("returned", (lane) => lane.returned || ""),
  ]);
  table.className = "packet";
  for (const row of table.rows) lanes.forEach((lane, number) => row.cells[number + 1].classList.toggle("used", lane.use !== ""));
  return table;
}

// Shows an operation.
function showDetails(panel, drawing, place) {
  const { trace, marks, numbers } = drawing;
  const op = trace.operations[place];
  const mark = { blamed: "blamed: ", open: "open with the blamed one: " }[marks.get(place)] || "";
  const facts = element("dl");
  for (const [name, value] of factsOf(trace, place, numbers.get(place))) facts.append(element("dt", "", name), element("dd", "", value));
  panel.replaceChildren(element("h2", "", `${mark}${op.name} by requester ${op.src}`), facts, makePacket(op));
  panel.append(element("p", "note", "Bytes stand in address order. Byte enables of a read are not looked at. use: ope = operand, com = compare, swa = swap."));
}

// A word, with the bytes that differ from another one marked.
function makeWord(word, other) {
  const made = element("code", "word");
  bytesOf(word).forEach((byte, at) => made.append(element(bytesOf(other)[at] === byte ? "span" : "b", "", byte)));
  return made;
}

// Shows the steps of an order around one of them, so many at a time.
function showSteps(panel, drawing, granule, from) {
  const MOST = 50;
  const first = Math.max(Math.min(from, granule.steps.length - MOST), 0);
  const shown = granule.steps.slice(first, first + MOST);
  const rows = shown.map((step, at) => {
    const op = drawing.trace.operations[step.place];
    const link = element("button", "link", `${op.name} ${operandOf(op)}`);
    link.addEventListener("click", () => select(drawing, step.place, false));
    return [String(first + at + 1), String(op.request), link, String(op.src), timeOf(op), sentOf(op), returnedOf(op), makeWord(step.before, step.before), makeWord(step.after, step.before)];
  });
  const told = granule.final === null ? "none told" : granule.final;
  panel.replaceChildren(element("h2", "", `The order found: ${granule.steps.length} operations`), element("p", "note", `Word at the opening: ${granule.opening}. Word at the end: ${told}.`));
  if (granule.steps.length > MOST) {
    for (const [text, to] of [["earlier", first - MOST], ["later", first + MOST]]) {
      const button = element("button", "", text);
      button.addEventListener("click", () => showSteps(panel, drawing, granule, to));
      panel.append(button);
    }
    panel.append(element("span", "note", ` ${first + 1} to ${first + shown.length}`));
  }
  const table = makeTable(["number", "request", "operation", "requester", "time", "sent", "returned", "word before", "word after"], rows);
  table.className = "steps";
  shown.forEach((step, at) => table.rows[at + 1].classList.toggle("selected", step.place === drawing.selected));
  panel.append(table);
}
