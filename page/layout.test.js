// Tests of where things stand on a page: `node --test page`.
"use strict";

const assert = require("node:assert");
const test = require("node:test");
const { OPEN, barsOf, columnOf, dataOf, granuleOf, lanesOf, listedGranules, operandOf, panned, placesByGranule, rangeOf, returnedOf, rowsOf, sentOf, spansOf, textOf, ticksOf, timeOf, traceOf, valueOf, viewBefore, zoomed } = require("./layout.js");

const NO_LANES = "00".repeat(16);

// An operation of a requester from a time to another.
function operation(src, start, end, more) {
  return { src, name: "ReadNoSnp", addr: "0000000000001000", endian: 0, be: 0, lanes: NO_LANES, len: 8, start: String(start), end: end === null ? null : String(end), reply: null, ...more };
}

function spans(operations) {
  return spansOf(operations, operations.map((_, place) => place));
}

test("the granule of an address", () => {
  assert.equal(granuleOf("0000000000001007"), "0000000000001000");
  assert.equal(granuleOf("000000000000100f"), "0000000000001008");
  assert.equal(granuleOf("fffffffffffffff8"), "fffffffffffffff8");
});

test("the data's arrays are operations and steps", () => {
  const trace = traceOf({ blame: null, granules: [{ granule: "g", steps: [[7, "a", "b"]] }], operations: [[0, 1, 2, 4, "ReadNoSnp", 3, "addr", 0, 5, "lanes", 8, "10", null, null]] });
  assert.deepEqual(trace.granules[0].steps, [{ place: 7, before: "a", after: "b" }]);
  assert.equal(trace.operations[0].start, "10");
  assert.equal(trace.operations[0].len, 8);
});

test("each granule has its operations in the order of their starts", () => {
  const at = (addr) => operation(1, 0, 1, { addr });
  const places = placesByGranule([at("0000000000001000"), at("0000000000001008"), at("0000000000001004")]);
  assert.deepEqual([...places], [["0000000000001000", [0, 2]], ["0000000000001008", [1]]]);
});

test("the range ends with the last time that is known", () => {
  assert.deepEqual(rangeOf(spans([operation(1, 5, 9), operation(1, 7, null)])), { from: 5n, to: 9n });
  assert.deepEqual(rangeOf(spans([operation(1, 5, null)])), { from: 5n, to: 6n });
  assert.deepEqual(rangeOf([]), { from: 0n, to: 1n });
});

test("operations that overlap stand on different lines of their requester", () => {
  const rows = rowsOf(spans([operation(9, 0, 10), operation(2, 0, 10), operation(9, 5, 15), operation(9, 11, 20), operation(9, 15, 16)]));
  assert.deepEqual(rows.map((row) => [row.src, row.number, row.spans.map((span) => span.place)]), [[2, 0, [1]], [9, 0, [0, 3]], [9, 1, [2]], [9, 2, [4]]]);
});

test("lines of many operations by chance never hold two that overlap, and are as few as can be", () => {
  let seed = 1;
  const chance = (n) => (seed = (seed * 48271) % 2147483647) % n;
  const operations = Array.from({ length: 2000 }, (_, n) => operation(n % 3, n, n + chance(40)));
  const rows = rowsOf(spans(operations));
  for (const { spans: line } of rows) line.slice(1).forEach((span, at) => assert.ok(line[at].end < span.start));
  for (const src of [0, 1, 2]) {
    const own = operations.filter((op) => op.src === src);
    const most = Math.max(...own.map((op) => own.filter((other) => Number(other.start) <= Number(op.start) && Number(other.end) >= Number(op.start)).length));
    assert.equal(rows.filter((row) => row.src === src).length, most);
  }
});

test("a time's column is exact at the greatest times", () => {
  const view = { from: OPEN - 1000n, to: OPEN };
  assert.equal(columnOf(view, 1000, OPEN - 999n), 1);
  assert.equal(columnOf(view, 1000, OPEN - 250n), 750);
});

test("bars that are too short to be told apart are one block, but for those that are kept", () => {
  const row = { spans: spans([operation(1, 0, 1), operation(1, 2, 3), operation(1, 4, 5), operation(1, 500, 900)]) };
  const view = { from: 0n, to: 1000n };
  assert.deepEqual(barsOf(row, view, 1000, new Set()).map((bar) => [bar.places, bar.left, bar.right]), [[[0, 1, 2], 0, 5], [[3], 500, 900]]);
  assert.deepEqual(barsOf(row, view, 1000, new Set([1])).map((bar) => bar.places), [[0], [1], [2], [3]]);
  assert.deepEqual(barsOf(row, { from: 4n, to: 8n }, 1000, new Set()).map((bar) => [bar.places, bar.left, bar.right]), [[[2], 0, 250]]);
});

test("a bar with no end goes on to the edge of the view", () => {
  const [bar] = barsOf({ spans: spans([operation(1, 5, null)]) }, { from: 0n, to: 10n }, 100, new Set());
  assert.deepEqual([bar.left, bar.right, bar.isOpen], [50, 100, true]);
});

test("a view is zoomed about a time, and never leaves the times that there are", () => {
  assert.deepEqual(zoomed({ from: 100n, to: 200n }, 0.5, 1, 2), { from: 125n, to: 175n });
  assert.deepEqual(zoomed({ from: 100n, to: 200n }, 0, 2, 1), { from: 100n, to: 300n });
  assert.deepEqual(zoomed({ from: 0n, to: 1n }, 0.5, 1, 2), { from: 0n, to: 1n });
  assert.equal(zoomed({ from: 0n, to: OPEN }, 0.5, 2, 1).to, OPEN);
  assert.deepEqual(panned({ from: 100n, to: 200n }, 0.5), { from: 150n, to: 250n });
  assert.deepEqual(panned({ from: 10n, to: 110n }, -1), { from: 0n, to: 100n });
  assert.deepEqual(panned({ from: OPEN - 10n, to: OPEN }, 1), { from: OPEN - 10n, to: OPEN });
  assert.deepEqual(panned({ from: 5n, to: 6n }, 0.2), { from: 6n, to: 7n });
});

test("a view before a time has the last operations that started by then", () => {
  const all = spans(Array.from({ length: 100 }, (_, n) => operation(1, 10 * n, 10 * n + 5)));
  assert.deepEqual(viewBefore(all, 505n, 3), { from: 480n, to: 509n });
});

test("ticks stand at even times", () => {
  assert.deepEqual(ticksOf({ from: 3n, to: 47n }, 10), [5n, 10n, 15n, 20n, 25n, 30n, 35n, 40n, 45n]);
  assert.deepEqual(ticksOf({ from: 0n, to: 1n }, 10), [0n, 1n]);
  assert.ok(ticksOf({ from: 0n, to: OPEN }, 10).length <= 11);
});

test("an AtomicCompare has both halves of its window, whichever the address names", () => {
  const lanes = "00".repeat(4) + "0102a1a2" + "00".repeat(8);
  const uses = (addr) => lanesOf(operation(1, 0, 1, { name: "AtomicCompare", addr, len: 2, be: 0xf0, lanes, reply: lanes }));
  const low = uses("0000000000001004");
  assert.deepEqual(low.map((lane) => lane.use).slice(3, 9), ["", "compare", "compare", "swap", "swap", ""]);
  assert.equal(textOf(low.filter((lane) => lane.use === "swap"), "sent"), "a1a2");
  const high = uses("0000000000001006");
  assert.deepEqual(high.map((lane) => lane.use).slice(3, 9), ["", "swap", "swap", "compare", "compare", ""]);
  assert.equal(textOf(high.filter((lane) => lane.use === "compare"), "returned"), "a1a2");
});

test("byte enables and lanes of a write", () => {
  const lanes = lanesOf(operation(1, 0, 1, { name: "WriteNoSnpPtl", addr: "0000000000001008", be: 0x0300, lanes: "00".repeat(8) + "0102030405060708", reply: "comp" }));
  assert.deepEqual(lanes.filter((lane) => lane.enabled).map((lane) => [lane.lane, lane.addr, lane.sent]), [[8, "0000000000001008", "01"], [9, "0000000000001009", "02"]]);
  assert.equal(lanes[8].returned, null);
});

test("what was sent and returned stands as in the rows of an answer", () => {
  const told = (name, more) => dataOf(operation(1, 0, 1, { name, addr: "000000000000100c", len: 2, lanes: "000102030405060708090a0b0c0d0e0f", ...more }));
  const back = { reply: "00".repeat(12) + "a1a2" + "0000" };
  assert.equal(told("ReadNoSnp", back), "returned a1a2");
  assert.equal(told("ReadNoSnp", {}), "no reply");
  assert.equal(told("WriteNoSnpPtl", { be: 0x2000, reply: "comp" }), "sent --0d comp");
  assert.equal(told("AtomicStore.ADD", { reply: "comp" }), "sent 0c0d comp");
  assert.equal(told("AtomicSwap", back), "sent 0c0d returned a1a2");
  assert.equal(told("AtomicCompare", back), "compare 0c0d swap 0e0f returned a1a2");
  assert.equal(sentOf(operation(1, 0, 1, {})), "");
  assert.equal(operandOf(operation(1, 0, 1, { addr: "000000000000100c", len: 2 })), "+4 L2");
  assert.equal(returnedOf(operation(1, 0, 1, { reply: "comp" })), "comp");
});

test("when an operation was under way", () => {
  assert.equal(timeOf(operation(1, 10, 20)), "10 to 20");
  assert.equal(timeOf(operation(1, 10, null)), "from 10 on");
});

test("a value is read in the operation's byte order", () => {
  assert.equal(valueOf({ endian: 0 }, "0102"), 0x0201n);
  assert.equal(valueOf({ endian: 1 }, "0102"), 0x0102n);
  assert.equal(valueOf({ endian: 0 }, "ff".repeat(8)), 2n ** 64n - 1n);
});

test("granules that are not explained are listed first", () => {
  const listed = listedGranules([{ granule: "b", finding: "explained" }, { granule: "d", finding: "not explained" }, { granule: "c", finding: "undecided" }, { granule: "a", finding: "explained" }]);
  assert.deepEqual(listed.map((it) => it.granule), ["d", "c", "a", "b"]);
});
