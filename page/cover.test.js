// Tests of where the bins of a coverage stand on its page: `node --test page`.
"use strict";

const assert = require("node:assert");
const test = require("node:test");
const { classOf, excludedOf, groupOf, headingOf, isMissing, isWhole, legendOf, missingOf, placeOf, ruleOf, summaryOf, tableOf, textOf, titleOf } = require("./cover.js");

const NUMBERS = "A number says how many operations were of a bin.";

// A group of bins with these counts, at a goal. A bin of `own` has that goal, or is excluded where that is null.
function group(name, counts, goal = "1", own = {}) {
  return groupOf({ name, bins: Object.entries(counts).map((bin) => (bin[0] in own ? [...bin, own[bin[0]]] : bin)) }, goal);
}

// The names of bins, in one text.
function names(bins) {
  return bins.map((bin) => bin.name).join("");
}

// The rows of a table: the heads of each, and the counts with the columns that each is wide.
function rows(table) {
  return table.rows.map((row) => [row.heads.join(" "), ...row.cells.map((cell) => `${cell.bin.count}/${cell.width}`)]);
}

test("the data's arrays are bins", () => {
  const found = groupOf({ name: "compares", bins: [["a", "12"], ["b", "0"], ["c", "2", "3"], ["d", "0", null]] }, "1");
  const [a, b] = [{ name: "a", count: "12", excluded: false, missing: false }, { name: "b", count: "0", excluded: false, missing: true }];
  const [c, d] = [{ name: "c", count: "2", excluded: false, missing: true }, { name: "d", count: "0", excluded: true, missing: false }];
  assert.deepEqual(found, { name: "compares", bins: [a, b, c, d] });
});

test("a bin of operations stands in the row of its kind, byte order and length, in the column of its lane", () => {
  assert.deepEqual(placeOf("operations", "AtomicLoad.ADD, little-endian, 2 bytes, lane 4"), { row: ["AtomicLoad.ADD", "little-endian", "2 bytes"], column: "4", width: 2 });
  assert.deepEqual(placeOf("operations", "ReadNoSnp, big-endian, 1 byte, lane 15"), { row: ["ReadNoSnp", "big-endian", "1 byte"], column: "15", width: 1 });
});

test("an overlap stands in the row of the later transaction, in the column of the earlier one", () => {
  assert.deepEqual(placeOf("overlaps", "WriteNoSnpPtl while AtomicLoad was open"), { row: ["WriteNoSnpPtl"], column: "AtomicLoad", width: 1 });
});

test("a sequence stands in the row of the later transaction, in the column of the earlier one", () => {
  assert.deepEqual(placeOf("sequences", "ReadNoSnp after WriteNoSnpPtl"), { row: ["ReadNoSnp"], column: "WriteNoSnpPtl", width: 1 });
  assert.deepEqual(placeOf("line sequences", "ReadNoSnp after WriteNoSnpPtl on the line"), { row: ["ReadNoSnp"], column: "WriteNoSnpPtl", width: 1 });
});

test("each other bin has a row of its own", () => {
  assert.deepEqual(placeOf("writes", "WriteNoSnpPtl, 2 bytes, byte enables: some"), { row: ["WriteNoSnpPtl, 2 bytes, byte enables: some"], column: "operations", width: 1 });
  assert.deepEqual(placeOf("open at once", "open more than 8"), { row: ["open more than 8"], column: "operations", width: 1 });
});

test("the matrix of operations has 16 lanes, and each row fills them", () => {
  const bins = [1, 2, 4, 8].flatMap((length) => {
    const lanes = Array.from({ length: 16 / length }, (_, number) => number * length);
    return lanes.map((lane) => [`AtomicSwap, big-endian, ${length} byte${length === 1 ? "" : "s"}, lane ${lane}`, String(lane)]);
  });
  const table = tableOf(groupOf({ name: "operations", bins }, "1"));
  assert.deepEqual(table.columns, Array.from({ length: 16 }, (_, lane) => String(lane)));
  assert.deepEqual(rows(table)[2], ["AtomicSwap big-endian 4 bytes", "0/4", "4/4", "8/4", "12/4"]);
  for (const row of table.rows) assert.equal(row.cells.reduce((sum, cell) => sum + cell.width, 0), 16);
  assert.deepEqual(table.rows.map((row) => row.cells.length), [16, 8, 4, 2]);
});

test("the matrix of overlaps has the later transactions as rows, though the bins come by the earlier one", () => {
  const table = tableOf(group("overlaps", { "R while R was open": "1", "W while R was open": "2", "R while W was open": "3", "W while W was open": "0" }));
  assert.deepEqual(table.columns, ["R", "W"]);
  assert.deepEqual(rows(table), [["R", "1/1", "3/1"], ["W", "2/1", "0/1"]]);
  assert.deepEqual(table.rows.map(isWhole), [true, false]);
});

test("a plain table has a row for each bin", () => {
  const table = tableOf(group("requesters", { "an overlap with an earlier operation of the same requester": "0", "an overlap with an earlier operation of another requester": "9" }));
  assert.deepEqual(table.heads, ["bin"]);
  assert.deepEqual(rows(table).map((row) => row[1]), ["0/1", "9/1"]);
});

test("at a goal of one operation a count that is 0 is missing, and no other", () => {
  const { bins } = group("open at once", { "open 1": "0", "open 2": "10", "open 3 to 4": "18446744073709551615" });
  assert.deepEqual(bins.map(isMissing), [true, false, false]);
  assert.deepEqual(missingOf(bins).map((bin) => bin.name), ["open 1"]);
});

test("a count below the goal is missing, by numbers and not by digits", () => {
  const counts = { a: "0", b: "4", c: "5", d: "10", e: "18446744073709551614", f: "18446744073709551615" };
  const missing = (goal) => names(missingOf(group("writes", counts, goal).bins));
  assert.deepEqual(["0", "1", "5", "18446744073709551615"].map(missing), ["", "a", "ab", "abcde"]);
});

test("a row is whole where each of its bins reaches the goal", () => {
  const counts = { "R while R was open": "5", "W while R was open": "4", "R while W was open": "7", "W while W was open": "5" };
  assert.deepEqual(tableOf(group("overlaps", counts, "5")).rows.map(isWhole), [true, false]);
  assert.deepEqual(tableOf(group("overlaps", counts, "4")).rows.map(isWhole), [true, true]);
});

test("a bin's own goal decides whether it is missing, and not that of all", () => {
  const counts = { a: "2", b: "2", c: "2", d: "9", e: "10" };
  const own = { a: "3", b: "2", d: "10", e: "10" };
  assert.equal(names(missingOf(group("writes", counts, "1", own).bins)), "ad");
  assert.equal(names(missingOf(group("writes", counts, "5", own).bins)), "acd");
  assert.equal(names(missingOf(group("writes", { a: "0", b: "18446744073709551614" }, "1", { a: "0", b: "18446744073709551615" }).bins)), "b");
});

test("a bin that is excluded is not missing, whatever it counted", () => {
  const { bins } = group("writes", { a: "0", b: "3", c: "0", d: "3" }, "5", { a: null, b: null });
  assert.equal(names(excludedOf(bins)), "ab");
  assert.equal(names(missingOf(bins)), "cd");
});

test("a row of bins that are covered or excluded is whole", () => {
  const counts = { "R while R was open": "0", "W while R was open": "0", "R while W was open": "7", "W while W was open": "0" };
  assert.deepEqual(tableOf(group("overlaps", counts, "1", { "R while R was open": null, "W while R was open": null })).rows.map(isWhole), [true, false]);
  assert.deepEqual(tableOf(group("overlaps", counts, "1", Object.fromEntries(Object.keys(counts).map((name) => [name, null])))).rows.map(isWhole), [true, true]);
  assert.deepEqual(tableOf(group("overlaps", counts, "0", { "R while W was open": "8" })).rows.map(isWhole), [false, true]);
});

test("a cell's class and its title say whether its bin is missing or excluded, and whether it was met all the same", () => {
  const { bins } = group("writes", { a: "0", b: "0", c: "1", d: "1", e: "1" }, "1", { b: null, c: null, d: "2" });
  assert.deepEqual(bins.map(classOf), ["missing", "excluded", "excluded", "missing", ""]);
  assert.deepEqual(bins.map(titleOf), ["a: missing", "b: excluded", "c: excluded but met", "d: missing", "e"]);
});

test("a rule says what it does, its pattern, how many bins fit, and why", () => {
  assert.deepEqual(ruleOf({ bins: "ReadNoSnp, *", count: "60", goal: null, why: "<b>none</b>\nis sent" }), ["excluded", "ReadNoSnp, *", "60", "<b>none</b>\nis sent"]);
  assert.deepEqual(ruleOf({ bins: "* while *", count: "36", goal: "10", why: "" }), ["at least 10", "* while *", "36", ""]);
  assert.deepEqual(ruleOf({ bins: "*", count: "1410", goal: "0", why: "" }), ["at least 0", "*", "1410", ""]);
});

test("the legend says from which number on a bin is covered", () => {
  assert.equal(legendOf({ goal: "1", plan: [] }, 0), `${NUMBERS} A bold 0 with a thick border is missing: no operation was of that bin.`);
  assert.equal(legendOf({ goal: "5", plan: [] }, 0), `${NUMBERS} A bold number with a thick border is missing: fewer than 5 operations were of that bin.`);
});

test("the legend says what is excluded only where something is", () => {
  const excluded = "A dim number with a dashed border is excluded: its bin need not be covered.";
  const plan = [{ bins: "*", count: "1410", goal: null, why: "not yet" }];
  assert.equal(legendOf({ goal: "1", plan }, 1410), `${NUMBERS} A bold 0 with a thick border is missing: no operation was of that bin. ${excluded}`);
  assert.equal(legendOf({ goal: "1", plan }, 0), legendOf({ goal: "1", plan: [] }, 0));
});

test("the legend names no number where bins have goals of their own", () => {
  const missing = "A bold number with a thick border is missing: fewer operations were of that bin than it has to count.";
  const plan = [{ bins: "*", count: "1410", goal: null, why: "not yet" }, { bins: "open *", count: "5", goal: "3", why: "" }];
  for (const goal of ["1", "5"]) assert.equal(legendOf({ goal, plan }, 0), `${NUMBERS} ${missing}`);
});

test("headings and summary say how many bins are covered", () => {
  assert.equal(headingOf(group("open at once", { "open 1": "0", "open 2": "10", "open 3 to 4": "1" })), "open at once: 2 of 3");
  assert.equal(headingOf(group("open at once", { "open 1": "0", "open 2": "10", "open 3 to 4": "1" }, "2")), "open at once: 1 of 3");
  assert.equal(summaryOf({ covered: "1383", bins: "1410", percent: "98", goal: "1" }, 27, 0), "1383 of 1410 bins are covered (98%), 27 are missing.");
  assert.equal(summaryOf({ covered: "1409", bins: "1410", percent: "99", goal: "1" }, 1, 0), "1409 of 1410 bins are covered (99%), 1 is missing.");
  assert.equal(summaryOf({ covered: "605", bins: "1410", percent: "42", goal: "5" }, 805, 0), "605 of 1410 bins are covered (42%), each at least 5, 805 are missing.");
});

test("headings and summary leave out what is excluded, and the summary says how many those are", () => {
  const counts = { "open 1": "0", "open 2": "10", "open 3 to 4": "1", "open 5 to 8": "0" };
  assert.equal(headingOf(group("open at once", counts, "1", { "open 1": null })), "open at once: 2 of 3");
  assert.equal(headingOf(group("open at once", counts, "1", { "open 2": null, "open 3 to 4": "2" })), "open at once: 0 of 3");
  assert.equal(headingOf(group("open at once", { "open 1": "4" }, "1", { "open 1": null })), "open at once: 0 of 0");
  assert.equal(summaryOf({ covered: "1323", bins: "1350", percent: "98", goal: "1" }, 27, 60), "1323 of 1350 bins are covered (98%), 27 are missing, 60 are excluded.");
  assert.equal(summaryOf({ covered: "1408", bins: "1409", percent: "99", goal: "5" }, 1, 1), "1408 of 1409 bins are covered (99%), each at least 5, 1 is missing, 1 is excluded.");
  assert.equal(summaryOf({ covered: "0", bins: "0", percent: "100", goal: "1" }, 0, 1410), "0 of 0 bins are covered (100%), 0 are missing, 1410 are excluded.");
});

test("the greatest count stands for more", () => {
  assert.equal(textOf("18446744073709551615"), "18446744073709551615 or more");
  assert.equal(textOf("18446744073709551614"), "18446744073709551614");
});
