// The page of a coverage: how many bins are covered, a table of each group, the bins that are missing, and the rules of the plan.
"use strict";

// The count that stands for itself and all that are greater.
const MOST = "18446744073709551615";
const LEGEND = "A number says how many operations were of a bin.";
const EXCLUDED = "A dim number with a dashed border is excluded: its bin need not be covered.";

// What stands above the rows and the columns of a group's table.
const TABLES = {
  operations: { heads: ["operation", "byte order", "operand"], over: "lane of the operand's first byte" },
  overlaps: { heads: ["later transaction"], over: "earlier transaction that was open" },
  sequences: { heads: ["later transaction"], over: "earlier transaction of the granule" },
  "line sequences": { heads: ["later transaction"], over: "earlier transaction of another granule of the line" },
};
const PLAIN = { heads: ["bin"], over: "" };
const RULES = { heads: ["rule", "pattern", "bins", "reason"], over: "", columns: [] };

// The names of bins of two transactions, of the later one and then of the earlier one.
const PAIRS = {
  overlaps: /^(.*) while (.*) was open$/,
  sequences: /^(.*) after (.*)$/,
  "line sequences": /^(.*) after (.*) on the line$/,
};

// A bin of the data, which stands there as an array. Its goal is that of all where it has none of its own, and null where it is
// excluded. A count and a goal are texts, since no number holds the greatest exactly.
function binOf([name, count, own], goal) {
  const excluded = own === null;
  return { name, count, excluded, missing: !excluded && BigInt(count) < BigInt(own === undefined ? goal : own) };
}

// A group of the data, at the goal of all.
function groupOf({ name, bins }, goal) {
  return { name, bins: bins.map((bin) => binOf(bin, goal)) };
}

function isMissing(bin) {
  return bin.missing;
}

function missingOf(bins) {
  return bins.filter(isMissing);
}

function excludedOf(bins) {
  return bins.filter((bin) => bin.excluded);
}

// A group's name, and how many are covered of its bins that are not excluded.
function headingOf({ name, bins }) {
  const wanted = bins.length - excludedOf(bins).length;
  return `${name}: ${wanted - missingOf(bins).length} of ${wanted}`;
}

function areOf(number, what) {
  return `${number} ${number === 1 ? "is" : "are"} ${what}`;
}

// What is said of all bins, where so many are missing and so many excluded.
function summaryOf({ covered, bins, percent, goal }, missing, excluded) {
  const least = goal === "1" ? "" : `, each at least ${goal}`;
  const beside = excluded === 0 ? "" : `, ${areOf(excluded, "excluded")}`;
  return `${covered} of ${bins} bins are covered (${percent}%)${least}, ${areOf(missing, "missing")}${beside}.`;
}

// What is said of a number that is missing.
function missingLegend({ goal, plan }) {
  if (plan.some((rule) => rule.goal !== null)) return "A bold number with a thick border is missing: fewer operations were of that bin than it has to count.";
  if (goal === "1") return "A bold 0 with a thick border is missing: no operation was of that bin.";
  return `A bold number with a thick border is missing: fewer than ${goal} operations were of that bin.`;
}

// What is said of the numbers, where so many bins are excluded.
function legendOf(data, excluded) {
  return `${LEGEND} ${missingLegend(data)}${excluded === 0 ? "" : ` ${EXCLUDED}`}`;
}

function textOf(count) {
  return count === MOST ? `${count} or more` : count;
}

// Where a bin stands in the table of its group, by its name: its row, its column, and how many columns it is wide.
function placeOf(group, name) {
  if (group === "operations") {
    const [, kind, order, bytes, lane] = name.match(/^(.*), (.*), ((?:1|2|4|8) bytes?), lane (\d+)$/);
    return { row: [kind, order, bytes], column: lane, width: parseInt(bytes, 10) };
  }
  if (PAIRS[group]) {
    const [, later, earlier] = name.match(PAIRS[group]);
    return { row: [later], column: earlier, width: 1 };
  }
  return { row: [name], column: "operations", width: 1 };
}

// The rows and columns of a group's table, each in the order in which the bins first name it. The bins of a row come by column.
function tableOf({ name, bins }) {
  const columns = new Set();
  const rows = new Map();
  for (const bin of bins) {
    const { row, column, width } = placeOf(name, bin.name);
    const key = row.join(", ");
    columns.add(column);
    if (!rows.has(key)) rows.set(key, { heads: row, cells: [] });
    rows.get(key).cells.push({ bin, width });
  }
  return { ...(TABLES[name] || PLAIN), columns: [...columns], rows: [...rows.values()] };
}

// Whether nothing is missing in a row.
function isWhole(row) {
  return !row.cells.some((cell) => isMissing(cell.bin));
}

// The class of a bin's cell.
function classOf(bin) {
  if (bin.excluded) return "excluded";
  return isMissing(bin) ? "missing" : "";
}

// The title of a bin's cell: its name, and what is to be known of it.
function titleOf(bin) {
  if (bin.excluded) return `${bin.name}: excluded${bin.count === "0" ? "" : " but met"}`;
  return isMissing(bin) ? `${bin.name}: missing` : bin.name;
}

// What is said of a rule of the plan: what it does, its pattern, how many bins fit, and why.
function ruleOf({ bins, count, goal, why }) {
  return [goal === null ? "excluded" : `at least ${goal}`, bins, count, why];
}

// An element with a class, with text in it where there is some. Text is never read as markup.
function element(name, className, text) {
  const made = document.createElement(name);
  if (className) made.className = className;
  if (text !== undefined) made.textContent = text;
  return made;
}

// The head of a column, or of a row, or of several.
function makeHead(scope, text, width) {
  const head = element("th", "", text);
  head.scope = scope;
  head.colSpan = width;
  return head;
}

function makeCell({ bin, width }) {
  const cell = element("td", classOf(bin), textOf(bin.count));
  cell.colSpan = width;
  cell.title = titleOf(bin);
  return cell;
}

function makeHeads({ heads, over, columns }) {
  const made = element("thead");
  const line = element("tr");
  line.append(...[...heads, ...columns].map((text) => makeHead("col", text, 1)));
  if (over !== "") {
    const above = element("tr");
    above.append(makeHead("colgroup", "", heads.length), makeHead("colgroup", over, columns.length));
    made.append(above);
  }
  made.append(line);
  return made;
}

function makeTable(table) {
  const made = element("table");
  const body = element("tbody");
  for (const row of table.rows) {
    const line = element("tr", isWhole(row) ? "whole" : "");
    line.append(...row.heads.map((text) => makeHead("row", text, 1)), ...row.cells.map(makeCell));
    body.append(line);
  }
  if (table.rows.every(isWhole)) made.className = "whole";
  made.append(makeHeads(table), body);
  return made;
}

// The rules of the plan, in their order. Where two fit a bin, the later one decides.
function makePlan(plan) {
  const made = element("table", "plan");
  const body = element("tbody");
  for (const rule of plan) {
    const line = element("tr");
    line.append(...ruleOf(rule).map((text) => element("td", "", text)));
    body.append(line);
  }
  made.append(makeHeads(RULES), body);
  return made;
}

// A part of the page, under a heading that a link names.
function makeSection(id, heading, ...parts) {
  const made = element("section");
  made.id = id;
  made.append(element("h2", "", heading), ...parts);
  return made;
}

// The names of the bins that are missing, under that of each group that has some.
function makeMissing(groups) {
  return groups.flatMap(({ name, bins }) => {
    const missing = missingOf(bins);
    if (missing.length === 0) return [];
    const list = element("ul", "bins");
    list.append(...missing.map((bin) => element("li", "", bin.name)));
    return [element("h3", "", `${name}: ${missing.length}`), list];
  });
}

// A link to each section.
function makeLinks(sections) {
  const list = element("ul");
  for (const section of sections) {
    const link = element("a", "", section.firstChild.textContent);
    link.href = `#${section.id}`;
    const item = element("li");
    item.append(link);
    list.append(item);
  }
  const made = element("nav");
  made.setAttribute("aria-label", "Groups");
  made.append(list);
  return made;
}

// The check box that hides the rows of these sections in which nothing is missing.
function makeChoice(content) {
  const box = element("input");
  box.type = "checkbox";
  box.addEventListener("change", () => content.classList.toggle("only-missing", box.checked));
  const made = element("label", "choice");
  made.append(box, " only what is missing");
  return made;
}

// Builds the page from the data.
function start() {
  const data = JSON.parse(document.getElementById("coverage").textContent);
  const groups = data.groups.map((group) => groupOf(group, data.goal));
  const bins = groups.flatMap((group) => group.bins);
  const [missing, excluded] = [missingOf(bins).length, excludedOf(bins).length];
  const sections = groups.map((group, number) => makeSection(`group-${number}`, headingOf(group), makeTable(tableOf(group))));
  sections.push(makeSection("missing", `missing: ${missing}`, ...makeMissing(groups)));
  if (data.plan.length > 0) sections.push(makeSection("plan", `plan: ${data.plan.length}`, makePlan(data.plan)));
  const content = element("main");
  content.append(...sections);
  document.body.append(element("h1", "", "chicheck cover"), element("p", "summary", summaryOf(data, missing, excluded)), makeLinks(sections), element("p", "legend", legendOf(data, excluded)), makeChoice(content), content);
}

if (typeof module !== "undefined") module.exports = { classOf, excludedOf, groupOf, headingOf, isMissing, isWhole, legendOf, missingOf, placeOf, ruleOf, summaryOf, tableOf, textOf, titleOf };
else start();
