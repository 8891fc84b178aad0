"use strict";
// Draws a witness as the page of a class does: what is drawn of it as values, and then as elements, whose texts
// are set as texts alone.

// What a page may not hold, or what would not be seen, would turn or would hide what is near it.
const HIDDEN = /[\0-\x08\v-\x1f\x7f-\x9f\u202a-\u202e\u2066-\u2069\ud800-\udfff\ufffe\uffff]/gu;
// White space as Python's strip has it.
const SPACE = "[\\t-\\r\\x1c-\\x20\\x85\\xa0\\u1680\\u2000-\\u200a\\u2028\\u2029\\u202f\\u205f\\u3000]";
const ODD = new RegExp(`^(?:|null|-?[0-9]+|'[^]*'|${SPACE}[^]*|[^]*${SPACE})$`, "i");

function pictureOf(letter) {
  const code = letter.codePointAt(0);
  if (code < 0x20) return String.fromCodePoint(0x2400 + code);
  if (code === 0x7f) return "\u2421";
  if (code < 0xa0 || code >= 0xd800) return "\ufffd";
  return `\u27e8U+${code.toString(16).toUpperCase().padStart(4, "0")}\u27e9`;
}

function pictures(text) {
  return text.replaceAll("\r\n", "\n").replace(HIDDEN, pictureOf);
}

function literalOf(cell) {
  return cell.kind === "text" ? `'${cell.text.replaceAll("'", "''")}'` : cell.text;
}

// A text as it is, in quotes where it could be taken for something else.
function drawnCell(cell) {
  return cell.kind === "text" && ODD.test(cell.text) ? { kind: "text", text: literalOf(cell) } : cell;
}

function quotedName(name) {
  return `"${name.replaceAll('"', '""')}"`;
}

// CREATE TABLE for each table and INSERT for the kept rows, as SQLite and PostgreSQL read them.
function sqlOf(kept, tables) {
  const made = tables.map(({ name, columns }) => {
    const fields = columns.map((column) => `${quotedName(column.name)} ${column.kind === "INTEGER" ? "BIGINT" : "TEXT"}`);
    return `CREATE TABLE ${quotedName(name)} (${fields.join(", ")});\n`;
  });
  const rows = kept.map((row) => `INSERT INTO ${quotedName(row.table)} VALUES (${row.cells.map(literalOf).join(", ")});\n`);
  return [...made, ...rows].join("");
}

// The kept rows by table, each with its number in its file.
function keptTables(kept, tables) {
  const found = [];
  for (const { table, number, cells } of kept) {
    if (found.at(-1)?.name !== table) {
      const { columns } = tables.find((it) => it.name === table);
      found.push({ name: table, columns: columns.map((column) => column.name), lines: [] });
    }
    found.at(-1).lines.push({ number, cells: cells.map(drawnCell) });
  }
  return found;
}

function answerRows(only, both) {
  const of = (rows, isOnly) => rows.map((cells) => ({ isOnly, cells: cells.map(drawnCell) }));
  return [...of(only, true), ...of(both, false)];
}

// What is drawn of a witness, or of the best rows so far.
function drawingOf(outcome, tables) {
  const kept = outcome.kept ?? outcome.best;
  const answers = outcome.kind === "witness"
    ? { reference: answerRows(outcome.onlyFirst, outcome.both), answer: answerRows(outcome.onlySecond, outcome.both) }
    : { reference: null, answer: null };
  return { tables: keptTables(kept, tables), ...answers, sql: sqlOf(kept, tables) };
}

// An element with attributes, of texts and other elements.
function element(name, attributes, ...parts) {
  const made = document.createElement(name);
  for (const [key, value] of Object.entries(attributes)) made.setAttribute(key, value);
  made.append(...parts.map((part) => (typeof part === "string" ? pictures(part) : part)));
  return made;
}

function counted(count, noun) {
  return `${count} ${noun}${count === 1 ? "" : "s"}`;
}

function cellElements(cells) {
  return cells.map(({ kind, text }) => element("td", { class: kind }, text));
}

function keptElement({ name, columns, lines }) {
  const heads = columns.map((column) => element("th", { scope: "col" }, column));
  const rows = lines.map(({ number, cells }) =>
    element("tr", {}, element("th", { scope: "row", class: "row" }, number), ...cellElements(cells)));
  return element("div", { class: "box" }, element("table", { class: "kept" },
    element("caption", {}, name),
    element("thead", {}, element("tr", {}, element("th", { scope: "col", class: "row" }, "row"), ...heads)),
    element("tbody", {}, ...rows)));
}

function answerElement(title, rows) {
  const lines = rows.map(({ isOnly, cells }) => {
    const [kind, words] = isOnly ? ["only", "only here"] : ["both", "in both"];
    return element("tr", { class: kind }, element("th", { scope: "row" }, words), ...cellElements(cells));
  });
  const none = element("tr", { class: "none" }, element("td", {}, "no rows"));
  return element("div", { class: "box" }, element("table", { class: "result" },
    element("caption", {}, `${title}: ${counted(rows.length, "row")}`),
    element("tbody", {}, ...(lines.length ? lines : [none]))));
}

function drawn(drawing) {
  const made = [
    element("h3", {}, drawing.answer ? "Kept rows" : "Best rows so far"),
    element("div", { class: "tables" }, ...drawing.tables.map(keptElement)),
  ];
  if (drawing.answer) {
    const pair = [answerElement("Reference", drawing.reference), answerElement("Answer", drawing.answer)];
    made.push(element("h3", {}, "Answers on these rows"), element("div", { class: "pair" }, ...pair));
  }
  made.push(element("details", { class: "sql" }, element("summary", {}, "These rows as SQL"),
    element("pre", { tabindex: "0" }, element("code", {}, drawing.sql))));
  return made;
}
