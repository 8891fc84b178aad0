"use strict";
// What ratest printed about two queries, read back into values. A text in it may hold line ends, commas and
// quotes, so it is read from the left by its grammar and never cut into lines first.

const STATUS = { agree: 0, witness: 1, refused: 3, spent: 4, limit: 5, memory: 7 };
const PLACED = [
  "syntax fault near byte", "not UTF-8 at byte", "number past 128 bits at byte", "text without end from byte",
  "comment without end from byte", "unexpected byte at",
];
const PLACE = new RegExp(`^(?:${PLACED.join("|")}) ([0-9]{1,9})$`);

class Unreadable extends Error {}

// The outcome of one question over these tables; `out` and `err` are texts.
function outcomeOf(status, out, err, tables) {
  const none = { kind: "none", printed: out + err };
  if (status === STATUS.memory) return { kind: "memory" };
  if (status === STATUS.refused) return refusalOf(err, tables) ?? none;
  if (status === STATUS.limit) {
    const found = /^ratest: limit: ([^]+)$/.exec(err);
    return found ? { kind: "limit", fault: withoutLineEnd(found[1]) } : none;
  }
  const fits = { [STATUS.agree]: "agree", [STATUS.witness]: "witness", [STATUS.spent]: "undecided" }[status];
  if (fits === undefined) return none;
  try {
    const outcome = new Reader(out, tables).outcome();
    return outcome.kind === fits ? outcome : none;
  } catch (fault) {
    if (fault instanceof Unreadable) return none;
    throw fault;
  }
}

// A name in a refusal may hold anything, so known names are tried first, the longest first.
function refusalOf(err, tables) {
  const names = byLength(tables).map(({ name }) => `table ${name}`);
  const start = "ratest: ";
  if (!err.startsWith(start)) return null;
  const rest = err.slice(start.length);
  const parts = ["schema", "query 1", "query 2", "queries", ...names];
  const part = parts.find((it) => rest.startsWith(`${it}: `)) ?? /^table [^]+?(?=: )/.exec(rest)?.[0];
  if (part === undefined) return null;
  const fault = withoutLineEnd(rest.slice(part.length + 2));
  const place = PLACE.exec(fault);
  return fault === "" ? null : { kind: "refused", part, fault, place: place ? Number(place[1]) : null };
}

// One table may be named `t` and another `t 1: 5`, so the longest name is tried first.
function byLength(tables) {
  return [...tables].sort((one, other) => other.name.length - one.name.length);
}

function withoutLineEnd(text) {
  return text.endsWith("\n") ? text.slice(0, -1) : text;
}

// Reads a printed text from the left.
class Reader {
  constructor(text, tables) {
    this.text = text;
    this.at = 0;
    this.tables = byLength(tables);
  }

  outcome() {
    let outcome = { kind: "agree" };
    if (this.has("witness: ")) {
      const kept = this.keptRows(this.count("witness"));
      const [onlyFirst, onlySecond, both] = ["only query 1", "only query 2", "both"].map((it) => this.answerRows(it));
      outcome = { kind: "witness", kept, onlyFirst, onlySecond, both };
    } else if (this.has("undecided: ")) {
      this.take(/undecided: /y);
      const conflicts = this.take(/[0-9]{1,20}/y);
      this.take(/ conflicts\n/y);
      const best = this.at < this.text.length ? this.keptRows(this.count("best so far")) : null;
      outcome = { kind: "undecided", conflicts, best };
    } else {
      this.take(/agree\n/y);
    }
    if (this.at < this.text.length) throw new Unreadable();
    return outcome;
  }

  has(words) {
    return this.text.startsWith(words, this.at);
  }

  take(pattern) {
    pattern.lastIndex = this.at;
    const found = pattern.exec(this.text);
    if (!found) throw new Unreadable();
    this.at = pattern.lastIndex;
    return found[0];
  }

  count(words) {
    if (!this.has(`${words}: `)) throw new Unreadable();
    this.at += words.length + 2;
    const count = Number(this.take(/[0-9]{1,9}/y));
    this.take(/\n/y);
    return count;
  }

  cell() {
    if (this.has("NULL")) {
      this.at += 4;
      return { kind: "null", text: "NULL" };
    }
    if (this.has("'")) return { kind: "text", text: this.quoted() };
    // As Python writes it: without zeros in front.
    return { kind: "number", text: String(BigInt(this.take(/-?[0-9]{1,40}/y))) };
  }

  quoted() {
    let text = "";
    for (let from = this.at + 1; ; ) {
      const end = this.text.indexOf("'", from);
      if (end < 0) throw new Unreadable();
      text += this.text.slice(from, end);
      if (this.text[end + 1] !== "'") {
        this.at = end + 1;
        return text;
      }
      text += "'";
      from = end + 2;
    }
  }

  row() {
    const cells = [this.cell()];
    while (this.has(", ")) {
      this.at += 2;
      cells.push(this.cell());
    }
    this.take(/\n/y);
    return cells;
  }

  keptRow() {
    const start = this.at;
    for (const table of this.tables) {
      this.at = start;
      if (!this.has(`${table.name} `)) continue;
      this.at += table.name.length + 1;
      try {
        const number = this.take(/[1-9][0-9]{0,8}/y);
        this.take(/: /y);
        const cells = this.row();
        if (cells.length === table.columns.length) return { table: table.name, number, cells };
      } catch (fault) {
        if (!(fault instanceof Unreadable)) throw fault;
      }
    }
    throw new Unreadable();
  }

  keptRows(count) {
    return Array.from({ length: count }, () => this.keptRow());
  }

  answerRows(words) {
    return Array.from({ length: this.count(words) }, () => {
      this.take(/ {2}/y);
      return this.row();
    });
  }
}
