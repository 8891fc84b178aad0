"use strict";
// The tables and columns of a schema, in the words that ratest reads. Only names and kinds are read here;
// whether the text is a schema at all says ratest, which is asked first.

// White space and comments, a word, a quoted name, a text, or a letter.
const TOKEN = new RegExp([
  /(?:[ \t\r\n\f]|--[^\n]*|\/\*[^]*?\*\/)+/, /([A-Za-z_][A-Za-z0-9_]*)/, /("[^"]*(?:""[^"]*)*")/, /('[^']*(?:''[^']*)*')/, /([^])/,
].map((part) => part.source).join("|"), "gu");
const KINDS = { integer: "INTEGER", int: "INTEGER", bigint: "INTEGER" };
const RULES = ["constraint", "primary", "unique", "foreign", "check", "dependency"];

function tokensOf(text) {
  const tokens = [];
  for (const [, word, quoted, literal, other] of text.replace(/^\ufeff/, "").matchAll(TOKEN)) {
    if (word !== undefined) tokens.push({ kind: "word", text: word.toLowerCase() });
    else if (quoted !== undefined) tokens.push({ kind: "quoted", text: quoted.slice(1, -1).replaceAll('""', '"') });
    else if (literal !== undefined) tokens.push({ kind: "text", text: literal });
    else if (other !== undefined) tokens.push({ kind: "other", text: other });
  }
  return tokens;
}

function isWord(token, text) {
  return token !== undefined && token.kind === "word" && token.text === text;
}

// The tables in the schema's order, each with its name and columns.
function tablesOf(text) {
  const tokens = tokensOf(text);
  const tables = [];
  let at = 0;
  while (at < tokens.length) {
    if (!isWord(tokens[at++], "table")) continue;
    if (["if", "not", "exists"].every((word, step) => isWord(tokens[at + step], word))) at += 3;
    const name = tokens[at];
    if (name === undefined) break;
    const columns = columnsOf(tokens, at + 1);
    tables.push({ name: name.text, columns: columns.found });
    at = columns.end;
  }
  return tables;
}

// The columns between the parenthesis at a place and its end, and the place behind it.
function columnsOf(tokens, start) {
  const found = [];
  let depth = 0;
  let begins = false;
  for (let at = start; at < tokens.length; at++) {
    const token = tokens[at];
    const sign = token.kind === "other" ? token.text : "";
    if (begins && !(token.kind === "word" && RULES.includes(token.text)) && at + 1 < tokens.length) {
      found.push({ name: token.text, kind: KINDS[tokens[at + 1].text] ?? "TEXT" });
    }
    depth += (sign === "(") - (sign === ")");
    begins = depth === 1 && (sign === "(" || sign === ",");
    if (depth === 0) return { found, end: at + 1 };
  }
  return { found, end: tokens.length };
}
