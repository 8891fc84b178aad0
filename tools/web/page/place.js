"use strict";
// Where in a text the fault is that ratest names by a byte.

const WORD = /[\p{L}\p{N}\p{M}_]+/uy;

function bytesOfLetter(letter) {
  const code = letter.codePointAt(0);
  return code < 0x80 ? 1 : code < 0x800 ? 2 : code < 0x10000 ? 3 : 4;
}

// The place of a byte of a text, counted from 0 in its UTF-8: a word, a letter, or the end.
function placeOf(text, byte) {
  let from = 0;
  let size = 0;
  for (const letter of text) {
    size += bytesOfLetter(letter);
    if (size > byte) break;
    from += letter.length;
  }
  WORD.lastIndex = from;
  const marked = WORD.exec(text)?.[0] ?? [...text.slice(from, from + 2)][0] ?? "";
  const before = text.slice(0, from);
  const line = before.split("\n");
  return { from, to: from + marked.length, line: line.length, column: [...line.at(-1)].length + 1, before, marked };
}
