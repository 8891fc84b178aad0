"use strict";
// A question to the module, as ratest.h says: arguments and files are framed as bytes, and the reply too.

const ENCODER = new TextEncoder();

function bytesOf(value) {
  return typeof value === "string" ? ENCODER.encode(value) : value;
}

function numberOf(value) {
  const bytes = new Uint8Array(4);
  new DataView(bytes.buffer).setUint32(0, value, true);
  return bytes;
}

// The bytes of a request: `files` are pairs of a name and its contents, each a text or bytes.
function requestOf(words, files) {
  const fields = [...words, ...files.flat()].map(bytesOf);
  const counts = [words.length, files.length].map(numberOf);
  const parts = [...counts, ...fields.flatMap((field) => [numberOf(field.length), field])];
  const request = new Uint8Array(parts.reduce((size, part) => size + part.length, 0));
  let at = 0;
  for (const part of parts) {
    request.set(part, at);
    at += part.length;
  }
  return request;
}

// What a command ended with: its status, and both texts as bytes.
function replyOf(bytes) {
  const end = 5 + new DataView(bytes.buffer, bytes.byteOffset).getUint32(1, true);
  return { status: bytes[0], out: bytes.slice(5, end), err: bytes.slice(end) };
}

const OUT_OF_MEMORY = 7;
const MALFORMED = -1;
const NO_MEMORY = -2;

// The reply of a new instance of a module to a question, with at most so many bytes of memory.
function ask(module, words, files, limit, room = 1 << 20) {
  const { memory, ...call } = new WebAssembly.Instance(module, {}).exports;
  // Sizes and places are BigInt where the module has them so.
  const sized = typeof call.size() === "bigint" ? BigInt : Number;
  call.limit(sized(limit));
  const request = requestOf(words, files);
  const at = call.room(sized(request.length));
  const to = call.room(sized(room));
  const lacking = { status: OUT_OF_MEMORY, out: new Uint8Array(), err: new Uint8Array() };
  if (!at || !to) return lacking;
  new Uint8Array(memory.buffer).set(request, Number(at));
  const length = Number(call.ask(at, sized(request.length), to, sized(room)));
  if (length === NO_MEMORY) return lacking;
  if (length === MALFORMED) throw new Error("the request is malformed");
  if (length < 0) return ask(module, words, files, limit, -length);
  return replyOf(new Uint8Array(memory.buffer, Number(to), length).slice());
}
