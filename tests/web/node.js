"use strict";
// node node.js FRAME: answers the questions on standard input by a page's module, with the page's own script.
// Status 3 where node cannot read the module.

const fs = require("node:fs");
const vm = require("node:vm");
const zlib = require("node:zlib");

vm.runInThisContext(fs.readFileSync(process.argv[2], "utf8"));
const given = JSON.parse(fs.readFileSync(0, "utf8"));

let read;
try {
  read = new WebAssembly.Module(zlib.gunzipSync(Buffer.from(given.module, "base64")));
} catch (fault) {
  console.error(String(fault));
  process.exit(3);
}
const replies = given.questions.map(({ words, files }) => {
  const { status, out, err } = ask(read, words, files.map(([name, data]) => [name, new Uint8Array(Buffer.from(data, "base64"))]), given.limit);
  return [status, Buffer.from(out).toString("base64"), Buffer.from(err).toString("base64")];
});
process.stdout.write(JSON.stringify(replies));
