"use strict";
// A worker: it is given the module's bytes first, and answers each question by a new instance.

let module = null;

self.onmessage = ({ data }) => {
  try {
    if (data.module) module = new WebAssembly.Module(data.module);
    else self.postMessage(ask(module, data.words, data.files, data.limit));
  } catch (fault) {
    self.postMessage({ fault: String(fault) });
  }
};
