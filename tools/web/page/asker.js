"use strict";
// Asks questions of a worker, one at a time, and stops it.

async function unpacked(text) {
  const packed = Uint8Array.from(atob(text), (letter) => letter.charCodeAt(0));
  const stream = new Blob([packed]).stream().pipeThrough(new DecompressionStream("gzip"));
  return new Uint8Array(await new Response(stream).arrayBuffer());
}

class Asker {
  // `source` is the worker's text, and `packed` the module, by gzip and base64.
  constructor(source, packed) {
    this.place = URL.createObjectURL(new Blob([source], { type: "text/javascript" }));
    this.module = unpacked(packed);
    this.worker = null;
    this.end = null;
  }

  // The reply to a question; null where it was stopped.
  async ask(words, files, limit) {
    const module = await this.module;
    if (!this.worker) {
      this.worker = new Worker(this.place);
      this.worker.postMessage({ module });
    }
    return new Promise((resolve, reject) => {
      this.end = resolve;
      this.worker.onmessage = ({ data }) => {
        this.end = null;
        if (data.fault === undefined) {
          resolve(data);
        } else {
          this.stop();
          reject(new Error(data.fault));
        }
      };
      this.worker.onerror = (event) => {
        this.stop();
        reject(new Error(event.message || "the worker cannot be started"));
      };
      this.worker.postMessage({ words, files, limit });
    });
  }

  stop() {
    if (this.worker) this.worker.terminate();
    this.worker = null;
    if (this.end) this.end(null);
    this.end = null;
  }
}
