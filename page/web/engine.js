'use strict';
// The program in this page: compiled once, run in workers, each run by its own instance. A run can be ended at any time.

const HAS_MEMORY64 = Uint8Array.of(0, 97, 115, 109, 1, 0, 0, 0, 5, 3, 1, 4, 1);     // a module with a 64-bit memory
const MOST_PAGES = 65536;               // 4 GiB
const MUCH = 1e5;                       // events
const MOST_IDLE = 2 + Math.max(1, Math.min(8, navigator.hardwareConcurrency || 2));     // workers that wait for a run
const NO_MEMORY64 = 'This browser runs no program with 64-bit memory, as Chromium does from version 133 on and Firefox from ' +
  'version 134 on; the runs of the examples can be seen all the same.';

function hasMemory64() {
  try {
    return WebAssembly.validate(HAS_MEMORY64) && new WebAssembly.Memory({address: 'i64', initial: 1n, maximum: 1n}) !== null;
  } catch { return false; }
}
// Whether a program can wait for its input, in a worker, while others run.
const canKeep = () => 'Suspending' in WebAssembly && 'promising' in WebAssembly;
async function bytesOf(packed) {
  const parts = [];
  for await (const part of unpacked(packed)) parts.push(part);
  return joined(parts);
}
async function textOf(packed) { return new TextDecoder().decode(await bytesOf(packed)); }
// Pieces of output as one. (A Blob of them would go by way of the browser's own process.)
function joined(parts) {
  const all = new Uint8Array(parts.reduce((sum, {length}) => sum + length, 0));
  parts.reduce((at, part) => { all.set(part, at); return at + part.length; }, 0);
  return all;
}
const toBytes = text => new TextEncoder().encode(text);

// Pieces of output as they come: an async iterable. `begun` gives whether there is one. `close` says how the run ended, which `ended`
// gives once all pieces were taken; a run whose pieces are cut has ended so, whatever the program said. Of a trace that the worker
// reads `reached` says how far it is: how many events, and the moment of the last.
class Pieces {
  constructor(read) {
    Object.assign(this, {waiting: [], closed: null, wake: () => {}, reached: read ? [0, 0] : null});
    this.ended = new Promise(done => { this.tell = done; });
    this.begun = new Promise(done => { this.begin = done; });
  }
  push(bytes, reached) {
    if (reached) this.reached = reached;
    this.waiting.push(bytes);
    this.begin(true);
    this.wake();
  }
  close(answer) {
    this.closed = answer;
    this.begin(false);
    if (!this.waiting.length) this.tell(answer);
    this.wake();
  }
  cut(answer) {
    if (this.closed && !this.waiting.length) return;        // all was taken
    this.waiting = [];
    this.close(answer);
  }
  async* [Symbol.asyncIterator]() {
    for (;;) {
      while (this.waiting.length) yield this.waiting.shift();
      if (this.closed) { this.tell(this.closed); return; }
      await new Promise(done => { this.wake = done; });
    }
  }
}

class Engine {
  // Compiles the program of the page; `script` is the worker's.
  static async of(packed, script) {
    const engine = new Engine();
    engine.place = URL.createObjectURL(new Blob([script], {type: 'text/javascript'}));
    engine.idle = [engine.worker(), engine.worker()];
    engine.module = await WebAssembly.compile(await bytesOf(packed));
    for (const worker of engine.idle) worker.postMessage({module: engine.module});
    engine.count = 0;
    return engine;
  }
  worker() { return new Worker(this.place); }
  take() {
    const idle = this.idle.pop();
    if (idle) return idle;
    const made = this.worker();
    made.postMessage({module: this.module});
    return made;
  }

  // Starts a run: {pieces, ended, stop}. Behind its last piece `ended` gives {status, note}, or {why} where it did not come to its
  // end: 'long' where it has more than `most` events, 'ended' where `stop` came before all pieces were taken, else a sentence. A trace is
  // `read` by the worker: its pieces are of whole lines, and `ended` has what a record takes.
  start(words, input, {files = new Map(), pages = MOST_PAGES, most = Infinity, read = false} = {}) {
    const worker = this.take(), number = this.count++, pieces = new Pieces(read);
    const leave = (answer, keep) => {
      if (pieces.closed) return;          // its worker may be at another run already
      worker.onmessage = worker.onerror = null;
      if (keep && this.idle.length < MOST_IDLE) this.idle.push(worker); else worker.terminate();
      pieces.close(answer);
    };
    worker.onmessage = ({data}) => {
      if (data.number !== number) return;
      // A worker that has read much is ended, and with it what it held.
      if (data.bytes) pieces.push(data.bytes, data.reached); else leave(data.ended, !data.ended.read || data.ended.read.count < MUCH);
    };
    worker.onerror = wrong => { wrong.preventDefault(); leave({why: `the program was stopped: ${wrong.message}`}, false); };
    worker.postMessage({number, words, input, files, pages, most, read});
    return {pieces, ended: pieces.ended, stop: () => { leave({why: 'ended'}, false); pieces.cut({why: 'ended'}); }};
  }

  // Keeps a session in a worker of its own, which waits for lines: {give, stop}. `give` takes bytes of input, and answers what the
  // program wrote behind them, {bytes, note}, with {ended} where it came to its end. The note is all that was noted so far.
  keep(words, {files = new Map(), pages = MOST_PAGES} = {}) {
    const worker = this.take(), number = this.count++;
    let parts = [], told = null, begun = false, over = null;
    const answer = more => told({bytes: joined(parts.splice(0)), ...more});
    const leave = ended => { over = ended; worker.terminate(); if (told) answer({note: ended.note || '', ended}); };
    worker.onmessage = ({data}) => {
      if (data.number !== number) return;
      if (data.bytes) parts.push(data.bytes); else if (data.waits) answer({note: data.note}); else leave(data.ended);
    };
    worker.onerror = wrong => { wrong.preventDefault(); leave({why: `the program was stopped: ${wrong.message}`}); };
    return {
      give: input => new Promise(done => {
        told = done;
        if (over) answer({note: over.note || '', ended: over});
        else if (begun) worker.postMessage({more: input});
        else { begun = true; worker.postMessage({number, keep: true, words, input, files, pages}); }
      }),
      stop: () => leave({why: 'ended'}),
    };
  }

  // Runs to the end: {status, note, bytes}.
  async run(words, input, options) {
    const {pieces, ended} = this.start(words, input, options), parts = [];
    for await (const piece of pieces) parts.push(piece);
    return {...await ended, bytes: joined(parts)};
  }
}
