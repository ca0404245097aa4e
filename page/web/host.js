'use strict';
// The worker's script: runs the program, an instance with a memory of its own for each run. What it asks of a system comes
// through five functions: words, files, input, output and its end. A trace can be read here, where its bytes are: into a record.

const FIRST_PIECE = 1 << 14, PIECE = 1 << 18;       // bytes of output that are sent at once
const FIRST_PAGES = 32;                             // of 64 KiB each, as the module is linked
const INPUT = 0, OUTPUT = 1, NOTE = 2;
const letters = new TextEncoder();

class Ended {
  constructor(status) { this.status = status; }
}
class TooLong {}

// Bytes that are written to a stream, sent in pieces, or in pieces of whole `lines`.
class Stream {
  constructor(send, lines) { Object.assign(this, {send, lines, room: new Uint8Array(FIRST_PIECE), used: 0}); }
  put(bytes) {
    for (let at = 0; at < bytes.length;) {
      const part = bytes.subarray(at, at + this.room.length - this.used);
      this.room.set(part, this.used);
      this.used += part.length;
      at += part.length;
      if (this.used === this.room.length) this.flush(PIECE);
    }
  }
  flush(next = 0) {
    const {room, used} = this, end = this.lines ? room.subarray(0, used).lastIndexOf(NEWLINE) + 1 : used, rest = room.slice(end, used);
    this.room = new Uint8Array(Math.max(next, next && 2 * rest.length));
    this.room.set(next ? rest : []);
    this.used = next ? rest.length : 0;
    if (end) this.send(room.subarray(0, end));
  }
}

// The number of the last whole event in a piece of a trace, 0 where it cannot be read.
function lastEvent(bytes) {
  const end = bytes.lastIndexOf(10), begin = end > 0 ? bytes.lastIndexOf(10, end - 1) + 1 : 0;
  let number = 0;
  for (let k = begin; k < end && bytes[k] >= 48 && bytes[k] <= 57; k++) number = 10 * number + bytes[k] - 48;
  return number;
}

// A run of the program: what it asks of a system, of its words, its standard input, files by name; how many pages of memory it
// may have, how many events of a trace are wanted at most, and whether it is `read`. `send` takes its output, and of a trace that is
// read how far it is: how many events, and the moment of the last.
class Run {
  constructor({words, input, files, pages, most = Infinity, read = false}, send) {
    const args = ['tcpsim', ...words].map(word => letters.encode(word)), names = new TextDecoder(), says = new TextDecoder('latin1');
    Object.assign(this, {pages, note: '', input: {bytes: input, at: 0}, record: null, pieces: 0});
    const opened = [this.input], view = (at, length) => new Uint8Array(this.memory.buffer, Number(at), Number(length));
    this.output = new Stream(bytes => {
      const last = most === Infinity ? 0 : lastEvent(bytes);
      send(bytes, read && this.read(bytes));
      if (last > most) throw new TooLong();
    }, read);
    this.page = {
      arg: (i, at, room) => {
        const word = args[Number(i)];
        if (!word) return -1n;
        if (word.length > room) return -2n;
        view(at, word.length).set(word);
        return BigInt(word.length);
      },
      open: (name, length) => {
        const bytes = files.get(names.decode(view(name, length).slice()));
        return bytes ? NOTE + opened.push({bytes, at: 0}) - 1 : -1;
      },
      read: (file, at, room) => {
        const from = opened[file === INPUT ? 0 : file - NOTE];
        if (!from || file === OUTPUT || file === NOTE) return -1n;
        const part = from.bytes.subarray(from.at, from.at + Number(room));
        view(at, part.length).set(part);
        from.at += part.length;
        return BigInt(part.length);
      },
      write: (file, at, length) => {
        if (file === OUTPUT) this.output.put(view(at, length));
        else if (file === NOTE) this.note += says.decode(view(at, length).slice());
        else return -1n;
        return length;
      },
      exit: status => { throw new Ended(status); },
    };
  }
  // Whole lines of a trace. The scenario was accepted, as there is one.
  read(bytes) {
    const record = this.record = this.record || new Record(factsOf(new TextDecoder().decode(this.input.bytes), ''));
    record.take(bytes, 0, this.pieces++);
    return [record.count, record.moments.all[record.count]];
  }
  instance(module) {
    this.memory = new WebAssembly.Memory({address: 'i64', initial: BigInt(FIRST_PAGES), maximum: BigInt(this.pages)});
    return new WebAssembly.Instance(module, {page: this.page, env: {memory: this.memory}});
  }
  ended(answer) {
    try { this.output.flush(); } catch (thrown) { if (!(thrown instanceof TooLong)) throw thrown; }
    if (this.record) this.record.close();
    return {note: this.note, ...answer, read: this.record && this.record.handed()};
  }
  // What a run came to that was ended by what was thrown: {status, note}; {why} where it did not come to its end.
  endedBy(thrown) {
    if (thrown instanceof Ended) return this.ended({status: thrown.status});
    if (thrown instanceof TooLong) return {why: 'long', note: this.note};
    // The browser gave no memory for the run, or for a piece of its output.
    if (thrown instanceof RangeError && /alloc|memory/i.test(thrown.message)) return {status: 4, note: 'no memory\n'};
    return {why: `the program was stopped: ${thrown.message || thrown}`, note: this.note};
  }
}
function runProgram(module, data, send) {
  const run = new Run(data, send);
  try {
    return run.ended({status: run.instance(module).exports.main()});
  } catch (thrown) {
    return run.endedBy(thrown);
  }
}

// A session that waits: where it has read all its input, `waits` is told, and it goes on once more is given.
let more = null;
async function keepProgram(module, data, send, waits) {
  const run = new Run(data, send), {page} = run, {read} = page;
  page.read = new WebAssembly.Suspending(async (file, at, room) => {
    if (file === INPUT && run.input.at === run.input.bytes.length) {
      run.output.flush(FIRST_PIECE);
      const given = new Promise(done => { more = done; });
      waits(run.note);
      Object.assign(run.input, {bytes: await given, at: 0});
    }
    return read(file, at, room);
  });
  try {
    return run.ended({status: await WebAssembly.promising(run.instance(module).exports.main)()});
  } catch (thrown) {
    return run.endedBy(thrown);
  }
}

let program = null;
onmessage = async ({data}) => {
  if (data.module) { program = data.module; return; }
  if (data.more) { more(data.more); return; }
  const {number} = data, send = (bytes, reached) => postMessage({number, bytes, reached}, [bytes.buffer]);
  const ended = data.keep ? await keepProgram(program, data, send, note => postMessage({number, waits: true, note})) :
    runProgram(program, data, send);
  const read = ended.read ? [...ended.read.columns, ...ended.read.tracks.flatMap(track => Object.values(track).filter(ArrayBuffer.isView))] : [];
  postMessage({number, ended}, read.map(({buffer}) => buffer));
};
