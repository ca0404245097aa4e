'use strict';
// A trace as it comes, piece by piece: its bytes, where lines begin, and a driver that reads it in turns.

// How long the page reads before it lets the browser draw and answer, in milliseconds, and how many lines between two looks.
const TURN = 24, LINES_AT_ONCE = 256;
const NEWLINE = 10;
const BLOCK = 64;                       // the place of one line in so many is kept

// Numbers of one typed array's kind that grow at the end.
class Column {
  constructor(Kind, room = 64) { Object.assign(this, {all: new Kind(room), length: 0}); }
  push(value) {
    if (this.length === this.all.length) this.grow();
    this.all[this.length++] = value;
  }
  grow() {
    const more = new this.all.constructor(2 * this.all.length);
    more.set(this.all);
    this.all = more;
  }
  // Takes away the room behind the last number; answers all of them.
  trim() { return this.all = this.all.slice(0, this.length); }
}

// The lines of a trace, kept as the bytes that came, in pieces of whole lines.
class Lines {
  constructor() {
    // Of one line in BLOCK in which piece it begins, and where there.
    Object.assign(this, {pieces: [], pieceOf: new Column(Uint32Array), startOf: new Column(Uint32Array), rest: new Uint8Array(0), bytes: 0});
    this.letters = new TextDecoder('latin1');
  }
  // Keeps a piece of whole lines.
  keep(bytes) {
    this.pieces.push(bytes);
    this.bytes += bytes.length;
  }
  // The lines that a piece ends, with what was left of the one before.
  whole(piece) {
    let bytes = piece;
    if (this.rest.length) {
      bytes = new Uint8Array(this.rest.length + piece.length);
      bytes.set(this.rest);
      bytes.set(piece, this.rest.length);
    }
    const end = bytes.lastIndexOf(NEWLINE) + 1;
    this.rest = bytes.slice(end);
    return bytes.length - end > end ? bytes.slice(0, end) : bytes.subarray(0, end);
  }
  // The next of the lines whose place is kept begins here, in a piece of this number.
  note(piece, at) {
    this.pieceOf.push(piece);
    this.startOf.push(at);
  }
  // Where a line begins: [the number of its piece, the place in it].
  place(k) {
    const block = Math.floor(k / BLOCK);
    let piece = this.pieceOf.all[block], at = this.startOf.all[block];
    for (let left = k % BLOCK; left; left--) {
      at = this.pieces[piece].indexOf(NEWLINE, at) + 1;
      if (at === this.pieces[piece].length) { piece += 1; at = 0; }
    }
    return [piece, at];
  }
  text(k) {
    const [piece, at] = this.place(k), bytes = this.pieces[piece];
    return this.letters.decode(bytes.subarray(at, bytes.indexOf(NEWLINE, at)));
  }
}

// The pieces of a packed trace, as a page holds it: base64 of zlib's.
async function* unpacked(packed) {
  const bytes = Uint8Array.from(atob(packed.trim()), c => c.charCodeAt(0));
  const reader = new Blob([bytes]).stream().pipeThrough(new DecompressionStream('deflate')).getReader();
  for (let next = await reader.read(); !next.done; next = await reader.read()) yield next.value;
}

// Lets the browser draw and answer. (A timer would wait 4 ms.)
function pause() {
  return new Promise(done => {
    const {port1, port2} = new MessageChannel();
    port1.onmessage = () => { port1.close(); done(); };
    port2.postMessage(0);
  });
}

// Reads the pieces of a trace into a record, in turns; `told` is called between turns. Where `wanted` says no, it stops. What a worker
// reads is kept, and behind it comes what was read; of a run that was ended it is read here.
async function fill(record, pieces, told = () => {}, wanted = () => true) {
  const {lines} = record;
  let begun = performance.now();
  const read = async piece => {
    const bytes = lines.pieces[piece];
    for (let at = 0; at < bytes.length && wanted();) {
      at = record.take(bytes, at, piece, LINES_AT_ONCE);
      if (performance.now() - begun < TURN) continue;
      told(record.count, record.moments.all[record.count]);
      await pause();
      begun = performance.now();
    }
  };
  const add = async bytes => {
    if (!bytes.length) return;
    lines.keep(bytes);
    if (!pieces.reached) await read(lines.pieces.length - 1);
  };
  for await (const piece of pieces) {
    await add(pieces.reached ? piece : lines.whole(piece));
    if (pieces.reached) { told(...pieces.reached); [record.count] = pieces.reached; }
    if (!wanted()) return;
  }
  if (pieces.reached) {
    const ended = await pieces.ended;
    if (ended.why === 'long') return;
    if (ended.read) { record.adopt(ended.read); return; }
    record.count = 0;
    for (let k = 0; k < lines.pieces.length; k++) await read(k);
  } else if (lines.rest.length) await add(lines.whole(Uint8Array.of(NEWLINE)));
  if (wanted()) record.close();
}
