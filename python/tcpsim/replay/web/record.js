'use strict';
// The run: the trace's lines, and the state after any number of events. A state is one row of numbers, which a line of the trace
// changes; every so many events the row is kept, and from there the lines are read again. Of each packet it is kept when it entered a
// queue and when it was sent, of curves where they change. Bytes of the trace come piece by piece, in a page or in a worker; `close`
// is called behind the last.

const SNAPSHOT = 1024, DATA = 0, ACK = 1, HEADER_BYTES = 40, LONGER = 2e8;
const OFFERED = 0, ENTERED = 1, TAKEN = 2, SENT = 3, ARRIVED = 4, BUSY = 5, OF_LINK = 6;
const UNA = 0, NXT = 1, HIGH = 2, CWND = 3, SSTHRESH = 4, RECOVERY = 5, DUPS = 6, NEXT = 7, HIGHEST = 8, WAITS = 9, OF_FLOW = 10;
const DRAWN = [CWND, SSTHRESH, RECOVERY];       // what of a flow has a curve
const FREE = 0, START = 1, RTO = 2, DELACK = 3, CAME_DATA = 4, CAME_ACK = 5, WIDTHS = [5, 6, 4, 7, 5, 4];      // with the space behind
const ROUTER = 0, RECEIVER = 1, SENDER = 2, PHASE = 8;  // of nodes; letters of `phase=ss`
const SHORTEST_STATE = 30;              // letters of a sender's state before its phase
const SPACE = 32, ZERO = 48, NINE = 57, COLON = 58;
const [LETTER_A, LETTER_C, LETTER_D, LETTER_E, LETTER_F, LETTER_P, LETTER_R, LETTER_S] = [...'acdefprs'].map(it => it.charCodeAt(0));

// How long a link of this rate sends so many bytes, in ns, rounded up: without BigInt where doubles are exact.
function timeOnLink(size, rate) {
  const bits = size * 8e9;
  if (bits + rate < Number.MAX_SAFE_INTEGER) return Math.floor((bits + rate - 1) / rate);
  return Number((BigInt(size) * 8000000000n + BigInt(rate) - 1n) / BigInt(rate));
}

// Packets that entered a link's queue, one entry each, in order, and which of them were sent: `sent` is null while all were. When that was
// is kept as the number of the event; of those from before the record as the moment. A packet's number is kept in segments.
class Track {
  constructor(link, flows, base) {
    Object.assign(this, {link, base, sentBefore: base.arrived, many: 0, gone: 0, times: null, sent: null});
    this.mss = flows.map(({mss}) => mss);
    Object.assign(this, {flow: new Uint8Array(16), sort: new Uint8Array(16), again: new Uint8Array(16), segment: new Uint32Array(16),
      enteredAt: new Uint32Array(16), begunAt: new Uint32Array(16)});
    for (const [flow, sort, number, , , again] of base.under_way) { this.enter(flow, sort, number, again, 0); this.send(this.many - 1, 0); }
    for (const [flow, sort, number, , again] of base.waiting) this.enter(flow, sort, number, again, 0);
  }
  enter(flow, sort, number, again, at) {
    const k = this.many;
    if (k === this.flow.length) this.resize(['flow', 'sort', 'again', 'segment', 'enteredAt'], 2 * k);
    this.flow[k] = flow; this.sort[k] = sort; this.again[k] = again ? 1 : 0; this.segment[k] = number / this.mss[flow]; this.enteredAt[k] = at;
    this.many = k + 1;
  }
  send(entry, at) {
    const k = this.gone;
    if (k === this.begunAt.length) this.resize(['sent', 'begunAt'], 2 * k);
    if (entry !== k && !this.sent) this.sent = this.begunAt.map((_, one) => one);
    if (this.sent) this.sent[k] = entry;
    this.begunAt[k] = at; this.gone = k + 1;
  }
  resize(names, length) {
    for (const name of names.filter(one => this[one])) {
      const more = new this[name].constructor(length);
      more.set(this[name].length > length ? this[name].subarray(0, length) : this[name]);
      this[name] = more;
    }
  }
  // Takes away the room behind the last.
  trim() {
    this.resize(['flow', 'sort', 'again', 'segment', 'enteredAt'], this.many);
    this.resize(['sent', 'begunAt'], this.gone);
  }
  entryOf(k) { return this.sent ? this.sent[k] : k; }
  number(entry) { return this.segment[entry] * this.mss[this.flow[entry]]; }
  size(entry) { return HEADER_BYTES + (this.sort[entry] === DATA ? this.mss[this.flow[entry]] : 0); }
  entered(entry) {
    const {under_way: first, waiting} = this.base;
    return entry < first.length ? first[entry][6] : entry < first.length + waiting.length ? waiting[entry - first.length][3] :
      this.times[this.enteredAt[entry]];
  }
  begun(k) { return k < this.base.under_way.length ? this.base.under_way[k][3] : this.times[this.begunAt[k]]; }
  arrives(k) {
    const {under_way: first} = this.base;
    return k < first.length ? first[k][4] : this.begun(k) + timeOnLink(this.size(this.entryOf(k)), this.link.rate) + this.link.delay;
  }
}

// Where a number changed, by the number of the event, and to what.
class Curve {
  constructor(value, Kind = Uint32Array) {
    Object.assign(this, {at: new Column(Uint32Array), values: new Column(Kind)});
    this.push(0, value);
  }
  push(at, value) { this.at.push(at); this.values.push(value); }
  get last() { return this.values.all[this.values.length - 1]; }
}

// A sender's timer: by which event it was set (RFC 6298 section 5), and how often it was doubled since a round trip was measured. Its
// `trips` are those of each segment that was sent once and is acknowledged by its own number, as of traces/reader.py.
class SenderTimer {
  constructor(mss) {
    Object.assign(this, {mss, runs: false, set: 0, partial: false, timed: null, unmeasured: false, doubled: 0});
    Object.assign(this, {once: new Map(), trips: new Column(Float64Array)});      // `once`: when a segment was sent, by the number that acknowledges it
  }
  // Takes a sender's line: `una` and `recovery` after it, the state before it, and so many segments that it sends. Where the timer ended it
  // answers by which event it was set, 0 where that is before the record, and how often it had been doubled.
  take(event, time, kind, una, recovery, row, base, numbers, many) {
    const partial = recovery && row[base + RECOVERY];
    let ended = null;
    if (una > row[base + UNA]) {
      if (this.once.has(una)) this.trips.push(time - this.once.get(una));
      for (const end of this.once.keys()) { if (end > una) break; this.once.delete(end); }
      if (this.timed !== null && una >= this.timed) { this.timed = null; this.unmeasured = false; }
      // Of a recovery's partial acknowledgements the first sets it (RFC 6582 section 3.2 step 3).
      if (!(partial && this.partial)) this.runs = una < row[base + NXT] && this.begin(event);
      this.partial = Boolean(partial);
    } else if (kind === RTO) {
      this.doubled = this.unmeasured ? this.doubled + 1 : 0;
      ended = {set: this.set, doubled: this.doubled};
      Object.assign(this, {unmeasured: true, partial: false, timed: null});
      this.begin(event);
    } else if (recovery && !row[base + RECOVERY]) this.partial = false;
    let high = row[base + HIGH];
    for (let k = 0; k < many; k++) {
      const number = numbers[k];
      if (number < high) { this.timed = null; this.once.clear(); }
      else { high = number + this.mss; this.once.set(high, time); if (this.timed === null) this.timed = high; }
      if (!this.runs) this.begin(event);
    }
    return ended;
  }
  begin(event) { this.set = event; this.runs = true; return true; }
}

class Record {
  constructor(facts) {
    this.facts = facts; this.lines = new Lines();
    this.first = facts.first; this.count = 0; this.at = this.first;
    this.L = facts.links.length; this.F = facts.flows.length;
    this.row = new Float64Array(this.L * OF_LINK + facts.flows.length * OF_FLOW);
    this.every = Math.max(SNAPSHOT, 2 * this.row.length);
    this.tracks = facts.links.map((link, l) => new Track(link, facts.flows, facts.base.links[l]));
    this.moments = new Column(Float64Array);
    this.hops = new Int32Array(2 * facts.nodes.length * facts.flows.length);
    facts.ways.forEach((ways, flow) => ways.forEach((way, sort) => way.forEach(link => {
      this.hops[this.hopKey(facts.links[link].from, flow, sort)] = link;
    })));
    this.endOf = facts.nodes.map(() => -1);
    facts.flows.forEach((flow, f) => { this.endOf[flow.sender] = f; this.endOf[flow.receiver] = f; });
    this.roles = Uint8Array.from(facts.nodes, ({kind}) => ['router', 'receiver', 'sender'].indexOf(kind));
    this.own = Uint8Array.from(facts.links, ({own}) => own ? 1 : 0);
    // Of packets that were dropped: the event, and what `drops` has besides.
    this.dropped = {at: new Column(Uint32Array), link: new Column(Uint16Array), flow: new Column(Uint8Array), sort: new Column(Uint8Array),
      again: new Column(Uint8Array), number: new Column(Float64Array), reason: new Column(Uint8Array)};
    this.reasons = ['lost', 'full', 'codel'];
    this.timeouts = [];       // event numbers
    // Of each timeout {set, doubled, since}, the last the event since which una did not rise; of each answer that was delayed its event and that of the segment that made it wait. Numbers of
    // events here are 0 where that is before the record.
    this.timers = facts.flows.map(({mss}) => new SenderTimer(mss));
    this.timerEnds = [];
    this.delayed = {at: new Column(Uint32Array), since: new Column(Uint32Array)};
    this.waitsSince = facts.flows.map(() => 0);
    this.sends = [];          // what a sender sends by the present line
    this.stalls = [];
    this.opening();
  }
  get last() { return this.first + this.count; }
  hopKey(node, flow, sort) { return (node * this.F + flow) * 2 + sort; }
  ofLink(link, what) { return link * OF_LINK + what; }
  ofFlow(flow, what) { return this.L * OF_LINK + flow * OF_FLOW + what; }

  // The state before the first line.
  opening() {
    const {base, flows} = this.facts, {row} = this;
    this.moments.push(base.time);
    base.links.forEach((link, l) => {
      row[this.ofLink(l, OFFERED)] = link.offered;
      row[this.ofLink(l, ENTERED)] = this.tracks[l].many;
      row[this.ofLink(l, TAKEN)] = link.under_way.length;
      row[this.ofLink(l, SENT)] = link.sent;
      row[this.ofLink(l, ARRIVED)] = link.arrived;
      row[this.ofLink(l, BUSY)] = link.busy ? 1 : 0;
    });
    base.flows.forEach((flow, f) => row.set([flow.una, flow.nxt, flow.high, flow.cwnd, flow.ssthresh, flow.recovering ? 1 : 0, flow.dups,
      flow.next, Math.max(-1, ...flow.above), flow.answer_waits ? 1 : 0], this.ofFlow(f, 0)));
    this.snapshots = new Column(Float64Array, 4 * row.length);
    this.keepRow();
    this.curves = flows.map((_, f) => DRAWN.map(what => new Curve(row[this.ofFlow(f, what)])));
    this.queues = base.links.map((link, l) => new Curve(link.waiting.length, this.facts.links[l].limit < 65536 ? Uint16Array : Uint32Array));
    this.longest = base.links.map(link => link.waiting.length);
    // Since when each flow's una did not rise: the event, 0 where that is before the record, and the moment.
    this.movedAt = flows.map(() => 0); this.moved = flows.map(() => 0);
  }
  keepRow() {
    const {snapshots, row} = this;
    while (snapshots.all.length < snapshots.length + row.length) snapshots.grow();
    snapshots.all.set(row, snapshots.length);
    snapshots.length += row.length;
    this.keptAt = this.count + this.every;
    this.digits = String(this.first + this.count).length;     // of the number of each line from here on, at least
  }

  // ---- the lines, as bytes

  // Reads so many lines of a piece from here on, at most; answers where the next one begins. `end N` says that the trace is whole.
  take(bytes, at, piece, most = Infinity) {
    for (let left = most; left && at < bytes.length; left--) {
      if (bytes[at] === LETTER_E) { this.facts.whole = true; return bytes.length; }
      if (this.count % BLOCK === 0) this.lines.note(piece, at);
      at = this.step(bytes, at + this.digits, true);
      this.count += 1;
      if (this.count === this.keptAt) this.keepRow();
    }
    return at;
  }
  // One line: changes the row, and keeps what is kept of an event if that is wanted. Answers where the next line begins.
  step(bytes, at, keep) {
    let time = 0, node = 0, source = 0, byte = 0;
    while (bytes[at] !== SPACE) at += 1;        // its number
    while ((byte = bytes[++at]) !== SPACE) time = 10 * time + byte - ZERO;
    while ((byte = bytes[++at]) !== SPACE) node = 10 * node + byte - ZERO;
    while ((byte = bytes[++at]) !== SPACE) source = 10 * source + byte - ZERO;
    while (bytes[++at] !== SPACE);              // which alarm or packet it is
    this.bytes = bytes; this.cursor = at + 1; this.parsed = -1; this.keep = keep;
    this.now = this.count + 1;
    if (keep) this.moments.push(time);
    const kind = this.kind(), name = this.next();
    let link;
    if (kind === FREE) {
      link = name;
      this.row[link * OF_LINK + BUSY] = 0;
      this.passState(this.roles[node]);
      this.takeNext(link);
    } else {
      const packet = kind >= CAME_DATA, again = packet && this.arrive(source - 1), number = packet ? this.next() : 0;
      if (this.roles[node] === ROUTER) {
        const sort = kind === CAME_DATA ? DATA : ACK;
        link = this.hops[this.hopKey(node, name, sort)];
        this.offer(link, name, sort, number, again);
      } else link = this.roles[node] === SENDER ? this.sender(name, kind, number, time) : this.receiver(name, kind, number);
    }
    if (keep) this.noteQueue(link);
    return this.over ? this.cursor : bytes.indexOf(NEWLINE, this.cursor) + 1;
  }
  // The number at the cursor, which goes on behind the byte that ends it; `over` where that ends the line.
  next() {
    const {bytes} = this;
    let at = this.cursor, value = 0, byte = bytes[at];
    for (; byte >= ZERO && byte <= NINE; byte = bytes[++at]) value = 10 * value + byte - ZERO;
    this.cursor = at + 1;
    this.over = byte === NEWLINE;
    return value;
  }
  kind() {
    const {bytes, cursor} = this, letter = bytes[cursor], kind = letter === LETTER_F ? FREE : letter === LETTER_A ? CAME_ACK : letter === LETTER_S ? START :
      letter === LETTER_R ? RTO : bytes[cursor + 1] === LETTER_A ? CAME_DATA : DELACK;
    this.cursor += WIDTHS[kind];
    return kind;
  }
  // Goes behind the state of a node: of a sender behind `phase=ss`, the only word with a p.
  passState(role) {
    if (role === ROUTER || this.over) return;
    const {bytes} = this;
    let at = this.cursor;
    if (role === SENDER) { at += SHORTEST_STATE; while (bytes[at] !== LETTER_P) at += 1; at += PHASE; } else while (bytes[at] > SPACE) at += 1;
    this.over = bytes[at] === NEWLINE;
    this.cursor = at + 1;
  }
  // Reads the act at the cursor, without going on: whether it is a drop, and why, and of which packet.
  act() {
    if (this.parsed === this.cursor) return;
    const {bytes} = this;
    let at = this.parsed = this.cursor;
    this.isDrop = bytes[at] === LETTER_D;
    this.why = at += this.isDrop ? 5 : 3;
    while (bytes[at] !== COLON) at += 1;
    this.whyTo = at;
    let value = 0, byte = bytes[++at];
    for (; byte !== COLON; byte = bytes[++at]) value = 10 * value + byte - ZERO;
    this.actFlow = value;
    value = 0; byte = bytes[++at];
    for (; byte >= ZERO && byte <= NINE; byte = bytes[++at]) value = 10 * value + byte - ZERO;
    this.actNumber = value; this.actTo = at + 1; this.actLast = byte === NEWLINE;
  }
  pass() { this.cursor = this.actTo; this.over = this.actLast; }
  isDropOf(flow, number) { return this.isDrop && this.actFlow === flow && this.actNumber === number; }

  // A packet is at its link's end; answers whether it was one sent again.
  arrive(link) {
    const slot = link * OF_LINK + ARRIVED, track = this.tracks[link], entry = track.entryOf(this.row[slot] - track.sentBefore);
    this.row[slot] += 1;
    return track.again[entry];
  }

  // The lines of a sender and of a receiver; both answer the link over which they send.
  sender(f, kind, ack, time) {
    const {row, bytes} = this, flow = this.facts.flows[f], base = this.ofFlow(f, 0), before = row[base + UNA], acked = kind === CAME_ACK;
    this.cursor += 4;
    const una = this.next();
    this.cursor += 4;
    const nxt = this.next();
    this.cursor += 5;
    const cwnd = this.next();
    this.cursor += 9;
    const ssthresh = this.next(), recovery = bytes[this.cursor + 6] === LETTER_F ? 1 : 0;
    this.over = bytes[this.cursor + 8] === NEWLINE;
    this.cursor += 9;
    const sent = row[base + NXT], high = row[base + HIGH], link = this.hops[this.hopKey(flow.sender, f, DATA)];
    const {sends} = this;
    let dups = row[base + DUPS], many = 0;
    if (kind === RTO) {
      dups = 0;
      sends[many++] = una;
    } else if (acked && ack <= before && recovery && !row[base + RECOVERY]) {
      dups += 1;
      sends[many++] = una;
    } else if (acked && ack > before && recovery) {
      sends[many++] = una;
      if (nxt > sent) sends[many++] = sent;
    } else {
      for (let no = Math.max(sent, ack); no < nxt; no += flow.mss) sends[many++] = no;
      if (acked) dups = ack > before ? 0 : ack === before && before < sent ? dups + 1 : dups;
    }
    for (let k = 0; k < many; k++) this.offer(link, f, DATA, sends[k], sends[k] < high);
    if (this.keep) {
      const ended = this.timers[f].take(this.now, time, kind, una, recovery, row, base, sends, many);
      if (ended) { this.timeouts.push(this.first + this.now); this.timerEnds.push({...ended, since: this.movedAt[f]}); }
      const [windows, thresholds, recoveries] = this.curves[f];
      if (una > before || kind === START) this.moves(f, time);
      if (cwnd !== row[base + CWND]) windows.push(this.now, cwnd);
      if (ssthresh !== row[base + SSTHRESH]) thresholds.push(this.now, ssthresh);
      if (recovery !== row[base + RECOVERY]) recoveries.push(this.now, recovery);
    }
    row[base + UNA] = una; row[base + NXT] = nxt; row[base + HIGH] = Math.max(high, nxt); row[base + CWND] = cwnd;
    row[base + SSTHRESH] = ssthresh; row[base + RECOVERY] = recovery; row[base + DUPS] = dups;
    return link;
  }
  receiver(f, kind, number) {
    const {row} = this, flow = this.facts.flows[f], base = this.ofFlow(f, 0), before = row[base + NEXT], data = kind === CAME_DATA;
    const link = this.hops[this.hopKey(flow.receiver, f, ACK)];
    this.cursor += 5;
    const next = row[base + NEXT] = this.next();
    if (data && number === before && row[base + HIGHEST] < before && flow.delack && !row[base + WAITS]) {
      row[base + WAITS] = 1;
      if (this.keep) this.waitsSince[f] = this.now;
      return link;
    }
    if (this.keep && kind === DELACK) { this.delayed.at.push(this.now); this.delayed.since.push(this.waitsSince[f]); }
    if (data && number > row[base + HIGHEST]) row[base + HIGHEST] = number;
    row[base + WAITS] = 0;
    this.offer(link, f, ACK, next, 0);
    return link;
  }

  offer(link, flow, sort, number, again) {
    const {row} = this, base = link * OF_LINK, own = this.own[link];
    row[base + OFFERED] += 1;
    if (!this.over) {
      this.act();
      if (this.isDropOf(flow, number) && (own || this.bytes[this.why] !== LETTER_C)) {
        if (this.keep) this.drop(link, flow, sort, number, again);
        this.pass();
        return;
      }
    }
    if (this.keep) this.tracks[link].enter(flow, sort, number, again, this.now);
    row[base + ENTERED] += 1;
    if (own) this.dropHeads(link);
    if (!row[base + BUSY]) this.takeNext(link);
  }
  // What is dropped at the head of a queue: by CoDel, or by a class of Python's with words of its own.
  dropHeads(link) {
    const {row} = this, base = link * OF_LINK, track = this.tracks[link], own = this.own[link];
    while (!this.over) {
      this.act();
      const entry = row[base + TAKEN];
      if (!this.isDrop || !own && this.bytes[this.why] !== LETTER_C) return;
      if (own && (entry >= row[base + ENTERED] || !this.isDropOf(track.flow[entry], track.number(entry)))) return;
      if (this.keep) this.drop(link, track.flow[entry], track.sort[entry], track.number(entry), track.again[entry]);
      row[base + TAKEN] = entry + 1;
      this.pass();
    }
  }
  takeNext(link) {
    const {row} = this, base = link * OF_LINK;
    this.dropHeads(link);
    if (this.over || row[base + TAKEN] >= row[base + ENTERED]) return;
    if (this.keep) this.tracks[link].send(row[base + TAKEN], this.now);
    row[base + TAKEN] += 1; row[base + SENT] += 1; row[base + BUSY] = 1;
    this.pass();
  }
  drop(link, flow, sort, number, again) {
    const {dropped, reasons} = this, word = String.fromCharCode(...this.bytes.subarray(this.why, this.whyTo));
    let reason = reasons.indexOf(word);
    if (reason < 0) reason = reasons.push(word) - 1;
    dropped.at.push(this.now); dropped.link.push(link); dropped.flow.push(flow); dropped.sort.push(sort);
    dropped.again.push(again); dropped.number.push(number); dropped.reason.push(reason);
  }
  // The length of a queue, where the event changed it.
  noteQueue(l) {
    const queue = this.queues[l], length = this.row[l * OF_LINK + ENTERED] - this.row[l * OF_LINK + TAKEN];
    if (length === queue.last) return;
    queue.push(this.now, length);
    if (length > this.longest[l]) this.longest[l] = length;
  }

  // ---- stalls

  // A start or a new acknowledgement. Spans of a flow without one that are longer than LONGER are stalls, by the rule of stalls.py: from
  // the flow's start or a new acknowledgement to the next one, or to the run's end while bytes are left.
  moves(f, time) {
    this.spanTo(f, time);
    this.movedAt[f] = this.now; this.moved[f] = time;
  }
  spanTo(f, to) {
    const from = this.moved[f], at = this.movedAt[f];
    if (at && to - from > LONGER) this.stalls.push({flow: f, event: this.first + at, from, to});
  }

  // ---- what is kept, whole

  // Behind the last line: what the whole trace says.
  close() {
    const end = this.facts.whole ? this.facts.end : this.moments.all[this.count];
    this.facts.flows.forEach((flow, f) => { if (this.row[this.ofFlow(f, UNA)] < flow.mss * flow.segments) this.spanTo(f, end); });
    this.stalls.sort((a, b) => a.event - b.event);
    for (const column of this.columns()) column.trim();
    for (const track of this.tracks) track.trim();
    this.settle();
  }
  columns() {
    return [this.moments, this.snapshots, this.lines.pieceOf, this.lines.startOf, ...Object.values(this.dropped), ...Object.values(this.delayed),
      ...this.timers.map(({trips}) => trips), ...[...this.curves.flat(), ...this.queues].flatMap(({at, values}) => [at, values])];
  }
  // All of it, as a worker hands it over with its numbers, and as a page takes it.
  handed() {
    const {count, longest, reasons, timeouts, timerEnds, movedAt, stalls, facts: {whole}} = this;
    const columns = this.columns().map(({all}) => all);
    const tracks = this.tracks.map(({flow, sort, again, segment, enteredAt, sent, begunAt, many, gone}) =>
      ({flow, sort, again, segment, enteredAt, sent, begunAt, many, gone}));
    return {count, longest, reasons, timeouts, timerEnds, movedAt, stalls, whole, columns, tracks};
  }
  adopt({columns, tracks, whole, ...rest}) {
    Object.assign(this, rest);
    this.facts.whole = whole;
    this.columns().forEach((column, k) => Object.assign(column, {all: columns[k], length: columns[k].length}));
    this.tracks.forEach((track, l) => Object.assign(track, tracks[l]));
    this.settle();
  }
  // The state before the first line, and moments by the numbers of events.
  settle() {
    this.times = this.moments.all;
    for (const track of this.tracks) track.times = this.times;
    this.at = this.first;
    this.row = this.snapshots.all.slice(0, this.row.length);
  }
  // [{event, time, link, flow, sort, number, reason, again}], made when they are first asked for.
  get drops() {
    if (!this.made) {
      const {at, link, flow, sort, again, number, reason} = this.dropped;
      this.made = Array.from(at.all, (event, k) => ({event: this.first + event, time: this.times[event], link: link.all[k], flow: flow.all[k],
        sort: sort.all[k], number: number.all[k], reason: this.reasons[reason.all[k]], again: again.all[k] === 1}));
    }
    return this.made;
  }

  // How many events, counted from the run's first, lie before a moment: where `until T` stops.
  eventsBefore(time) {
    let low = 0, high = this.count;
    while (low < high) {
      const middle = (low + high) >> 1;
      if (this.times[middle + 1] < time) low = middle + 1; else high = middle;
    }
    return this.first + low;
  }
  timeOf(event) { return this.times[event - this.first]; }
  // The event of a number that is kept; undefined where that is before the record.
  eventAt(k) { return k ? this.first + k : undefined; }
  // By which event the timer was set that ended by this one, and how often it had been doubled.
  timerEnd(event) {
    const {set, doubled} = this.timerEnds[this.timeouts.indexOf(event)];
    return {set: this.eventAt(set), doubled};
  }
  // Which segment made an answer wait that was sent by this event.
  delayedSince(event) {
    const {at, since} = this.delayed, k = event - this.first;
    let low = 0, high = at.length;
    while (low < high) { const middle = (low + high) >> 1; if (at.all[middle] < k) low = middle + 1; else high = middle; }
    return this.eventAt(since.all[low]);
  }
  // The event that offered an entry of a link's track.
  offeredBy(track, entry) { return this.eventAt(track.enteredAt[entry]); }
  line(event) { return this.lines.text(event - this.first - 1); }

  // Makes `row` the state after `event` events.
  go(event) {
    event = Math.min(this.last, Math.max(this.first, Math.round(event)));
    const k = event - this.first, size = this.row.length, snapshot = Math.floor(k / this.every);
    let now = this.at - this.first;
    if (event < this.at || snapshot * this.every > now) {
      this.row.set(this.snapshots.all.subarray(snapshot * size, (snapshot + 1) * size));
      now = snapshot * this.every;
    }
    if (now < k) {
      const {pieces} = this.lines;
      for (let [piece, at] = this.lines.place(now); now < k; now++) {
        if (at === pieces[piece].length) { piece += 1; at = 0; }
        at = this.step(pieces[piece], at, false);
      }
    }
    this.at = event;
  }

  flow(f) {
    const of = what => this.row[this.ofFlow(f, what)];
    return {una: of(UNA), nxt: of(NXT), high: of(HIGH), cwnd: of(CWND), ssthresh: of(SSTHRESH),
      recovery: of(RECOVERY), dups: of(DUPS), next: of(NEXT)};
  }
  link(l) {
    const of = what => this.row[this.ofLink(l, what)], before = this.tracks[l].sentBefore;
    return {offered: of(OFFERED), sent: of(SENT), head: of(TAKEN), tail: of(ENTERED), busy: of(BUSY),
      length: of(ENTERED) - of(TAKEN), firstUnderWay: of(ARRIVED) - before, endUnderWay: of(SENT) - before};
  }
  packet(l, entry) {
    const track = this.tracks[l];
    return {flow: track.flow[entry], sort: track.sort[entry], number: track.number(entry), entered: track.entered(entry),
      again: track.again[entry] === 1};
  }
  // [time, value] where a flow's cwnd, ssthresh or recovery changed, over the whole page; `slot` is of the row.
  curve(slot) {
    const f = Math.floor((slot - this.L * OF_LINK) / OF_FLOW);
    return this.drawn(this.curves[f][DRAWN.indexOf(slot - this.ofFlow(f, 0))]);
  }
  queueCurve(l) { return this.drawn(this.queues[l]); }
  drawn({at: {all: at}, values: {all: values}}) {
    const times = new Float64Array(at.length);
    for (let k = 0; k < at.length; k++) times[k] = this.times[at[k]];
    return {times, values};
  }
}
