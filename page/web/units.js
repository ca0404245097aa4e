'use strict';
// Rates, times, sizes and queues as tcpsim-net takes them: 10M, 5ms, droptail:50, codel:5ms:100ms. A reader answers a number
// in the scenario's own unit, and throws Wrong with the sentence of python/tcpsim/scenario/units.py.

class Wrong extends Error {}

const HEADERS = 40, OPEN_WINDOW = 2 ** 30, BITS_NS = 8000000000n, CODEL_LIMIT = 1000;
const RATE_UNITS = {'': 1, k: 1e3, M: 1e6, G: 1e9}, TIME_UNITS = {ns: 1, us: 1e3, ms: 1e6, s: 1e9};
const RATE_WORDS = Object.fromEntries(Object.entries(RATE_UNITS).flatMap(([unit, scale]) => ['', 'bit', 'bit/s'].map(bits => [unit + bits, scale])));

// ---- numbers

function amountOf(word, units, what, example) {
  const found = /^([0-9]{1,20})(?:\.([0-9]{1,20}))?([A-Za-z/]*)$/.exec(word);
  if (!found || !(found[3] in units)) throw new Wrong(`'${word}' is no ${what}: write a number and a unit, as ${example}`);
  const digits = found[2] || '', times = BigInt(found[1] + digits) * BigInt(units[found[3]]), parts = 10n ** BigInt(digits.length);
  if (times % parts) throw new Wrong(`'${word}' is no ${what}: it is finer than the smallest unit`);
  return Number(times / parts);
}
function timeOf(word) {
  if (word === '0') return 0;
  if (/^[0-9]{1,20}(\.[0-9]{1,20})?$/.test(word))
    throw new Wrong(`'${word}' is no time, as it has no unit: write ${word}s, ${word}ms, ${word}us or ${word}ns`);
  return amountOf(word, TIME_UNITS, 'time', '20ms (units ns, us, ms, s)');
}
function countOf(word) {
  if (!/^[0-9]{1,20}$/.test(word)) throw new Wrong(`'${word}' is no whole number`);
  return Number(word);
}
const rateOf = word => amountOf(word, RATE_WORDS, 'rate', '10M (units k, M, G of bit/s)');
const sizeOf = word => amountOf(word, RATE_UNITS, 'size', '64k (bytes; units k, M, G)');
const READERS = {end: timeOf, rate: rateOf, delay: timeOf, capacity: countOf, target: timeOf, interval: timeOf, maxpacket: sizeOf,
  segments: countOf, start: timeOf, mss: sizeOf, rwnd: sizeOf, delack: timeOf};

// ---- as words again

function spelled(value, units) {
  const [unit, scale] = Object.entries(units).filter(([, scale]) => scale <= Math.max(value, 1)).pop();
  const digits = String(scale + value % scale).slice(1).replace(/0+$/, '');
  return `${Math.floor(value / scale)}${digits && `.${digits}`}${unit}`;
}
const spelledRate = bits => spelled(bits, RATE_UNITS), spelledTime = ns => ns ? spelled(ns, TIME_UNITS) : '0';
const SPELLERS = new Map([[rateOf, spelledRate], [timeOf, spelledTime]]);
const spell = (name, value) => (SPELLERS.get(READERS[name]) || number)(value);

// The value, where the program's range of `name` has it. `ranges` is RANGES of units.py.
function within(ranges, name, value, shown) {
  const [least, greatest] = ranges[name];
  if (value >= least && value <= greatest) return value;
  throw new Wrong(`${shown || spell(name, value)} is out of range: ${name} is from ${spell(name, least)} to ${spell(name, greatest)}`);
}
const numberOf = (ranges, name, word) => within(ranges, name, READERS[name](word), `'${word}'`);

// ---- queues

// A queue's capacity as so many bandwidth-delay products of its link, or by the root of how many flows send over it.
const PRODUCTS = /^(?:([0-9]{1,6})(?:\.([0-9]{1,6}))?)?BDP(\/sqrt\(n\))?$/;
class Products {
  constructor(whole, digits, root) { Object.assign(this, {times: BigInt(whole + digits), parts: 10n ** BigInt(digits.length), root}); }
  static of(word) {
    const found = PRODUCTS.exec(word);
    return found && new Products(found[1] || '1', found[2] || '', Boolean(found[3]));
  }
  toString() { return `${this.times === this.parts ? '' : +(Number(this.times) / Number(this.parts)).toPrecision(6)}BDP${this.root ? '/sqrt(n)' : ''}`; }
  // The whole packets that this is, at least one, of a rate in bit/s, a round trip in ns, bytes of a packet, and how many flows.
  packets(rate, trip, packet, flows) {
    const held = this.times * BigInt(rate) * BigInt(trip), part = this.parts * BigInt(packet) * BITS_NS;
    return Number(this.root ? rootOf(held * held / (part * part * BigInt(Math.max(1, flows)))) : held / part) || 1;
  }
}
// The whole square root.
function rootOf(square) {
  let root = BigInt(Math.floor(Math.sqrt(Number(square))));
  while (root * root > square) root -= 1n;
  while ((root + 1n) * (root + 1n) <= square) root += 1n;
  return root;
}

// A link's queue. The capacity can be Products, CoDel's maxpacket is null where it is to be the greatest packet.
class Queue {
  constructor(kind, capacity, target = 0, interval = 0, maxpacket = null) { Object.assign(this, {kind, capacity, target, interval, maxpacket}); }
  get isProduct() { return this.capacity instanceof Products; }
  toString() {
    if (this.kind === 'droptail') return `droptail:${this.capacity}`;
    const times = `codel:${spelledTime(this.target)}:${spelledTime(this.interval)}`;
    if (this.maxpacket !== null) return `${times}:${this.capacity}:${this.maxpacket}`;
    return this.capacity === CODEL_LIMIT ? times : `${times}:${this.capacity}`;
  }
  // The words of a link's statement from the kind on, of the greatest packet in bytes and the product in packets.
  words(packet, product) {
    const capacity = this.isProduct ? product : this.capacity;
    if (this.kind === 'droptail') return `droptail ${capacity}`;
    return `codel ${capacity} ${this.target} ${this.interval} ${this.maxpacket === null ? packet : this.maxpacket}`;
  }
}
function queueOf(ranges, word) {
  const [kind, ...rest] = word.split(':');
  const limit = packets => {
    if (!/^[0-9]{1,20}$/.test(packets)) throw new Wrong(`'${word}' is no queue: '${packets}' is no number of packets`);
    return Number(packets);
  };
  let read = null;
  if (kind === 'droptail' && rest.length === 1) read = new Queue(kind, Products.of(rest[0]) || limit(rest[0]));
  else if (kind === 'codel' && rest.length >= 2 && rest.length <= 4)
    read = new Queue(kind, rest.length > 2 ? limit(rest[2]) : CODEL_LIMIT, timeOf(rest[0]), timeOf(rest[1]), rest.length > 3 ? sizeOf(rest[3]) : null);
  else throw new Wrong(`'${word}' is no queue: write droptail:N, droptail:BDP or codel:TARGET:INTERVAL[:LIMIT[:MAXPACKET]]`);
  if (!read.isProduct) within(ranges, 'capacity', read.capacity);
  if (kind === 'codel') {
    within(ranges, 'target', read.target);
    within(ranges, 'interval', read.interval);
    if (read.maxpacket !== null) within(ranges, 'maxpacket', read.maxpacket);
  }
  return read;
}
