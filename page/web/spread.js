'use strict';
// Replicates of a scenario, as `tcpsim-net --spread NUMBER` writes them: flows differ by small amounts that are drawn from a number.
// The rules are those of python/tcpsim/scenario/senders.py.

const PART_OF_TRIP = 20, PART_OF_SEGMENT = 10, MOUSE = [25, 125];       // a cable is longer, a segment shorter by up to these parts; bytes of a mouse's segments
const LATEST_MOUSE = 1e9;               // ns

// The first eight bytes of the SHA-256 of a text (FIPS 180-4), as a number. The browser's own would answer later, and on a page from a disk or a plain server not at all.
const SHA = (() => {
  const primes = [], fraction = (prime, root) => prime ** (1 / root) * 2 ** 32 | 0;
  for (let n = 2; primes.length < 64; n++) if (primes.every(prime => n % prime)) primes.push(n);
  return {first: primes.slice(0, 8).map(prime => fraction(prime, 2)), each: primes.map(prime => fraction(prime, 3))};
})();
function beginOfSum(text) {
  const bytes = toBytes(text), {length} = bytes, words = new Int32Array(16 * Math.ceil((length + 9) / 64)), sum = Int32Array.from(SHA.first), w = new Int32Array(64);
  const turned = (x, ...by) => by.reduce((all, one) => all ^ (x >>> one | x << 32 - one), 0);
  bytes.forEach((byte, k) => { words[k >> 2] |= byte << 24 - 8 * (k & 3); });
  words[length >> 2] |= 0x80 << 24 - 8 * (length & 3);
  words[words.length - 1] = 8 * length;
  for (let block = 0; block < words.length; block += 16) {
    for (let k = 0; k < 64; k++)
      w[k] = k < 16 ? words[block + k] : w[k - 16] + w[k - 7] + (turned(w[k - 15], 7, 18) ^ w[k - 15] >>> 3) + (turned(w[k - 2], 17, 19) ^ w[k - 2] >>> 10);
    let [a, b, c, d, e, f, g, h] = sum;
    for (let k = 0; k < 64; k++) {
      const one = h + turned(e, 6, 11, 25) + (e & f ^ ~e & g) + SHA.each[k] + w[k] | 0, two = turned(a, 2, 13, 22) + (a & b ^ a & c ^ b & c);
      [h, g, f, e, d, c, b, a] = [g, f, e, d + one | 0, c, b, a, one + two | 0];
    }
    [a, b, c, d, e, f, g, h].forEach((value, k) => { sum[k] += value; });
  }
  return BigInt(sum[0] >>> 0) << 32n | BigInt(sum[1] >>> 0);
}
const sums = new Map();                 // of what was drawn before
function drawn(number, flow, what, most) {
  const word = `${number} ${flow} ${what}`;
  if (!sums.has(word)) sums.set(word, beginOfSum(word));
  return Number(sums.get(word) % BigInt(most + 1));
}

// A text with other words in a statement, by their places; what is between them stays.
function withWords(line, changed) {
  const ones = [...line.split('#', 1)[0].matchAll(/[^ ]+/g)];
  return Object.entries(changed).reverse().reduce((text, [k, word]) => text.slice(0, ones[k].index) + word + text.slice(ones[k].index + ones[k][0].length), line);
}
// The text that is spread by a number. What is written of a queue stays, but for a maxpacket that was the greatest packet.
function spreadText(text, number) {
  const {links, flows, ways, end} = factsOf(text, ''), lines = text.split('\n'), begins = kind => lines.flatMap((line, k) => (words(line)[0] === kind ? [k] : []));
  const delays = links.map(({delay}) => delay), ofFlows = begins('flow'), before = greatestOf(flows.map(({mss}) => mss)) + HEADER_BYTES;
  const now = flows.map(({name, mss, start}, f) => {
    const by = (what, most) => drawn(number, name, what, Math.floor(most)), trip = d3.sum(ways[f].flat(), l => delays[l]);
    delays[ways[f][0][0]] += by('delay', trip / PART_OF_TRIP);
    if (!/# a mouse\b/.test(lines[ofFlows[f]])) return {4: mss - by('segment', mss / PART_OF_SEGMENT), 6: Math.min(start + by('start', trip), end - 1)};
    const small = MOUSE[0] + by('segment', MOUSE[1] - MOUSE[0]);
    return {4: small, 6: by('start', Math.min(LATEST_MOUSE, end - 1)), 7: small};
  });
  const after = greatestOf(now.map(({4: mss}) => mss)) + HEADER_BYTES;
  ofFlows.forEach((k, f) => { lines[k] = withWords(lines[k], now[f]); });
  begins('link').forEach((k, l) => { lines[k] = withWords(lines[k], {5: delays[l], ...(+words(lines[k])[10] === before ? {10: after} : {})}); });
  return lines.join('\n');
}
