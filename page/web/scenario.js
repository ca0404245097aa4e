'use strict';
// What is shown of a scenario: names, numbers and ways, read from a text that the program has accepted.

const words = line => line.split('#', 1)[0].match(/[^ ]+/g) || [];
// The words of each statement. A text may be 16 MiB of blanks and comments: none of their lines is cut out.
function* statementsOf(text) {
  for (const [, line] of text.matchAll(/(?:^|\n) *([^ \n#][^\n]*)/g)) yield words(line);
}

// The facts that a record and the net's drawing go by, as python/tcpsim/replay/page.py makes them of a file.
function factsOf(text, title) {
  const facts = {title, end: 0, nodes: [], links: [], flows: [], ways: [], targets: [], first: 0, whole: false};
  const node = new Map(), link = new Map(), routes = new Map(), leaves = [];
  const read = {
    sim: ([end]) => { facts.end = +end; },
    node: ([name, kind]) => { node.set(name, facts.nodes.length); facts.nodes.push({name, kind}); leaves.push([]); },
    link: ([name, from, to, rate, delay, queue, limit, target]) => {
      const port = leaves[node.get(from)];
      link.set(name, facts.links.length);
      facts.links.push({name, from: node.get(from), to: node.get(to), rate: +rate, delay: +delay, queue, own: false, limit: +limit,
        port: port.length});
      port.push(facts.links.length - 1);
      facts.targets.push(queue === 'codel' ? +target : 0);
    },
    flow: ([name, sender, receiver, mss, segments, start, rwnd, delack, , window]) => {
      facts.flows.push({name, sender: node.get(sender), receiver: node.get(receiver), mss: +mss, segments: +segments,
        start: +start, rwnd: +rwnd, delack: +delack});
      firsts.push(firstWindow(+mss, window === 'iw10'));
    },
    route: ([router, to, over]) => { routes.set(node.get(router) * 256 + node.get(to), link.get(over)); },
    lose: () => {},
  }, firsts = [];
  for (const [statement, ...rest] of statementsOf(text)) read[statement](rest);
  const way = (from, to) => {
    const found = [];
    for (let at = from; at !== to; at = facts.links[found[found.length - 1]].to)
      found.push(facts.nodes[at].kind === 'router' ? routes.get(at * 256 + to) : leaves[at][0]);
    return found;
  };
  facts.ways = facts.flows.map(flow => [way(flow.sender, flow.receiver), way(flow.receiver, flow.sender)]);
  facts.base = {time: 0,
    links: facts.links.map(() => ({offered: 0, sent: 0, arrived: 0, busy: false, waiting: [], under_way: []})),
    flows: facts.flows.map((flow, f) => ({una: 0, nxt: 0, high: 0, cwnd: firsts[f], ssthresh: flow.rwnd, dups: 0,
      recovering: false, next: 0, above: [], answer_waits: false, since: null}))};
  return facts;
}

// The initial cwnd in bytes, of RFC 5681 section 3.1 or of RFC 6928 section 2.
function firstWindow(mss, ten) {
  return ten ? Math.min(10 * mss, Math.max(2 * mss, 14600)) : (mss > 2190 ? 2 : mss > 1095 ? 3 : 4) * mss;
}

// What a file is that is no scenario, or null. `bytes` is its beginning, or all of it.
const KINDS_OF_FILES = [
  [[0x89, 0x50, 0x4e, 0x47], 'a picture (PNG)'], [[0xff, 0xd8, 0xff], 'a picture (JPEG)'], [[0x47, 0x49, 0x46, 0x38], 'a picture (GIF)'],
  [[0x25, 0x50, 0x44, 0x46], 'a document (PDF)'], [[0x50, 0x4b, 3, 4], 'an archive (ZIP)'], [[0x1f, 0x8b], 'a packed file (gzip)'],
  [[0x7f, 0x45, 0x4c, 0x46], 'a program (ELF)'], [[0, 0x61, 0x73, 0x6d], 'a program (WebAssembly)'],
  [[0xd4, 0xc3, 0xb2, 0xa1], 'a capture (pcap)'], [[0x0a, 0x0d, 0x0d, 0x0a], 'a capture (pcapng)']];
function otherThanAScenario(bytes) {
  const found = KINDS_OF_FILES.find(([begin]) => begin.every((byte, k) => bytes[k] === byte));
  if (found) return found[1];
  const begin = new TextDecoder('latin1').decode(bytes.subarray(0, 4096));
  if (/^\d+ \d+ \d+ \d+ \d+ (start|rto|delack|free|data|ack) \d/.test(begin) || /^end \d+\n?$/.test(begin)) return 'a trace of a run';
  if (begin.startsWith('what,number,figure,unit,value')) return 'a table of figures';
  if (/^\s*<(!doctype|html|svg|\?xml)/i.test(begin)) return /<svg/i.test(begin) ? 'a picture (SVG)' : 'a web page';
  if (!begin.startsWith('TCB') && begin.includes('\0')) return 'no text';
  return null;
}
