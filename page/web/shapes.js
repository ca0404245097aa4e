'use strict';
// Templates: the nets of python/tcpsim/scenario/shapes.py, with the text that tcpsim-net writes, byte for byte. `given` has a
// value for each option, lists for those that flows or hops take by turns.

const OF_FLOWS = ['start', 'segments', 'variant', 'iw'];
const nth = (values, n) => values[n % values.length];
const many = (count, what) => `${count} ${what}${count === 1 ? '' : 's'}`;

function notLonger(given, count, what, ...names) {
  for (const name of names)
    if (given[name].length > count) throw new Wrong(`${name} has ${given[name].length} values, and there are ${count} ${what}`);
}
// The delays, there and back, of one cable with what a round trip leaves beside delays `parts` each way.
function halves(trip, parts) {
  const there = Math.floor(trip / 2), sum = d3.sum(parts), delays = [there - sum, trip - there - sum];
  if (Math.min(...delays, ...parts) < 1) throw new Wrong(`a round trip of ${spelledTime(trip)} leaves no delay for some link`);
  return delays;
}
const shareOf = (trips, part) => Math.floor(Math.min(...trips) / part);

// Flow fn with a sender at the first of two routers and a receiver at the other. `delays` are the sender's, there and back, and
// the receiver's.
function addFlow(net, given, n, [first, last], [there, end], note) {
  const sender = net.node('sender', `s${n}`), receiver = net.node('receiver', `r${n}`), start = nth(given.start, n);
  net.joined(sender, first, given.access, there, given.access_queue);
  net.joined(last, receiver, given.access, [end, end], given.access_queue);
  net.flows.push({name: `f${n}`, sender, receiver, mss: given.mss, segments: nth(given.segments, n), start, rwnd: OPEN_WINDOW,
    delack: given.delack, note: `${note}, from ${spelledTime(start)} on`, variant: nth(given.variant, n), first: nth(given.iw, n)});
}
const bottleneck = (rate, delay, queue) => `the bottleneck: ${spelledRate(rate)}bit/s, ${spelledTime(delay)}, ${queue}`;

function dumbbell(net, given) {
  if (given.flows > MOST_ROUTER_LINKS - 1) return wideDumbbell(net, given);
  notLonger(given, given.flows, 'flows', 'rtt', ...OF_FLOWS);
  const p = net.node('router', 'p'), q = net.node('router', 'q'), middle = shareOf(given.rtt, 4), last = shareOf(given.rtt, 8);
  net.link(p, q, given.rate, middle, given.queue, 'pq', bottleneck(given.rate, middle, given.queue));
  net.link(q, p, given.rate, middle, given.back_queue, 'qp', 'the way back of acknowledgements');
  for (let n = 0; n < given.flows; n++) {
    const trip = nth(given.rtt, n);
    addFlow(net, given, n, [p, q], [halves(trip, [middle, last]), last], `a round trip of ${spelledTime(trip)}`);
  }
  return [`A dumbbell: ${many(given.flows, 'flow')} over the bottleneck pq of ${spelledRate(given.rate)}bit/s with the queue ${given.queue}.`,
    'A round trip is that of the delays alone: waiting and sending come on top.'];
}
// A dumbbell of more flows than a router has links for: a tree with as few leaves as have room for them.
function wideDumbbell(net, given) {
  const [first] = tree(net, given, Math.ceil(given.flows / (MOST_ROUTER_LINKS - 1)));
  return [`A dumbbell: ${many(given.flows, 'flow')} over the bottleneck pq of ${spelledRate(given.rate)}bit/s with the queue ${given.queue}.`,
    `A router has ${MOST_ROUTER_LINKS} links, so the ends are at leaves below p and q. ${first}`,
    'A round trip is that of the delays alone: waiting and sending come on top.'];
}
function tree(net, given, leaves) {
  notLonger(given, given.flows, 'flows', 'rtt', ...OF_FLOWS);
  const tops = [net.node('router', 'p'), net.node('router', 'q')], middle = shareOf(given.rtt, 4), branch = shareOf(given.rtt, 16);
  const below = ['p', 'q'].map(side => d3.range(leaves).map(n => net.node('router', `${side}${n + 1}`)));
  net.link(...tops, given.rate, middle, given.queue, 'pq', bottleneck(given.rate, middle, given.queue));
  net.link(tops[1], tops[0], given.rate, middle, given.back_queue, 'qp', 'the way back of acknowledgements');
  tops.forEach((top, side) => below[side].forEach(leaf => net.joined(leaf, top, given.access, [branch, branch], given.access_queue)));
  for (let n = 0; n < given.flows; n++) {
    const trip = nth(given.rtt, n), leaf = n % leaves;
    addFlow(net, given, n, [below[0][leaf], below[1][leaf]], [halves(trip, [middle, branch, branch, branch]), branch],
      `from leaf p${leaf + 1} to leaf q${leaf + 1}, a round trip of ${spelledTime(trip)}`);
  }
  return [`A tree on each side of the bottleneck pq of ${spelledRate(given.rate)}bit/s: ${leaves} leaves, and ${many(given.flows, 'flow')} ` +
    'from those of p to those of q.'];
}

// Routers p0, p1 and so on, with a cable at each hop.
function rowOfRouters(net, given) {
  const routers = d3.range(given.hops + 1).map(n => net.node('router', `p${n}`));
  for (let n = 0; n < given.hops; n++) {
    const rate = nth(given.rate, n), delay = nth(given.delay, n);
    net.link(routers[n], routers[n + 1], rate, delay, given.queue, `p${n}p${n + 1}`,
      `hop ${n + 1}: ${spelledRate(rate)}bit/s, ${spelledTime(delay)}, ${given.queue}`);
    net.link(routers[n + 1], routers[n], rate, delay, given.back_queue, `p${n + 1}p${n}`);
  }
  return routers;
}
function chain(net, given) {
  notLonger(given, given.hops, 'hops', 'rate', 'delay');
  notLonger(given, given.flows, 'flows', ...OF_FLOWS);
  const routers = rowOfRouters(net, given), {access_delay: end} = given;
  for (let n = 0; n < given.flows; n++) addFlow(net, given, n, [routers[0], routers[given.hops]], [[end, end], end], 'over every hop');
  return [`A chain: ${many(given.flows, 'flow')} over ${given.hops} hops in a row.`];
}
function parkingLot(net, given) {
  notLonger(given, given.hops, 'hops', 'rate', 'delay');
  notLonger(given, 1 + given.hops * given.cross, 'flows', ...OF_FLOWS);
  const routers = rowOfRouters(net, given), delays = [[given.access_delay, given.access_delay], given.access_delay];
  addFlow(net, given, 0, [routers[0], routers[given.hops]], delays, 'over every hop');
  for (let n = 0; n < given.hops * given.cross; n++) {
    const hop = Math.floor(n / given.cross);
    addFlow(net, given, n + 1, [routers[hop], routers[hop + 1]], delays, `over hop ${hop + 1}`);
  }
  return [`A parking lot: flow f0 goes over ${given.hops} hops, and at each it meets ${many(given.cross, 'flow')} that ` +
    `${given.cross === 1 ? 'goes' : 'go'} over that hop alone.`];
}
function accessLine(net, given) {
  const count = given.flows + given.uploads;
  if (!count) throw new Wrong('there is no flow: flows and uploads are both 0');
  notLonger(given, count, 'flows', 'rtt', ...OF_FLOWS);
  const isp = net.node('router', 'isp'), home = net.node('router', 'home'), upQueue = given.up_queue || given.queue;
  const middle = shareOf(given.rtt, 4), last = shareOf(given.rtt, 8);
  net.link(isp, home, given.down, middle, given.queue, 'down', `towards the home: ${spelledRate(given.down)}bit/s, ${spelledTime(middle)}, ${given.queue}`);
  net.link(home, isp, given.up, middle, upQueue, 'up', `away from it: ${spelledRate(given.up)}bit/s, ${spelledTime(middle)}, ${upQueue}`);
  for (let n = 0; n < count; n++) {
    const trip = nth(given.rtt, n), upload = n >= given.flows;
    addFlow(net, given, n, upload ? [home, isp] : [isp, home], [halves(trip, [middle, last]), last],
      `${upload ? 'an upload' : 'a download'}, a round trip of ${spelledTime(trip)}`);
  }
  return [`An asymmetric access: ${many(given.flows, 'download')} over ${spelledRate(given.down)}bit/s and ${many(given.uploads, 'upload')} over ` +
    `${spelledRate(given.up)}bit/s.`, 'What comes down is acknowledged on the way up, behind the uploads, and the other way round.'];
}
const BUILDERS = {dumbbell, chain, 'parking-lot': parkingLot, asymmetric: accessLine};

// ---- fields

// How an option's words are read.
const between = (least, most) => word => {
  const value = countOf(word);
  if (value < least || value > most) throw new Wrong(`${word} is out of range: from ${least} to ${most}`);
  return value;
};
const listOf = read => words => words.split(',').map(read);
function variantOf(word) {
  if (!['reno', 'newreno'].includes(word)) throw new Wrong(`'${word}' is no variant: write reno or newreno`);
  return word;
}
function firstWindowOf(word) {
  const digits = word.startsWith('iw') ? word.slice(2) : word;
  if (!['3', '10'].includes(digits)) throw new Wrong(`'${word}' is no initial window: write 3 (RFC 5681) or 10 (RFC 6928)`);
  return Number(digits);
}
function readerOf(shape, name, ranges) {
  const one = field => word => numberOf(ranges, field, word), lists = ['chain', 'parking-lot'].includes(shape);
  return {flows: between(shape === 'asymmetric' ? 0 : 1, MOST_FLOWS), uploads: between(0, MOST_FLOWS), hops: between(1, 250), cross: between(1, 7),
    rate: lists ? listOf(one('rate')) : one('rate'), down: one('rate'), up: one('rate'), rtt: listOf(one('delay')), delay: listOf(one('delay')),
    queue: word => queueOf(ranges, word), up_queue: word => queueOf(ranges, word), segments: listOf(one('segments')),
    start: listOf(one('start')), variant: listOf(variantOf), iw: listOf(firstWindowOf), end: one('end')}[name];
}
const USUAL = {access: 1e9, access_queue: new Queue('droptail', 1000), back_queue: new Queue('droptail', 1000), access_delay: 1e6, mss: 1460,
  delack: 40e6, segments: [1e9], start: [0], variant: ['reno'], iw: [3], end: 20e9, hops: 3, cross: 1, delay: [1e7], down: 1e7, up: 1e6,
  uploads: 0, up_queue: null, rtt: [40e6], queue: new Queue('droptail', 50)};
const usualOf = shape => ({...USUAL, rate: ['chain', 'parking-lot'].includes(shape) ? [1e7] : 1e7, flows: shape === 'dumbbell' ? 2 : 1});

// The text of a template; `fields` are the words given, in their order: {flows: '4', queue: 'codel:5ms:100ms'}. Throws Wrong, with
// the field where it is one's, where tcpsim-net refuses them.
function templateText(shape, fields, ranges) {
  const given = usualOf(shape), words = [];
  for (const [name, word] of Object.entries(fields)) {
    try {
      given[name] = readerOf(shape, name, ranges)(word);
    } catch (wrong) {
      wrong.field = name;
      throw wrong;
    }
    words.push(`--${name.replace('_', '-')}=${word}`);
  }
  const last = Math.max(...given.start);
  if (last >= given.end) throw new Wrong(`start ${spelledTime(last)} is not before the end, ${spelledTime(given.end)}`);
  const net = new NetText(ranges), head = BUILDERS[shape](net, given);
  net.check();
  return net.text(given.end, [...head, ...net.boundWindows(), `Written by: ${['tcpsim-net', shape, ...words].map(quoted).join(' ')}`]);
}
// A word as a shell takes it: Python's shlex.quote.
const quoted = word => (/^[\w@%+=:,./-]+$/.test(word) ? word : `'${word.replaceAll("'", `'"'"'`)}'`);
