'use strict';
// Where two runs part: the first event that differs, in the words of tcpsim-diff. Events are matched by their moment, node, kind and
// packet, by names; what stands elsewhere in the trace is the same event.

const STATES = ['una', 'nxt', 'cwnd', 'ssthresh', 'phase', 'next'];
const momentText = ns => `${(ns / 1e9).toFixed(9).replace(/\.?0+$/, '')} s`;
const namesOf = ({nodes, links, flows}) => [nodes, links, flows].map(ones => ones.map(({name}) => name));

// An event of a record, by names: the k-th from 0. `what` is what it is, `came` what came of it.
function eventOf({facts, lines}, k) {
  const [, time, node, , , kind, name, ...rest] = lines.text(k).split(' '), {nodes, links, flows} = facts;
  const event = {k, time: +time, at: +node, node: nodes[node].name, kind, link: kind === 'free' ? +name : null, flow: kind === 'free' ? null : +name, number: null, state: {}, acts: []};
  if (kind === 'data' || kind === 'ack') event.number = +rest.shift();
  for (const word of rest) {
    const [key, value] = word.split('='), [first, flow, number] = value.split(':');
    if (key !== 'tx' && key !== 'drop') event.state[key] = value;
    else event.acts.push({what: key === 'tx' ? key : first, link: links[key === 'tx' ? +first : linkOf(facts, event)].name, flow: flows[flow].name, number: +number});
  }
  event.what = [event.node, kind, kind === 'free' ? links[name].name : flows[name].name, event.number].join(' ');
  event.came = JSON.stringify([event.state, event.acts]);
  return event;
}
// The link over which a node sends in an event.
function linkOf({nodes, flows, ways, links}, {at, kind, link, flow}) {
  if (kind === 'free') return link;
  const data = kind === 'data' && at !== flows[flow].receiver || at === flows[flow].sender;
  return ways[flow][data ? 0 : 1].find(l => links[l].from === at);
}
// The events of a moment, from the k-th on.
function eventsAt(record, k, time) {
  const found = [];
  for (; k < record.count && record.times[k + 1] === time; k++) found.push(eventOf(record, k));
  return found;
}

// Where two records part: {count} events are the same, {ours, theirs} the event that differs, null of a run that has none now; in that
// one it comes {later}, or never. In turns, as traces can be long.
async function partingOf(one, two) {
  const plain = JSON.stringify(namesOf(one.facts)) === JSON.stringify(namesOf(two.facts));
  for (let k = 0; ;) {
    if (plain) k = await sameLines(one, two, k);
    if (k >= one.count && k >= two.count) return {count: k, ours: null, theirs: null, later: null};
    const time = Math.min(k < one.count ? one.times[k + 1] : Infinity, k < two.count ? two.times[k + 1] : Infinity);
    const now = eventsAt(one, k, time), then = eventsAt(two, k, time), left = [...then];
    for (const ours of now) {
      const at = left.findIndex(({what}) => what === ours.what), theirs = at < 0 ? null : left.splice(at, 1)[0];
      if (!theirs) return {count: ours.k, ours, theirs, later: await nextTime(two, k + then.length, ours)};
      if (theirs.came !== ours.came) return {count: ours.k, ours, theirs, later: null};
    }
    if (left.length) return {count: k + now.length, ours: null, theirs: left[0], later: await nextTime(one, k + now.length, left[0])};
    k += now.length;
    if (!plain) await turn(k);
  }
}
const turn = k => k % LINES_AT_ONCE ? null : pause();
// Up to which line both have the same bytes, from a line on.
async function sameLines(one, two, k) {
  const most = Math.min(one.count, two.count);
  if (k >= most) return k;
  let [[p, a], [q, b]] = [one.lines.place(k), two.lines.place(k)];
  for (;;) {
    const mine = one.lines.pieces[p], other = two.lines.pieces[q];
    if (!mine || !other) return most;
    for (const end = a + Math.min(mine.length - a, other.length - b); a < end; a++, b++) {
      if (mine[a] !== other[b]) return Math.min(k, most);
      if (mine[a] === NEWLINE) k += 1;
    }
    if (a === mine.length) { p += 1; a = 0; }
    if (b === other.length) { q += 1; b = 0; }
    await pause();
  }
}
async function nextTime(record, k, {what}) {
  for (; k < record.count; k++) {
    if (eventOf(record, k).what === what) return record.times[k + 1];
    await turn(k);
  }
  return null;
}

// What becomes of a packet in an event: {link, sort, what, more}, `what` tx, why it is dropped, or its place in the queue, null of none.
function fateOf(record, event, {flow, number}) {
  const {facts} = record, act = event.acts.find(it => it.flow === flow && it.number === number);
  const l = act ? facts.links.findIndex(({name}) => name === act.link) : linkOf(facts, event), {queue, limit} = facts.links[l], f = facts.flows.findIndex(({name}) => name === flow);
  const waiting = at => {
    record.go(record.first + at);
    const {head, tail} = record.link(l);
    return d3.range(head, tail).map(entry => ({...record.packet(l, entry), place: entry - head + 1})).filter(it => it.flow === f && it.number === number);
  }, kept = record.at, before = waiting(event.k), after = waiting(event.k + 1);
  record.go(kept);
  const end = facts.nodes[event.at].kind, sort = before.length ? before[0].sort : end === 'router' ? +(event.kind === 'ack') : end === 'sender' ? DATA : ACK;
  const fate = {link: facts.links[l].name, sort: sort === DATA ? 'data' : 'ack', what: act ? act.what : after.length ? after[after.length - 1].place : null, more: ''};
  if (!act) fate.more = after.length > before.length ? 'enters' : 'waits';
  else if (act.what === 'full' && ['droptail', 'codel'].includes(queue)) fate.more = `: ${limit} of ${limit}`;
  else if (!['tx', 'lost'].includes(act.what) && before.length) fate.more = `: after ${spelledTime(event.time - before[0].entered)}`;
  return fate;
}
function toldOf({link, what, more}, packet) {
  if (what === 'tx') return `link ${link} begins to send ${packet}`;
  if (typeof what === 'string') return `link ${link} drops ${packet} (${what}${more})`;
  return what ? `${packet} ${more} at place ${what} of link ${link}` : `${packet} is not sent`;
}
function toldOfIt(fate, link) {
  const {what, more} = fate;
  if (fate.link !== link) return toldOf(fate, 'it');
  return what === 'tx' ? 'it begins to be sent' : typeof what === 'string' ? `it is dropped (${what}${more})` : what ? `it ${more} at place ${what}` : 'it is not sent';
}
function happens({facts: {links, flows}}, {kind, link, flow, number, node}) {
  const name = flow === null ? '' : flows[flow].name;
  return {start: `flow ${name} starts`, rto: `the timer of ${name} ends`, delack: `the delayed acknowledgement of ${name} is due`,
    free: kind === 'free' && `link ${links[link].name} becomes free`}[kind] || `${kind} ${number} of ${name} comes to ${node}`;
}
function cameOf(one, two, ours, theirs) {
  const states = STATES.filter(name => ours.state[name] !== theirs.state[name]), of = ({state}) => states.map(name => `${name}=${state[name]}`).join(' ');
  if (states.length) return `${happens(one, ours)}: ${of(ours)}, there ${of(theirs)}`;
  const k = d3.range(Math.max(ours.acts.length, theirs.acts.length)).find(at => JSON.stringify(ours.acts[at]) !== JSON.stringify(theirs.acts[at]));
  const packet = ours.acts[k] || theirs.acts[k], mine = fateOf(one, ours, packet), others = fateOf(two, theirs, packet);
  return `${toldOf(mine, `${mine.sort} ${packet.number} of ${packet.flow}`)}, there ${toldOfIt(others, mine.link)}`;
}
// Where two runs part, in a sentence.
function partingText(one, two, {count, ours, theirs, later}) {
  const same = count ? `the same ${number(count)} event${count === 1 ? '' : 's'}` : 'no event is the same';
  if (!ours && !theirs) return same;
  if (ours && theirs) return `${same}; at ${momentText(ours.time)} ${cameOf(one, two, ours, theirs)}`;
  const [event, record, where, other] = ours ? [ours, one, 'there', two] : [theirs, two, 'here', one], {end} = other.facts;
  const after = event.time >= end ? `the run ends at ${momentText(end)}` : later === null ? 'not at all' : `at ${momentText(later)}`;
  return `${same}; at ${momentText(event.time)} ${ours ? '' : 'there '}${happens(record, event)}, ${where} ${after}`;
}
