'use strict';
// What a line, a packet and a node say, in words, and the debugger's commands that go there.

const KINDS = {
  start: ['it starts, with the initial window', 'RFC 5681 section 3.1'],
  rto: ['the retransmission timer ends: cwnd is one segment, rto doubles',
    'RFC 6298 section 5, RFC 5681 section 3.1'],
  delack: ['the receiver\'s alarm for its waiting answer: the next byte is acknowledged', 'RFC 5681 section 4.2'],
  free: ['it becomes free, and takes the next packet of its queue if one waits', ''],
  data: ['a segment arrives', ''],
  ack: ['an acknowledgement arrives', ''],
};
const PHASES = {ss: ['slow start: cwnd is below ssthresh', 'RFC 5681 section 3.1'],
  ca: ['congestion avoidance: cwnd reached ssthresh', 'RFC 5681 section 3.1'],
  fr: ['fast recovery: a segment was sent again after three duplicates', 'RFC 5681 section 3.2, RFC 6582 section 3.2']};
const REASONS = {lost: [', as the scenario\'s `lose` says', ''],
  full: [': the queue held its limit', ''],
  codel: [' by CoDel at the queue\'s head: packets waited too long for an interval', 'RFC 8289 section 5']};

function seconds(ns, digits = 6) { return (ns / 1e9).toFixed(digits) + ' s'; }
function milliseconds(ns) { return +(ns / 1e6).toPrecision(6) + ' ms'; }
function rateText(rate) {
  for (const [scale, unit] of [[1e9, 'Gbit/s'], [1e6, 'Mbit/s'], [1e3, 'kbit/s']])
    if (rate >= scale) return +(rate / scale).toPrecision(6) + ' ' + unit;
  return rate + ' bit/s';
}
function number(value) { return String(value).replace(/\B(?=(\d{3})+$)/g, ','); }
function sortName(sort) { return sort === DATA ? 'segment' : 'acknowledgement'; }
function packetName(facts, packet) {
  return `${sortName(packet.sort)} ${number(packet.number)} of ${facts.flows[packet.flow].name}`;
}

// A row of columns: number, moment, node, what happens to which flow or link, the state.
function inColumns(wide, [n, time, node, what, state]) {
  return `${n.padStart(wide.number)}  ${time.padStart(wide.time)}  ${node.padEnd(wide.node)}  ${what.padEnd(wide.what)}  ${state}`;
}
const HEADS = ['event', 'time', 'node', 'kind, flow, byte', 'state, sends, drops'];
const EXACT_HEADS = 'n time node source number KIND AFTER ACTS';       // docs/FORMATS.md
// A line with names and units beside its numbers.
function readable(facts, line, wide) {
  const [n, time, node, , , kind, name, ...rest] = line.split(' '), packet = kind === 'data' || kind === 'ack';
  const whose = kind === 'free' ? facts.links[name].name : `${facts.flows[name].name}${packet ? ` ${number(rest.shift())}` : ''}`;
  const state = rest.map(word => {
    const [key, value] = word.split('='), [first, flow, seq] = value.split(':');
    if (key === 'tx') return `${facts.links[first].name} sends ${facts.flows[flow].name} ${number(seq)}`;
    if (key === 'drop') return `drops ${facts.flows[flow].name} ${number(seq)} (${first})`;
    return key === 'phase' ? word : `${key}=${number(value)} B`;
  });
  return inColumns(wide, [number(n), seconds(+time, 6), facts.nodes[node].name, `${kind} ${whose}`, state.join('  ')]);
}
// How wide the columns are of a record's lines.
function widthsOf({facts, last, times, count}) {
  const name = ones => Math.max(...ones.map(({name: one}) => one.length)), [n, , node] = HEADS;
  return {number: Math.max(n.length, number(last).length), time: seconds(times[count], 6).length, node: Math.max(node.length, name(facts.nodes)),
    what: Math.max(name(facts.flows) + 16, name(facts.links) + 5)};
}

// Which row of the sender's table an acknowledgement is; `recovery`: whether the sender is in recovery after it.
function rowOf(ack, before, recovery) {
  if (ack > before.una && before.recovery && recovery)
    return ['a partial acknowledgement: the next missing segment is sent again, recovery goes on', 'RFC 6582 section 3.2'];
  if (ack > before.una) return [before.recovery ? 'a new acknowledgement: recovery ends' : 'a new acknowledgement',
    before.recovery ? 'RFC 5681 section 3.2 step 6' : 'RFC 5681 section 3.1'];
  if (ack < before.una || before.una === before.nxt) return ['an old acknowledgement: nothing changes', ''];
  if (before.recovery) return ['a further duplicate: cwnd grows by one segment', 'RFC 5681 section 3.2 steps 4, 5'];
  if (before.dups >= 2 && !recovery)
    return ['a duplicate: una is not above what was sent when the last loss was noticed, and nothing is done',
      'RFC 6582 section 3.2'];
  return [['the first duplicate: a new segment may be sent', 'RFC 5681 section 3.2 step 1'],
    ['the second duplicate: a new segment may be sent', 'RFC 5681 section 3.2 step 1'],
    ['the third duplicate: the segment at una is sent again', 'RFC 5681 section 3.2 steps 2, 3']][before.dups] ||
    ['a duplicate', 'RFC 5681 section 3.2'];
}

// A line's words: [what stands there, what it means, its RFC section].
function explainLine(facts, line, before) {
  const words = line.split(' '), [n, time, node, source, count, kind, name] = words, at = facts.nodes[node];
  const from = +source ? `packet ${number(+count)} of link ${facts.links[source - 1].name}` :
    ['its start', 'its timer', 'its alarm'][count] || `its port ${count - 3}`;
  const arrival = kind === 'data' || kind === 'ack';
  const out = [[words.slice(0, 5).join(' '),
    `event ${number(+n)} at ${seconds(+time, 9)}, ${at.kind} ${at.name}, from ${from}`]];
  const does = kind === 'ack' && at.kind === 'sender' ? rowOf(+words[7], before, words[12] === 'phase=fr') : KINDS[kind];
  const whose = kind === 'free' ? `link ${facts.links[name].name}` : `flow ${facts.flows[name].name}`;
  out.push([words.slice(5, arrival ? 8 : 7).join(' '), `${whose}: ${does[0]}`, does[1]]);
  for (const word of words.slice(arrival ? 8 : 7)) out.push(explainWord(facts, word));
  return out;
}

function explainWord(facts, word) {
  const [key, value] = word.split('=');
  const plain = {una: ['the first byte not acknowledged', 'RFC 5681 section 2'],
    nxt: ['the next byte to send', ''],
    cwnd: ['congestion window, bytes', 'RFC 5681 section 2'], ssthresh: ['slow start threshold, bytes', 'RFC 5681 section 3.1'],
    next: ['the next byte that the receiver waits for', 'RFC 5681 section 4.2']}[key];
  if (plain) return [word, `${number(+value)}: ${plain[0]}`, plain[1]];
  if (key === 'phase') return [word, ...PHASES[value]];
  const parts = value.split(':');
  if (key === 'tx') return [word, `link ${facts.links[parts[0]].name} begins to send number ${number(+parts[2])} of flow ` +
    facts.flows[parts[1]].name, ''];
  return [word, `number ${number(+parts[2])} of flow ${facts.flows[parts[1]].name} is dropped${(REASONS[parts[0]] || [`: ${parts[0]}`])[0]}`,
    (REASONS[parts[0]] || [])[1] || ''];
}
