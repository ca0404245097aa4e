'use strict';
// Where flows stalled, the longest first, and why: spans without a new acknowledgement, as tcpsim-stalls has them, each with what the
// program's own session answers to `why` in its midst. Below them, the timeouts that are in no stall.

const MOST_ASKED = 200;                 // stalls for which the program is asked, the longest
const MOST_TIMEOUTS = 10;               // in no stall, that are named

// The spans in which all packets of a flow that were in the net were at one link, and one of them waited: [begin, end, link].
function waitsOf(record, f) {
  const {facts} = record, moves = [], ways = [...new Set(facts.ways[f].flat())];
  for (const l of ways) {
    const track = record.tracks[l], turns = new Map(d3.range(track.gone).map(k => [track.entryOf(k), k]));
    const dropped = record.drops.filter(({link, flow, reason}) => link === l && flow === f && reason === 'codel');
    track.flow.forEach((flow, entry) => {
      if (flow !== f) return;
      const k = turns.get(entry);
      moves.push({time: track.entered(entry), l, waits: 1});
      if (k === undefined) { if (dropped.length) moves.push({time: dropped.shift().time, l, waits: -1}); return; }
      moves.push({time: track.begun(k), l, waits: -1, sent: 1}, {time: track.arrives(k) - facts.links[l].delay, l, sent: -1, flying: 1}, {time: track.arrives(k), l, flying: -1});
    });
  }
  moves.sort((one, two) => one.time - two.time);
  const waiting = new Map(ways.map(l => [l, 0])), sending = new Map(waiting), spans = [];
  let under = 0, at = null, since = 0;
  moves.forEach(({time, l, waits = 0, sent = 0, flying = 0}, k) => {
    waiting.set(l, waiting.get(l) + waits);
    sending.set(l, sending.get(l) + sent);
    under += flying;
    if (k + 1 < moves.length && moves[k + 1].time === time) return;
    const there = under ? [] : ways.filter(one => waiting.get(one) + sending.get(one)), now = there.length === 1 && waiting.get(there[0]) ? there[0] : null;
    if (now === at) return;
    if (at !== null) spans.push([since, time, at]);
    [at, since] = [now, time];
  });
  return at === null ? spans : [...spans, [since, Infinity, at]];
}
// The link at which they waited for more than half of a stall, and for how long: [link, ns], or null.
function oneQueue(waits, {from, to}) {
  const sums = new Map();
  for (const [begin, end, l] of waits) sums.set(l, (sums.get(l) || 0) + Math.max(0, Math.min(to, end) - Math.max(from, begin)));
  return [...sums].find(([, time]) => 2 * time > to - from) || null;
}
// Why a flow stalled, in the words of tcpsim-stalls, by what became of the segment at una: how often it was sent up to the stall's
// beginning, how often in it, and how many of these were dropped. A link drops in the order in which it was offered.
function causeOf(record, {flow: f, event, from, to}, queue) {
  const {facts} = record, {mss, segments, rwnd, delack} = facts.flows[f], first = facts.ways[f][0][0], track = record.tracks[first], line = record.line(event);
  const stateAt = at => { record.go(at); return record.flow(f); }, kept = record.at;
  const before = stateAt(event - 1), {una, ...begun} = stateAt(event), last = stateAt(record.eventsBefore(to)), windowed = nxt => nxt < mss * segments && nxt + mss > una + rwnd;
  record.go(kept);
  const drops = record.drops.filter(drop => drop.flow === f && drop.time <= to), lost = drops.filter(({sort, number: seq}) => sort === DATA && seq === una);
  const sent = d3.range(track.many).filter(k => track.flow[k] === f && track.sort[k] === DATA && track.number(k) === una).map(k => track.entered(k));
  const copies = [...sent, ...lost.filter(({link, reason}) => link === first && reason !== 'codel').map(({time}) => time)].filter(time => time <= to);
  // By a partial acknowledgement, with which the stall begins.
  const partial = before.recovery && line.includes(' ack ') && line.includes(' phase=fr');
  const [early, again] = copies.reduce((both, time) => { both[+(time > from || partial && time === from)].push(time); return both; }, [[], []]);
  const matters = added => 2 * added > to - from || to - from - added <= LONGER, ofFlow = (at, kind) => record.line(at).split(' ')[5] === kind && +record.line(at).split(' ')[6] === f;
  const timers = record.timeouts.filter(one => one > event && record.timeOf(one) <= to && ofFlow(one, 'rto')).map(one => record.timeOf(one));
  const isLost = lost.length >= early.length, byTimer = !again.length || timers.includes(d3.min(again)), late = lost.length > early.length;
  const ack = drops.find(({sort, number: seq, time}) => sort !== DATA && seq > una && matters(to - time));
  if (!isLost && !ack && windowed(begun.nxt) && windowed(last.nxt)) return 'the receive window was full';
  if (queue) return 'its packets waited in one queue';
  if (isLost && byTimer) return 'a loss was left to the timer';
  if (late && (isLost || ack)) return 'a retransmission was lost';
  if (ack) return 'an acknowledgement was lost';
  if (isLost) return 'fast retransmit took a round trip';
  const end = record.eventsBefore(to), alarm = delack && matters(delack) && d3.range(event + 1, end + 1).some(at => ofFlow(at, 'delack'));
  return alarm ? 'a delayed acknowledgement was waited for' : 'the round trip took longer';
}
// The timeouts that are in no stall, as una rose shortly before and after: {event, flow} each.
function otherTimeouts(record) {
  const begins = new Set(record.stalls.map(({flow, event}) => `${flow} ${event}`));
  return record.timeouts.map((event, k) => ({event, flow: +record.line(event).split(' ')[6], since: record.first + record.timerEnds[k].since}))
    .filter(({flow, since}) => !begins.has(`${flow} ${since}`));
}
// What the program says that the flow waits for.
function foundIn(answer) {
  const lines = answer.split('\n').filter(Boolean), line = begin => lines.find(one => one.startsWith(begin));
  return line('missing at the receiver: ') || line('missing at the sender: ') || line('waits: ') || line('under way: ') || lines[0] || '';
}

class StallList {
  // `go` is given a stall that is clicked.
  constructor(place, engine, text, record, go) {
    Object.assign(this, {place, engine, text, record, go, drawn: false, waits: new Map()});
    place.textContent = '';
    this.stalls = [...record.stalls].sort((one, two) => (two.to - two.from) - (one.to - one.from) || one.event - two.event);
  }
  end() { this.over = true; }
  // Asks the program, once it is to be seen.
  async show() {
    if (this.drawn) return;
    this.drawn = true;
    const {stalls, record} = this, asked = stalls.slice(0, MOST_ASKED).sort((one, two) => one.event - two.event);
    this.say(stalls.length ? 'the program is asked' : 'No stall: no flow was without a new acknowledgement for more than 200 ms.');
    if (!stalls.length) { this.sayOthers(); return; }
    const commands = asked.map(({flow, from, to}) => `goto ${record.eventsBefore((from + to) / 2)}\nwhy ${flow}\n`).join('');
    const {bytes, note, why} = await this.engine.run(['debug', SCENARIO_FILE], toBytes(commands), {files: new Map([[SCENARIO_FILE, toBytes(this.text)]])});
    if (this.over) return;
    // Behind each move stands its position, and then the answer.
    const answers = new TextDecoder('latin1').decode(bytes).split(/^at \d+ of the run.*\n/m).slice(1);
    if (why || answers.length !== asked.length) { this.say(why || note.trim()); return; }
    this.draw(new Map(asked.map((stall, k) => [stall, answers[k]])));
  }
  say(...words) {
    const said = document.createElement('p');
    said.append(...words);
    this.place.replaceChildren(said);
  }
  // Says which timeouts the figures count and no stall has.
  sayOthers() {
    const {record, place} = this, others = otherTimeouts(record), said = document.createElement('p');
    if (!others.length) return;
    said.append(`${many(others.length, 'timeout')} ${others.length === 1 ? 'is in no stall but in a shorter span' : 'are in no stall but in shorter spans'}: `);
    others.slice(0, MOST_TIMEOUTS).forEach((one, k) => {
      const button = Object.assign(document.createElement('button'), {textContent: `${record.facts.flows[one.flow].name} at ${seconds(record.timeOf(one.event), 9)}`, title: `goes to event ${number(one.event)}`});
      button.addEventListener('click', () => this.go(one));
      said.append(k ? ', ' : '', button);
    });
    if (others.length > MOST_TIMEOUTS) said.append(`, and ${others.length - MOST_TIMEOUTS} more`);
    said.append('. A NewReno sender\u2019s timer goes on while partial acknowledgements come (RFC 6582 section 3.2).');
    place.append(said);
  }
  // The cause of a stall, and what was found.
  why(stall, answer) {
    const {flow} = stall, {record, waits} = this, {links} = record.facts;
    if (!waits.has(flow)) waits.set(flow, waitsOf(record, flow));
    const queue = oneQueue(waits.get(flow), stall), cause = causeOf(record, stall, queue), found = foundIn(answer);
    return [cause, queue ? `all its packets waited at link ${links[queue[0]].name} for ${waitText(queue[1])} of it; ${found}` : found];
  }
  draw(answers) {
    const {record, stalls} = this, {flows} = record.facts, code = textContent => Object.assign(document.createElement('code'), {textContent});
    this.say(`${many(stalls.length, 'stall')} of more than 200 ms without a new acknowledgement, the longest first. What each flow waited for is the program\u2019s answer to `,
      code('why'), ' in the midst of the stall; tcpsim-stalls tells nine causes apart. The debugger\u2019s ', code('stalls'), ' lists fewer: where nothing of a flow is under way.');
    const table = tableOf(['flow', 'from', 'length', ['cause', 'in the words of tcpsim-stalls'], ['found', 'what the program answers to why; its lines are those of the trace']], stalls.map(stall => [flows[stall.flow].name, [seconds(stall.from, 3), `${number(stall.from)} ns`],
      [waitText(stall.to - stall.from), `${number(stall.to - stall.from)} ns`],
      ...(answers.has(stall) ? this.why(stall, answers.get(stall)) : ['-', `only the longest ${MOST_ASKED} are asked about`])]));
    table.querySelectorAll('tbody tr').forEach((row, k) => {
      const button = document.createElement('button');
      button.textContent = row.cells[0].textContent;
      button.title = `goes to event ${number(stalls[k].event)}, with which it begins`;
      row.cells[0].replaceChildren(button);
      row.addEventListener('click', () => this.go(stalls[k]));
    });
    this.place.append(table);
    this.sayOthers();
  }
}
