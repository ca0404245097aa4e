'use strict';
// The critical path of a flow, as tcpsim-time has it (critical_path.py): from its last new acknowledgement back from cause to cause
// to its start. What a cause is follows from docs/MODEL.md; the time between two of its events has parts without a rest.

const QUEUE = 'queue', SERIALIZATION = 'serialization', PROPAGATION = 'propagation', TIMER = 'retransmission timer', DELAY = 'delayed acknowledgement';

// A part in words, as tcpsim-time has them.
function partText({kind, at, behind, doubled}, own) {
  if (kind === QUEUE) return `queue of ${at}, behind ${behind === own ? 'its own packets' : `packets of ${behind}`}`;
  if (kind === TIMER) return `${kind} of ${at}, ${['not doubled', 'doubled once', 'doubled twice'][doubled] || `doubled ${doubled} times`}`;
  return `${kind} ${kind === DELAY ? 'at' : 'on'} ${at}`;
}

// A path's `spans` part its time, in order: {part, begin, end}, and what of the net it is about: {link, entry, k} or {node}. `begin`
// is null where the flow has not started, or not within these lines.
class CriticalPath {
  constructor(record, f) {
    Object.assign(this, {record, f, facts: record.facts, begin: null, end: null, acknowledged: 0, spans: []});
    const {flows} = this.facts, steps = [];
    this.total = flows[f].mss * flows[f].segments;
    this.last = record.movedAt[f] ? record.eventAt(record.movedAt[f]) : null;
    for (let event = this.last; event !== null; event = steps[steps.length - 1].cause) {
      const step = this.step(event);
      if (step.cause === undefined) return;
      steps.push(step);
    }
    if (!steps.length) return;
    this.spans = steps.reverse().flatMap(({spans}) => spans);
    this.begin = record.timeOf(steps[0].event);
    this.end = record.timeOf(this.last);
    const words = record.line(this.last).split(' ');
    if (words[5] === 'ack') this.acknowledged = +words[8].slice(4);
  }
  get time() { return this.end - this.begin; }
  get isWhole() { return this.acknowledged === this.total; }

  // An event of the path: its cause, and the parts of the time between. No cause is known of what began before these lines.
  step(event) {
    const {record, facts, f} = this, words = record.line(event).split(' '), kind = words[5], time = record.timeOf(event), {sender, receiver} = facts.flows[f];
    const waited = (part, node, cause) => ({event, cause, spans: [{part: {at: facts.nodes[node].name, ...part}, begin: record.timeOf(cause), end: time, event: cause, node}]});
    if (kind === 'start') return {event, cause: null, spans: []};
    if (kind === 'rto') {
      const {set, doubled} = record.timerEnd(event);
      const step = waited({kind: TIMER, doubled}, sender, set);
      step.spans[0].loss = this.lossBefore(event, +words[7].slice(4));
      return step;
    }
    if (kind === 'delack') return waited({kind: DELAY}, receiver, record.delayedSince(event));
    const link = words[3] - 1, track = record.tracks[link], k = words[4] - 1 - track.sentBefore, entry = track.entryOf(k), cause = record.offeredBy(track, entry);
    if (cause === undefined) return {event, cause};
    const {name: at, delay} = facts.links[link], begun = track.begun(k), sent = time - delay, what = {link, entry, k};
    const waits = this.waits(track, k, track.entered(entry)).map(wait => ({part: {kind: QUEUE, at, behind: facts.flows[wait.flow].name}, ...wait, ...what}));
    const sending = {part: {kind: SERIALIZATION, at}, begin: begun, end: sent, ...what};
    // A packet can leave a queue at the moment at which it entered, by another event.
    if (waits.length) waits[0].event = cause;
    else if (track.begunAt[k] === track.enteredAt[entry]) sending.event = cause;
    return {event, cause, spans: [...waits, sending, {part: {kind: PROPAGATION, at}, begin: sent, end: time, ...what}]};
  }
  // What was dropped last of the segment at `una`, or of its acknowledgements, before a timeout.
  lossBefore(event, una) {
    const drops = this.record.drops.filter(drop => drop.flow === this.f && drop.event < event), last = of => drops.filter(of).pop();
    return last(({sort, number: seq}) => sort === DATA && seq === una) || last(({sort, number: seq}) => sort === ACK && seq > una);
  }
  // Of a wait at a link which flow's packets it sent meanwhile, in order.
  waits(track, k, since) {
    const found = [];
    for (let until = track.begun(k), j = k - 1; until > since; j--) {
      const begin = Math.max(track.begun(j), since), flow = track.flow[track.entryOf(j)];
      if (found.length && found[0].flow === flow) found[0].begin = begin; else found.unshift({flow, begin, end: until});
      until = begin;
    }
    return found;
  }
  // The event with which a span begins: where it is not known, that at which its link becomes free; where that is not among the
  // lines, the last one up to then.
  eventOf({event: known, link, begin: time}) {
    if (known !== undefined) return known;
    const {record} = this, after = record.eventsBefore(time + 1);
    for (let event = after; event > record.first && record.timeOf(event) === time; event--) {
      const words = record.line(event).split(' ');
      if (words[5] === 'free' && +words[6] === link) return event;
    }
    return after;
  }

  // How long each part took, the greatest first: {part, ns, event}, the event with which it begins first, and the loss before that
  // timeout.
  parts() {
    const sums = new Map();
    for (const span of this.spans) {
      const {part, begin, end, loss} = span, key = partText(part), sum = sums.get(key) || {part, ns: 0, event: this.eventOf(span), loss};
      sums.set(key, sum);
      sum.ns += end - begin;
    }
    return [...sums.values()].sort((one, two) => two.ns - one.ns);
  }
  // The pieces of a bar: spans that follow each other are put together by their looks until they last `finest` ns, so that each can
  // be seen.
  pieces(lookOf, finest) {
    const found = [];
    let sums = new Map(), begin = this.begin;
    const put = () => {
      for (const [look, {ns, span}] of sums) {
        const last = found[found.length - 1];
        if (last && last.look === look) last.end += ns; else if (ns) found.push({look, begin, end: begin + ns, event: this.eventOf(span)});
        begin += ns;
      }
      sums = new Map();
    };
    for (const span of this.spans) {
      const look = lookOf(span.part), sum = sums.get(look) || {ns: 0, span};
      sums.set(look, sum);
      sum.ns += span.end - span.begin;
      if (span.end - begin >= finest) put();
    }
    put();
    return found;
  }
  // The span of a moment; null before the path's begin and from its end on.
  at(time) {
    if (this.begin === null || time < this.begin || time >= this.end) return null;
    let low = 0, high = this.spans.length;
    while (high - low > 1) {
      const middle = (low + high) >> 1;
      if (this.spans[middle].begin <= time) low = middle; else high = middle;
    }
    return this.spans[low];
  }
}
