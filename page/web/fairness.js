'use strict';
// Which flows Jain's index compares, and whether a run is too short for its figures: python/tcpsim/fairness.py and settled.py in
// the page, in the same words. Times are nanoseconds, sizes bytes, rates bit/s.

const PORTIONS = 30, THIRD = PORTIONS / 3, TEETH = 6, RISE = 2, LEAST_CHANGE = 0.02;
const STUDENT = 2.1009220402410382;         // Student's t at 0.975 for 2 THIRD - 2 degrees of freedom

// The segments that a flow's receiver has room for.
const roomOf = ({rwnd, mss}) => Math.floor(rwnd / mss);
// The round trip of a flow's segment and its acknowledgement where no packet waits.
function leastTrip({flows, ways, links}, f) {
  return d3.sum(ways[f], (way, back) => d3.sum(way, l => links[l].delay + timeOnLink(back ? HEADER_BYTES : flows[f].mss + HEADER_BYTES, links[l].rate)));
}
// The most that a flow asks for, with headers: its receiver's window in each least round trip.
function asked(facts, f) { return roomOf(facts.flows[f]) * (facts.flows[f].mss + HEADER_BYTES) * 8e9 / leastTrip(facts, f); }
// Those of these flows that can fill their share, as a full link stops them and not their own window. Shares are max-min fair: the
// rates of all flows rise together, until each has what it asks for, or a link on its way to the receiver is full.
function canFill(facts, flows) {
  const left = facts.links.map(({rate}) => rate), full = [];
  for (let rising = [...flows]; rising.length;) {
    const over = new Map();
    for (const f of rising) for (const l of facts.ways[f][0]) over.set(l, [...over.get(l) || [], f]);
    const levels = [...over].map(([l, ones]) => [left[l] / ones.length, l]).sort((one, two) => one[0] - two[0] || one[1] - two[1]);
    const [level, link] = levels[0], less = rising.filter(f => asked(facts, f) < level), stopped = less.length ? less : over.get(link);
    if (!less.length) full.push(...stopped);
    for (const f of stopped) for (const l of facts.ways[f][0]) left[l] -= less.length ? asked(facts, f) : level;
    rising = rising.filter(f => !stopped.includes(f));
  }
  return full.sort((one, two) => one - two);
}
// The flows that were under way, by their numbers: those that Jain's index compares, mice, those limited by their window, and
// those that have ended. `goodputs` and `completed` have null where there is none.
function comparedFlows(facts, goodputs, completed) {
  const there = d3.range(facts.flows.length).filter(f => goodputs[f] !== null), on = there.filter(f => completed[f] === null);
  const flows = canFill(facts, on), mice = on.filter(f => !flows.includes(f) && roomOf(facts.flows[f]) === 1);
  return [flows, mice, on.filter(f => !flows.includes(f) && !mice.includes(f)), there.filter(f => !on.includes(f))];
}
// Jain's index of fairness: 1 where all are equal, 1/n where one has all; null where all are zero.
function jain(shares) {
  const squares = d3.sum(shares, share => share * share);
  return squares ? d3.sum(shares) ** 2 / (shares.length * squares) : null;
}
// Of how many flows an index is, and how many it leaves out.
function ofFlows(parts) {
  const [flows, ...others] = parts.map(({length}) => length), sum = flows + d3.sum(others), every = many(sum, 'flow');
  const left = ['mice', 'limited by their window', 'that ended'].map((what, k) => [others[k], what]).filter(([count]) => count).map(one => one.join(' '));
  if (!flows) return left.length ? `as none of ${every} is compared (${left.join(', ')})` : `as there is none of ${every}`;
  return left.length ? `of ${flows} of ${every} (without ${left.join(', ')})` : `of ${every}`;
}

// ---- runs that are too short

// How long a tooth of a flow's sawtooth takes, beside these flows; 0 where its receiver's window cuts the teeth off. In congestion
// avoidance the window grows by a segment in a round trip, or in two where acknowledgements are delayed, from half of what the
// flow's part of the path and the queue holds to all of it (RFC 5681 section 3.1). CoDel's queue holds what waits for the target. One
// round trip more is that of the recovery.
function toothOf(facts, f, flows) {
  const flow = facts.flows[f], [there] = facts.ways[f], beside = l => flows.filter(one => facts.ways[one][0].includes(l)).length;
  const slowest = d3.min(there.map(l => facts.links[l].rate / beside(l))), l = there.find(one => facts.links[one].rate / beside(one) === slowest);
  const {rate, queue, limit} = facts.links[l], trip = leastTrip(facts, f);
  const duration = (flow.mss + HEADER_BYTES) * 8e9 / rate, most = (trip + (queue === 'codel' ? facts.targets[l] : limit * duration)) / duration / beside(l);
  if (roomOf(flow) < most) return 0;
  return ((flow.delack ? 2 : 1) * most / 2 + 1) * d3.mean([most / 2, most], segments => Math.max(trip, beside(l) * segments * duration));
}
// A time upwards to one that has two digits.
function upToTwoDigits(time) {
  const step = 10 ** Math.max(0, String(Math.floor(time)).length - 2);
  return Math.ceil(time / step) * step;
}
// Sentences that say why a run is too short for the figures of these flows from `begin` to `end`, and what would do. `portions` has
// what each flow delivered in each of the span's PORTIONS; none where the trace was not kept.
function tooShort(facts, begin, end, flows, portions) {
  const found = [], span = end - begin, teeth = flows.map(f => [toothOf(facts, f, flows), facts.flows[f].name]);
  const [length, name] = teeth.sort((one, two) => two[0] - one[0] || (one[1] < two[1] ? 1 : -1))[0] || [0, ''];
  if (length > span)
    found.push(`Too short: a tooth of ${name}'s sawtooth takes about ${spelledTime(upToTwoDigits(length))}, and figures are of ${spelledTime(span)}.`);
  const goodputs = (flows.length && portions || []).map(portion => d3.sum(flows, f => portion[f]) * PORTIONS * 8e9 / span);
  const thirds = [goodputs.slice(0, THIRD), goodputs.slice(-THIRD)], [before, after] = thirds.map(third => d3.mean(third));
  const variance = values => d3.sum(values, value => (value - d3.mean(values)) ** 2) / (values.length - 1);
  const half = STUDENT * Math.sqrt(d3.sum(thirds, variance) / THIRD);
  const changed = goodputs.length > 0 && Math.abs(after - before) > Math.max(half, LEAST_CHANGE * d3.mean(goodputs));
  if (changed)
    found.push(`Not settled: goodput is ${(before / 1e6).toFixed(3)} Mbit/s in the first third and ${(after / 1e6).toFixed(3)} in the last, ±${(half / 1e6).toFixed(3)} (bytes count once they are in order).`);
  if (found.length) found[found.length - 1] += ' ' + adviceOf(facts, begin, end, flows, length, changed);
  return found;
}
// A sentence with the span that would do: TEETH of this length, once the window of each flow has risen. A run whose goodput changed
// leaves out its first third and goes on to the triple. Both are the least where no tooth says how long goodput changes, or where it
// changed though all windows had the time to rise.
function adviceOf({flows: all}, begin, end, flows, length, changed) {
  const risen = (d3.max(flows, f => all[f].start) || 0) + RISE * length, span = end - begin;
  const first = upToTwoDigits(Math.max(begin, risen, changed ? begin + span / 3 : 0));
  const last = upToTwoDigits(Math.max(first + TEETH * length, changed ? begin + 3 * span : 0));
  const least = changed && (!length || begin >= risen) ? 'at least ' : '';
  return `${length ? `For ${TEETH} teeth count` : 'Count'} from ${least}${spelledTime(first)} on, to an end of ${least}${spelledTime(last)}.`;
}
// What each flow delivered in each portion of a span of a run that was read; null where the run was not read to its end.
function portionsOf(record, begin, end) {
  if (!record || !record.facts.whole) return null;
  const {at, facts} = record, moments = d3.range(1, PORTIONS).map(k => begin + Math.floor(k * (end - begin) / PORTIONS));
  const sums = [begin, ...moments].map(time => { record.go(record.eventsBefore(time)); return facts.flows.map((_, f) => record.flow(f).next); });
  record.go(record.last);
  sums.push(facts.flows.map((_, f) => record.flow(f).next));
  record.go(at);
  return d3.range(PORTIONS).map(k => facts.flows.map((_, f) => sums[k + 1][f] - sums[k][f]));
}
