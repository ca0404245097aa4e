'use strict';
// Pinned numbers in a scenario's text, the values of their ranges, and a shelf as words: in a lesson's front matter, and in what is
// shared.

const MOST_REPLICATES = 20;

// Where a pinned number stands in the lines of a text: {line, name, of, begin, end, value}; null where it does not.
function pinnedIn(lines, {of, name}) {
  for (let line = 0; line < lines.length; line++) {
    const ones = [...lines[line].split('#', 1)[0].matchAll(/[^ ]+/g)], moved = ones.length && MOVED[ones[0][0]];
    const k = moved && (name === 'end' || ones[1] && ones[1][0] === of) && Object.keys(moved).find(one => moved[one] === name);
    const at = k && ones[k] && numberIn(lines[line], ones[k].index);
    if (at) return {line, ...at};
  }
  return null;
}
function withValue(text, pin, value) {
  const lines = text.split('\n'), at = pinnedIn(lines, pin);
  if (!at) return null;
  lines[at.line] = lines[at.line].slice(0, at.begin) + value + lines[at.line].slice(at.end);
  return lines.join('\n');
}
// Whether the values of a number go from notch to notch, 1, 2, 5, 10, ..: their axis is logarithmic.
const isByNotches = name => !STEPS_OF[name];
// The values of a range, step by step; of more than so many every second, third, .. The one that the text has now is among them.
function valuesOf(name, [least, most], count, now = least) {
  const all = [];
  for (let value = least; all.length < 1e5; value = nextValue(name, value, 1, [least, most])) {
    all.push(value);
    if (value >= most) break;
  }
  const by = Math.ceil(all.length / count), kept = all.filter((_, k) => k % by === 0 || k === all.length - 1);
  if (now > least && now < most && !kept.includes(now)) kept.splice(d3.bisectLeft(kept, now), 0, now);
  return kept;
}
// The range that a pinned number has at first: from an eighth of its value to the fourfold, from notch to notch where its values go so.
function usualRange({name, value}, limits) {
  const [least, most] = limits;
  if (name === 'iw') return limits;
  const low = Math.max(least, Math.floor(value / 8)), high = Math.min(most, Math.max(4 * value, STEPS_OF[name] ? 10 * STEPS_OF[name] : value ? 0 : 1e9));
  if (STEPS_OF[name]) return [low, Math.max(high, low + 1)];
  const isNotch = one => /^[125]0*$/.test(one), below = isNotch(low) ? low : nextValue(name, low, -1, limits), above = isNotch(high) ? high : nextValue(name, high, 1, limits);
  return [below, Math.max(above, below + 1)];
}
const spelledOf = (name, value) => (SPELLERS.has(READERS[name]) ? spell(name, value) : String(value));
const readOf = (name, word) => (/^\d{1,15}$/.test(word) ? +word : (READERS[name] || countOf)(word));

// As `pq.capacity=1..100; used pq; both; spread=1..4`.
function shelfText({pins, figure, both, replicates}) {
  if (!pins.length) return '';
  return [...pins.map(({of, name, range}) => `${of ? `${of}.` : ''}${name}=${range.map(value => spelledOf(name, value)).join('..')}`), figure, ...(both ? ['both'] : []),
    ...(replicates ? [`spread=1..${replicates}`] : [])].join('; ');
}
// Throws Wrong where it is none.
function readShelf(text, ranges) {
  const parts = text.split(/; */).filter(Boolean), pins = [];
  let figure = '', both = false, replicates = 0;
  for (const part of parts) {
    const found = /^(?:([A-Za-z]\w*)\.)?([a-z]+)=([\w.]+?)\.\.([\w.]+)$/.exec(part);
    if (found && found[2] === 'spread') {
      replicates = countOf(found[4]);
      if (found[3] !== '1' || replicates < 1 || replicates > MOST_REPLICATES) throw new Wrong(`${part}: replicates are spread by 1 and so on, up to ${MOST_REPLICATES}`);
    } else if (found) {
      const [, of = '', name, ...ends] = found;
      if (!ranges[name]) throw new Wrong(`no number is named ${name}`);
      const range = ends.map(word => within(ranges, name, readOf(name, word)));
      if (range[0] >= range[1]) throw new Wrong(`${part} is no range`);
      pins.push({of, name, range});
    } else if (part === 'both') both = true; else figure = part;
  }
  return {pins, figure, both, replicates};
}
