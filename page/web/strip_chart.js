'use strict';
// A strip below a slider: a figure over the slider's range. The axis is the slider's own: a value has the same place on both. Runs are
// points, of replicates their means too; a line joins those of steps beside each other.

// Of a strip: its height where it is not laid out, what is beside it and above it, and in letters' heights what is below it.
const STRIP = {tall: 84, right: 14, top: 8, below: 1.6};
const OTHER = 'var(--flow-1)', OWN = 'var(--accent)';
const MOST_DOTS = 60;                   // values of a range whose points are all drawn
const TICKS_INSIDE = 5;                 // names of a linear axis beside its ends, about
const TICK = 4, BETWEEN_LABELS = 8;     // pixels

// Where a value lies on a slider, from 0 to 1. Times that can be 0 have that a notch below the first one.
function placesOf(name, values) {
  const ends = [values[0], values[values.length - 1]];
  if (!isByNotches(name)) return d3.scale.linear().domain(ends);
  const above = value => Math.max(value, ends[0] || LEAST_TIME / 2), scale = d3.scale.log().domain(ends.map(above));
  return Object.assign(value => scale(above(value)), {invert: part => scale.invert(part)});
}
// Where the text's own value lies, which may be between two of the range's; outside of the range it is at its end.
const placeNow = ({place, range: [least, most], now}) => place(Math.max(least, Math.min(most, now.value)));
// The values that the axis names, [value, words, x, anchor]: both ends with their unit, and between them round ones that have room, a
// power of ten before the others.
function labelsOf({name, values}, x, widthOf) {
  const ends = [values[0], values[values.length - 1]], labels = [], taken = [], free = (from, to) => taken.every(([begin, end]) => to < begin - BETWEEN_LABELS || from > end + BETWEEN_LABELS);
  const put = (value, words, anchor) => {
    const wide = widthOf(words), from = x(value) - wide * {start: 0, middle: .5, end: 1}[anchor];
    if (anchor === 'middle' && !free(from, from + wide)) return;
    taken.push([from, from + wide]);
    labels.push([value, words, x(value), anchor]);
  };
  put(ends[0], wordsOf(name, ends[0]), 'start');
  put(ends[1], wordsOf(name, ends[1]), 'end');
  const inner = values.slice(1, -1), round = isByNotches(name) ? inner.filter(value => /^[125]0*$/.test(value)) : d3.scale.linear().domain(ends).ticks(TICKS_INSIDE).filter(value => inner.includes(value));
  for (const value of round.sort((one, two) => /^10*$/.test(two) - /^10*$/.test(one) || one - two)) put(value, spelledOf(name, value), 'middle');
  return labels;
}

// Draws a pinned number's strip. `curves` are the figure's, [place, values, whether all are counted] of its own queue and of the other;
// `text` writes one, `left` is where all strips begin, and `says` has the words of the figure and of the other queue.
function drawStrip(pin, curves, text, left, says) {
  const {width, height} = pin.strip.getBoundingClientRect(), wide = width || 300, tall = height || STRIP.tall, {font, fontSize} = getComputedStyle(pin.strip), letters = parseFloat(fontSize);
  const bottom = tall - STRIP.below * letters, to = wide - STRIP.right, x = pin.x = value => left + pin.place(value) * (to - left), at = k => x(pin.values[k]);
  const most = greatestOf(curves.flat().map(([, values]) => greatestOf(values))), top = most > 0 ? most : 1, y = d3.scale.linear().domain([0, 1.08 * top]).range([bottom, STRIP.top]);
  const isNow = k => Boolean(pin.now) && k === pin.index && pin.values[k] === pin.now.value;
  const svg = d3.select(pin.strip).attr('viewBox', `0 0 ${wide} ${tall}`), write = (across, up, words, anchor) => svg.append('text').attr('x', across).attr('y', up).attr('text-anchor', anchor).text(words);
  // A figure at a value: the mean of its runs, once all are counted.
  pin.curves = curves.map(curve => curve.filter(([, , whole]) => whole).map(([k, values]) => [k, d3.mean(values)]));
  pin.element.style.setProperty('--left', `${left}px`);
  svg.selectAll('*').remove();
  svg.append('path').attr('class', 'frame').attr('d', `M${left} ${STRIP.top}V${bottom}H${to}`);
  write(left - 6, bottom + 1, text(0), 'end');
  if (curves.flat().length) write(left - 6, y(top) + letters / 3, text(top), 'end');
  for (const [, words, across, anchor] of labelsOf(pin, x, words => textWidth(words, font))) {
    svg.append('path').attr('class', 'frame').attr('d', `M${across} ${bottom}v${TICK}`);
    write(across, tall - 0.3 * letters, words, anchor);
  }
  // Where there are but two steps there is nothing between them.
  const isJoined = (curve, n) => pin.values.length > 2 && Boolean(curve[n]) && Boolean(curve[n - 1]) && curve[n][0] === curve[n - 1][0] + 1;
  curves.forEach((curve, kind) => {
    const colour = kind ? OTHER : OWN, dot = (k, value, r, name) => svg.append('circle').attr('class', name).attr('cx', at(k)).attr('cy', y(value)).attr('r', r).attr('fill', colour);
    for (const [k, values] of curve) if (values.length > 1) values.forEach(value => dot(k, value, 1.5, 'run'));
    svg.append('path').attr('class', 'curve').attr('stroke', colour).attr('stroke-dasharray', kind ? '6 3' : null)
      .attr('d', pin.curves[kind].map(([k, value], n, all) => `${isJoined(all, n) ? 'L' : 'M'}${at(k).toFixed(1)} ${y(value).toFixed(1)}`).join(''));
    pin.curves[kind].forEach(([k, value], n, all) => {
      const isAlone = !isJoined(all, n) && !isJoined(all, n + 1);
      if (pin.values.length <= MOST_DOTS || isNow(k) || isAlone) dot(k, value, isNow(k) ? 4 : isAlone ? 3 : 1.8, 'value');
    });
  });
  if (!pin.now) return;
  const here = pin.curves.map(curve => curve.find(([k]) => isNow(k))), isInside = pin.now.value >= pin.range[0] && pin.now.value <= pin.range[1];
  const said = here.map((one, kind) => one && `${kind ? `${says.other} ` : ''}${text(one[1])}`).filter(Boolean).join(', ');
  pin.strip.setAttribute('aria-label', `${says.figure} over ${pin.of} ${pin.name}, ${wordsOf(pin.name, pin.values[0])} to ${wordsOf(pin.name, pin.values[pin.values.length - 1])}: ${said || (isInside ? 'counting' : `${wordsOf(pin.name, pin.now.value)} is outside of it`)}`);
  if (!isInside) return;
  const present = x(pin.now.value), high = here.some(one => one && y(one[1]) < (STRIP.top + bottom) / 2);
  svg.append('path').attr('class', 'handle').attr('d', `M${present} ${STRIP.top}V${bottom}`);
  if (!said) return;
  // Beside the handle, where no curve is, if there is such a place.
  const long = textWidth(said, `bold ${font}`), rows = high ? [bottom - 6, STRIP.top + letters] : [STRIP.top + letters, bottom - 6], sides = present > wide / 2 ? [-1, 1] : [1, -1];
  const places = sides.flatMap(side => rows.map(row => ({side, row, from: present + side * 6 - (side < 0 ? long : 0)})));
  const isFree = ({from, row}) => from >= left && from + long <= to && !pin.curves.some(curve => curve.some(([k, value], n) => {
    const [other, next] = curve[n + 1] || [k, value], begin = Math.max(at(k), from), end = Math.min(at(other), from + long);
    const ups = [begin, end].map(across => y(value) + (y(next) - y(value)) * (across - at(k)) / (at(other) - at(k) || 1));
    return begin <= end && Math.min(...ups) < row + 0.3 * letters && Math.max(...ups) > row - letters;
  }));
  const {side, row} = places.find(isFree) || places[0];
  write(present + side * 6, row, said, side < 0 ? 'end' : 'start').attr('class', 'here');
}
// How much room the words at the upright axis take.
function beforeAxis(curves, text, strip) {
  const {font} = getComputedStyle(strip), most = greatestOf(curves.flat().map(([, values]) => greatestOf(values)));
  return Math.ceil(d3.max([0, most > 0 ? most : 1], value => textWidth(text(value), font))) + 8;
}
// The place of the value that is nearest, in rising values.
function nearest(values, value) {
  const k = Math.min(values.length - 1, d3.bisectLeft(values, value));
  return k && value - values[k - 1] < values[k] - value ? k - 1 : k;
}
