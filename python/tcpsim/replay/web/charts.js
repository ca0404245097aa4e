'use strict';
// A chart over the page's whole span: curves, points and areas in lanes below each other, one axis of time, a line at the present
// moment. What lies behind them is shaded, and marks say what happened.

const CHART = {wide: 632, tall: 150, left: 52, right: 8, apart: 8};
const UNDER_AXIS = 1.7;                 // the room below a chart, as a part of its letters' height
const BESIDE_AXIS = 10;                 // what an axis' ticks take beside their labels
const TICKS = [8, 6, 5, 4, 3, 2, 1];
const DASHES = ['', '7 3', '2 3', '9 3 2 3'];
const LEAST_LANE = 20, LETTERS_OF_LANE = 1.6, LANE_GAP = 5;    // pixels: of a lane's height, which has so many letters' too, and between two
const AFTER_LAST = 0.03;                    // what the axis of time has behind the last event, as a part of the span, to see what that one does
const NEAR = 1.25, EDGE = 3;            // what is thin counts for the scale up to so much above the rest; nothing thin is drawn so near to the frame, in pixels
const MOST_OF_NAME = 0.2;               // of a chart's width, that a lane's name may have
const OWN_SCALE = 3;                    // a lane with values smaller than the others' by this has an axis of its own
const MARK = 1 / 3, KEY_SIGN = 18;      // half of a mark's width, in heights of letters; what the key's signs have beside them
const ROWS_OF_WORD = [0, -1.1, 1.1, -2.2, 2.2];     // where words of a mark are, in steps that a ring takes
const DIGIT = 0.62, APART = 3;           // a letter's width, as a part of its height; pixels between two marks
const SIGNS = {full: 'm-4-4l8 8m0-8l-8 8', codel: 'm-4-4h8l-4 8z', lost: 'm-5 0h10m-5-5v10', timeout: '', level: 'm-6 0h13', before: 'm-6 0h5m3 0h5', above: 'm0 5v-10m-4 4l4-4 4 4'};
const BAND_ROW = 1.3, THIN_ROW = 4;        // the height of a strip of bands, as a part of that of letters; and in pixels where curves need the room
const ROW_OF_KEY = 1.25, LEAST_OF_CURVES = 3.2; // in heights of letters: a row of the key, and what it leaves for curves
const valueText = value => value < 1 ? String(value) : d3.format('s')(value);

// The key's signs, by their numbers, in rows: the first has `beside` pixels, the others `room`.
function rowsOfKey(widths, sign, beside, room) {
  const rows = [[]];
  let left = beside;
  widths.forEach((wide, k) => {
    if (wide + sign > left) { rows.push([]); left = room; }
    rows[rows.length - 1].push(k);
    left -= wide + sign;
  });
  return rows;
}

// Of each column of the picture the first, least, greatest and last point of a curve: [time, value] each.
function thinned(curve, scale) {
  const kept = [], {times, values} = curve, [[begin, end], [left, right]] = [scale.domain(), scale.range()];
  const across = (right - left) / (end - begin);
  let column = -Infinity, first = 0, low = 0, high = 0, last = -1;
  const add = k => { if (k > last) { kept.push([times[k], values[k]]); last = k; } };
  const close = k => { const [one, two] = low < high ? [low, high] : [high, low]; add(first); add(one); add(two); add(k); };
  for (let k = 0; k < times.length; k++) {
    const x = Math.floor(left + (times[k] - begin) * across), value = values[k];
    if (x !== column) {
      if (k) close(k - 1);
      column = x; first = low = high = k;
    } else if (value < values[low]) low = k;
    else if (value > values[high]) high = k;
  }
  if (times.length) close(times.length - 1);
  return kept;
}
// The greatest of many numbers, and none of no numbers.
function greatestOf(values) {
  let most = -Infinity;
  for (let k = 0; k < values.length; k++) if (values[k] > most) most = values[k];
  return most;
}

// The greatest value that a lane's scale has.
function topOf(series) {
  const most = Math.max(0, ...series.filter(s => !s.thin || s.before).map(s => s.most !== undefined ? s.most : s.curve ? greatestOf(s.curve.values) : 0)) || 1;
  return Math.max(most, ...series.filter(s => s.thin && s.curve && !s.before).map(({curve}) => greatestOf(curve.values.filter(value => value <= NEAR * most))));
}
// The greatest values of lanes' axes: one has its own where its values are much smaller.
function scalesOf(lanes) {
  const tops = lanes.map(({series}) => topOf(series)), greatest = Math.max(...tops);
  return tops.map(top => 1.1 * (top * OWN_SCALE < greatest ? top : greatest));
}

class Chart {
  // `titles` say the same, the longest first; the first that has room is shown. `whole`: values are whole numbers; `text` writes one.
  constructor(svg, record, titles, go, {whole = true, text = valueText} = {}) {
    Object.assign(this, {record, go, whole, text, fonts: new Map()});
    this.node = svg.node();
    this.box = this.node.getBoundingClientRect(); this.boxed = this.node.parentNode.clientHeight;
    this.wide = Math.max(200, this.box.width || CHART.wide); this.tall = Math.max(80, this.box.height || CHART.tall);
    this.svg = svg.attr('viewBox', `0 0 ${this.wide} ${this.tall}`).attr('preserveAspectRatio', 'none');
    this.x = d3.scale.linear().domain(this.span());
    this.title = this.svg.append('text').attr('class', 'title');
    this.axes = this.svg.append('g');
    this.under = this.svg.append('g').attr('class', 'axis');
    this.letters = parseFloat(getComputedStyle(this.title.node()).fontSize);
    this.half = MARK * this.letters;
    this.bottom = Math.max(20, UNDER_AXIS * this.letters);
    this.under.attr('transform', `translate(0,${this.tall - this.bottom})`);
    this.bands = this.svg.append('g').attr('class', 'bands');
    this.curves = this.svg.append('g');
    this.marks = this.svg.append('g').attr('class', 'marks');
    this.names = this.svg.append('g');
    this.key = this.svg.append('g');
    this.layTitle(titles);
    // The line at the present moment lies over the picture, which then need not be drawn again.
    this.present = document.createElement('div');
    this.present.className = 'present';
    this.node.parentNode.append(this.present);
    this.catch = this.svg.append('rect').attr('class', 'catch').on('click', () => this.go(this.x.invert(d3.mouse(this.svg.node())[0])));
    this.layTop(this.head);
    this.layTime(CHART.left);
  }
  // From the run's begin to shortly behind its last event.
  span() {
    const {times, count} = this.record, last = Math.max(times[count], times[0] + 1);
    return [times[0], last + AFTER_LAST * (last - times[0])];
  }
  // Up to where curves are known: of a whole run what is behind the last event stays.
  get known() {
    const {times, count, facts} = this.record, last = times[count];
    return facts && facts.whole ? Math.max(last, Math.min(facts.end, this.x.domain()[1])) : last;
  }
  // Another run takes this one's place.
  replace(record) {
    this.record = record;
    const span = this.span();
    if (this.x.domain().join() === span.join()) return;
    this.x.domain(span);
    this.layTime(this.leftOf);
  }
  // The title as high as its letters are, and what is below it further down.
  layTitle(titles) {
    const {fontBoundingBoxAscent: above, fontBoundingBoxDescent: below} = measured('', this.fontOf(this.title));
    this.titles = titles.map(words => [words, textWidth(words, this.fontOf(this.title))]);
    this.title.attr('x', 4).attr('y', above);
    this.head = above + below + 2;
  }
  // Curves begin below the title, and below the key where that has rows of its own.
  layTop(top) {
    this.top = top;
    this.catch.attr('y', top).attr('height', this.tall - top - this.bottom);
    this.present.style.height = `${this.box.height * (this.tall - this.bottom - this.top) / this.tall}px`;
    this.present.style.top = `${this.boxed - this.box.height * (1 - this.top / this.tall)}px`;
  }
  // The axis of time from `left` on: as many ticks as have room for their labels, the first and the last whole.
  layTime(left) {
    const [begin, end] = this.x.domain(), span = end - begin;
    const [scale, name] = span >= 2e9 ? [1e9, 's'] : span >= 2e6 ? [1e6, 'ms'] : [1e3, 'µs'];
    const times = this.x.copy().domain([begin / scale, end / scale]);
    const axis = d3.svg.axis().orient('bottom').tickFormat(t => `${t} ${name}`);
    for (const count of TICKS) {
      this.under.call(axis.scale(times).tickValues(times.ticks(count)));
      const widest = this.widestOf(this.under);
      this.x.range([Math.max(left, widest / 2 + 1), this.wide - Math.max(CHART.right, widest / 2 + 1)]);
      times.range(this.x.range());
      const [first, second] = times.ticks(count).map(times);
      if (second === undefined || second - first > widest + CHART.apart) break;
    }
    this.under.call(axis.scale(times));
    const [from, to] = this.x.range();
    this.leftOf = left;
    this.catch.attr('x', from).attr('width', to - from);
  }
  resize() {
    this.box = this.node.getBoundingClientRect(); this.boxed = this.node.parentNode.clientHeight;
    this.layTop(this.top);
  }
  // The font of a text, which is that of all with its class.
  fontOf(text) {
    const {fonts} = this, name = text.attr('class') || '';
    return fonts.get(name) || fonts.set(name, getComputedStyle(text.node()).font).get(name);
  }
  widthOf(text) { return textWidth(text.text(), this.fontOf(text)); }
  // The width of the widest label of an axis.
  widestOf(axis) { return d3.max(axis.selectAll('text')[0], text => this.widthOf(d3.select(text))) || 0; }
  within(time) { return this.x(Math.min(this.x.domain()[1], Math.max(this.x.domain()[0], time))); }

  // Each lane is {name, colour, series, bands, marks}. Of `series` each is {curve, colour, dash, thin, name}, or {dots, ..} with points,
  // or {level, ..}, a value, or {area, ..} with [time, from, to] of each column; one with `behind` counts for the scale, and is drawn once it is of a run before; of `bands` a span that is shaded, {kind, from, to, name, whose}, in a strip above the
  // curves where it says `whose` it is, {name, mark, colour}; of `marks` a moment, {kind, time, value, name, whose, colour, link}. `key` has [kind, words, colour] of bands, marks and flows. Lanes that have no room are one, in which the
  // first is before the others.
  show(lanes, key = []) {
    this.drawKey(key);
    const height = this.tall - this.bottom - this.top, room = lanes.length < 2 || height / lanes.length >= Math.max(LEAST_LANE, LETTERS_OF_LANE * this.letters) + LANE_GAP;
    const kept = room ? lanes : [this.together(lanes)];
    const scales = scalesOf(kept), lane = height / Math.max(1, kept.length);
    for (const group of [this.axes, this.bands, this.curves, this.marks, this.names]) group.selectAll('*').remove();
    this.lanes = kept.map((one, k) => {
      const {bands = [], marks = []} = one, has = ({whose}) => whose, all = [...new Map([...bands, ...marks].filter(has).map(({whose}) => [whose.name, whose])).values()];
      const gap = k ? LANE_GAP + (all.length ? this.half : 0) : 0, spare = (lane - gap - LEAST_OF_CURVES * this.letters) / all.length, row = Math.max(THIN_ROW, Math.min(BAND_ROW * this.letters, spare));
      // Marks alone have strips where these have room for letters.
      const strips = row < this.letters && !bands.some(has) ? [] : all, top = this.top + lane * k + gap, from = top + strips.length * row, to = this.top + lane * (k + 1);
      return {...one, bands, marks, strips: strips.map((strip, s) => ({...strip, top: top + s * row, tall: row - 2})), from, to, y: d3.scale.linear().range([to, from]).domain([0, scales[k]])};
    });
    this.lanes.forEach(({y, from, to}, k) => {
      const rows = Math.max(to - from > 2 * this.letters ? 2 : 1, Math.min(4, Math.floor((to - from) / (1.6 * this.letters))));
      const axis = this.axes.append('g').attr('class', 'axis').call(d3.svg.axis().scale(y).orient('left').tickSize(4)
        .tickValues(y.ticks(rows).filter(value => !this.whole || Number.isInteger(value))).tickFormat(this.text));
      // Below another lane its highest label would lie over that one's lowest; a low lane has no room for two.
      const isLow = to - from < 2.5 * this.letters;
      axis.selectAll('text').filter(value => value ? y(value) < from + (k && !isLow ? 0.9 : 0.6) * this.letters : isLow).remove();
    });
    const names = kept.length > 1 ? d3.max(this.lanes, lane => this.drawName(lane)) : 0, left = Math.max(CHART.left, this.widestOf(this.axes) + BESIDE_AXIS + names);
    if (left !== this.leftOf) { this.layTime(left); this.mark(this.time); }
    this.axes.attr('transform', `translate(${this.x.range()[0]},0)`);
    for (const one of this.lanes) this.drawLane(one);
  }
  // All lanes in one, with the scale of the first: of the others what is drawn most, thin behind it.
  together([first, ...others]) {
    return {...first, series: [...others.flatMap(({series}) => series.filter(s => !s.thin).map(s => ({...s, thin: true, other: true}))), ...first.series]};
  }
  // A lane's name before its axis, as far as there is room for it; answers what that takes.
  drawName({name, colour, from}) {
    const text = this.names.append('text').attr('class', 'lane').attr('x', 2).attr('y', from + this.letters).text(name);
    for (let k = name.length - 1; k && this.widthOf(text) > MOST_OF_NAME * this.wide; k--) text.text(`${name.slice(0, k)}…`);
    const wide = this.widthOf(text);
    if (text.text() !== name) text.append('title').text(name);
    this.names.append('rect').attr('x', 2).attr('y', from + this.letters + 2).attr('width', wide).attr('height', 3).attr('fill', colour);
    return wide + 2;
  }
  drawLane(lane) {
    const {series, bands, strips, y, from, to} = lane, marks = this.drawMarks(lane);
    const line = () => d3.svg.line().x(p => this.x(p[0])).y(p => Math.max(from, y(p[1]))).interpolate('step-after');
    for (const {kind, from: begin, to: end, name: words} of bands.filter(({whose}) => !whose)) this.drawBand(kind, words, begin, end, from, to - from);
    const of = (ones, {name}) => ones.filter(({whose}) => whose && whose.name === name);
    for (const strip of strips) this.drawStrip(strip, of(bands, strip), of(marks, strip).filter(({kind}) => kind !== 'timeout').map(({begin, until}) => [begin, until]));
    for (const one of series) this.curveOf(one, y, line(), from);
  }
  drawBand(kind, words, begin, end, top, tall) {
    const x = this.within(begin), wide = Math.max(1, this.within(end) - x);
    this.bands.append('rect').attr('class', kind).attr('x', x).attr('width', wide).attr('y', top).attr('height', tall).append('title').text(words);
    return [x, x + wide];
  }
  // A flow's spans in a strip of its own, behind its name, each with its word, where these have room beside the marks there: nothing there is a value.
  drawStrip({name, mark, colour, top, tall}, bands, taken) {
    const [left, right] = this.x.range(), base = top + 0.8 * tall, hasWords = tall + 2 >= this.letters;
    const head = hasWords && this.bands.append('text').attr('text-anchor', 'end').attr('x', left - 5).attr('y', base).text(name);
    if (head && this.widthOf(head) > left - 8) head.text(mark);
    const wide = head ? this.widthOf(head) : KEY_SIGN / 2;
    this.bands.append('rect').attr('x', left - 5 - wide).attr('width', wide).attr('y', top + tall - 1).attr('height', 2).attr('fill', colour);
    this.bands.append('rect').attr('class', 'strip').attr('x', left).attr('width', right - left).attr('y', top).attr('height', tall);
    for (const {kind, name: words, from, to} of bands) {
      const [begin, end] = this.drawBand(kind, words, from, to, top, tall);
      if (!hasWords) continue;
      const word = this.bands.append('text').attr('y', base).text(LOOKS.marks[kind].split(' for ', 1)[0]), wide = APART + this.widthOf(word);
      const at = [begin, ...taken.map(([, other]) => other)].find(x => x >= begin && x + wide <= end && taken.every(([one, other]) => x >= other || one >= x + wide));
      if (at === undefined) word.remove(); else { word.attr('x', at + APART); taken.push([at, at + wide]); }
    }
  }
  curveOf({curve, dots, area, level, colour, dash, thin, before, behind, name}, y, line, from) {
    if (behind || level !== undefined && y(level) < from) return;
    const path = this.curves.append('path');
    if (level !== undefined) path.attr('class', 'level').attr('d', `M${this.x.range()[0]} ${y(level)}H${this.x.range()[1]}`);
    else if (area)
      path.attr('class', 'area').style('fill', colour).attr('d', area.map(([x, low, high]) => `M${x} ${y(low).toFixed(1)}V${y(high).toFixed(1)}h1.02V${y(low).toFixed(1)}z`).join(''));
    else if (dots)
      path.attr('class', 'dots').attr('stroke', colour).attr('stroke-width', thin ? 1.5 : 3).attr('d', this.dotted(dots, y, from));
    else {
      const points = thinned(curve, this.x), end = this.known;
      if (points.length) points.push([end, points[points.length - 1][1]]);
      // What is thin does not count for the scale: where it is above the frame it is not drawn, as a line there would be read as a value.
      if (thin && !before) line.defined(([, value]) => y(value) >= from + EDGE);
      path.attr('d', points.length ? line(points) : null).attr('stroke', colour).attr('stroke-dasharray', dash || null).attr('stroke-width', thin ? 1 : 1.7)
        .attr('class', thin ? 'thin' : null);
    }
    path.append('title').text(name);
  }
  // Points as dots: of each column the least and the greatest, and what lies between them as far as it is seen.
  dotted(dots, y, from) {
    return thinned(dots, this.x).map(([time, value]) => `M${this.x(time).toFixed(1)} ${Math.max(from, y(value)).toFixed(1)}h.01`).join('');
  }
  // Marks in their order, of a kind and a row. Those that would lie upon each other are one, with how many it is beside it; and at which link
  // where that differs, or whose where they have no row. Answers each, with how far it reaches.
  drawMarks({marks, strips, y, from, to}) {
    const rows = new Map(), {half, letters} = this;
    for (const {kind, time, value, name, whose, colour, link = ''} of [...marks].sort((one, two) => one.time - two.time)) {
      const strip = whose && strips.find(one => one.name === whose.name && one.tall + 2 >= letters), key = `${kind} ${strip ? strip.name : ''}`;
      const at = value !== undefined ? Math.max(from, y(value)) : strip ? strip.top + strip.tall / 2 : kind === 'timeout' ? from + 0.5 * letters : to - half - 1;
      if (!rows.has(key)) rows.set(key, []);
      const row = rows.get(key), place = [whose && !strip ? whose.mark : '', link].filter(Boolean).join(' ');
      row.push(this.reach({kind, x: this.within(time), at, whose, strip, colour, name, of: new Map([[place, 1]])}));
      for (let k = row.length - 1; k && row[k].begin < row[k - 1].until && Math.abs(row[k].at - row[k - 1].at) <= (kind === 'again' ? 1 : letters); k--) {
        const [one, two] = row.slice(k - 1);
        for (const [where, count] of two.of) one.of.set(where, (one.of.get(where) || 0) + count);
        row[k - 1] = this.reach({...one, colour: one.colour === two.colour ? one.colour : null});
        row.pop();
      }
    }
    const made = [...rows.values()].flat(), rings = made.filter(({kind}) => kind === 'again');
    for (const one of [...made].sort((one, two) => !!one.word - !!two.word)) this.drawMark({...one, says: this.wordAt(one, rings)}, from, to);
    return made;
  }
  // The height of a mark's words: its own, or above or below it, so that they hide no ring.
  wordAt({x, at, begin, until, word}, rings) {
    const {half, letters} = this, apart = letters / 2 + half + 2;
    const isFree = y => rings.every(ring => ring.x + half + 1 < begin || ring.x - half - 1 > until || Math.abs(ring.at - y) > apart);
    return (word && ROWS_OF_WORD.map(row => at + row * apart).find(isFree)) || at;
  }
  // How many a mark is, its words, and from where to where it reaches with these, which have no room beyond the edge.
  reach(one) {
    const {half} = this, {kind, x, of} = one, count = d3.sum([...of.values()]), isSign = !['again', 'timeout'].includes(kind), times = many => (count > 1 ? `×${number(many)}` : '');
    const word = kind === 'again' ? '' : of.size > 2 ? times(count) : [...of].map(([where, many]) => [where, times(many)].filter(Boolean).join(' ')).join(', ');
    const wide = word ? 1 + word.length * DIGIT * this.letters : 0, isLeft = x + half + wide > this.wide;
    return {...one, count, word, isLeft, begin: x - (isSign ? half : 0) - (isLeft ? wide : 0), until: x + (kind === 'again' ? 1 : half + (isSign || word ? APART : 0) + (isLeft ? 0 : wide))};
  }
  drawMark({kind, x, at, says, strip, whose, of, colour, name, count, word, isLeft}, from, to) {
    const path = this.marks.append(kind === 'again' ? 'circle' : 'path').attr('class', kind).style('stroke', colour || null);
    if (kind === 'timeout') path.attr('d', `M${x} ${from}V${to}`);
    else if (kind === 'again') path.attr('cx', x).attr('cy', at).attr('r', this.half + 1).attr('fill', 'none');
    else for (const each of [this.marks.insert('path', 'path:last-child').attr('class', 'halo'), path]) this.sign(each, kind, x, at);
    // Among the curves of several flows every second dash has its flow's colour.
    if (kind === 'timeout' && whose && of.size === 1) this.marks.append('path').attr('class', 'timeout-of').attr('d', `M${x} ${from}V${to}`).style('stroke', whose.colour);
    // In a strip words may lie over it.
    if (kind === 'timeout' && strip) this.bands.append('path').attr('class', kind).attr('d', `M${x} ${strip.top}v${strip.tall}`);
    path.append('title').text(count > 1 ? `${name}, and ${number(count - 1)} more` : name);
    if (!word) return;
    this.marks.append('text').attr('class', 'many').attr('x', x + (isLeft ? -1 : 1) * (this.half + 1)).attr('text-anchor', isLeft ? 'end' : 'start').attr('y', says + 0.35 * this.letters).text(word);
  }
  // A sign at a place, as large as letters are.
  sign(path, kind, x, at) { path.attr('d', `M0 0${SIGNS[kind] || SIGNS.full}`).attr('transform', `translate(${x},${at})scale(${this.half / 4})`).attr('vector-effect', 'non-scaling-stroke'); }
  // What bands and marks mean: beside the title, and below it in as many rows as leave room for curves. Of the titles the longest with
  // which the most has room, in the fewest rows.
  drawKey(key) {
    const words = JSON.stringify(key);
    if (words === this.keyed) return;           // as it was
    this.keyed = words;
    this.key.selectAll('*').remove();
    const texts = key.map(([, words]) => this.key.append('text').attr('class', 'key').text(words)), row = ROW_OF_KEY * this.letters;
    const widths = texts.map(text => this.widthOf(text)), room = this.wide - CHART.right, most = 1 + Math.max(0, Math.floor((this.tall - this.head - this.bottom - LEAST_OF_CURVES * this.letters) / row));
    const sign = KEY_SIGN + 2 * this.half;
    const made = this.titles.filter(([, wide], k) => wide <= this.wide - 6 || k === this.titles.length - 1).map(([title, wide]) => ({title, rows: rowsOfKey(widths, sign, room - wide - CHART.apart, room)}));
    const cost = ({rows}) => rows.slice(most).flat().length * 100 + rows.length, {title, rows} = made.reduce((best, one) => cost(one) < cost(best) ? one : best);
    this.title.text(title);
    rows.forEach((ones, r) => {
      let x = room;
      for (const k of ones) {
        if (r >= most) { texts[k].remove(); continue; }
        this.drawSign(key[k], texts[k], x - widths[k], this.head - 5 + r * row);
        x -= widths[k] + sign;
      }
    });
    this.layTop(this.head + (Math.min(most, rows.length) - 1) * row);
  }
  // A sign before its words.
  drawSign([kind, , colour], text, x, y) {
    const {half} = this, at = x - 5 - half;
    text.attr('x', x).attr('y', y);
    if (['stall', 'recovery', 'flow'].includes(kind)) this.key.append('rect').attr('class', kind).attr('fill', colour || null).attr('x', at - half).attr('y', y - 2 * half - 1).attr('width', 2 * half + 2).attr('height', 2 * half + 2);
    else if (kind === 'again') this.key.append('circle').attr('class', kind).attr('cx', at).attr('cy', y - half).attr('r', half).attr('fill', 'none');
    else if (kind === 'timeout') this.key.append('path').attr('class', kind).attr('d', `M${at} ${y - 2.5 * half}v${2.75 * half}`);
    else this.sign(this.key.append('path').attr('class', kind), kind, at, y - half);
  }
  mark(time) {
    this.time = time;
    const x = this.within(time).toFixed(1);
    this.present.style.transform = `translateX(${x * this.box.width / this.wide}px)`;
    this.present.dataset.time = time;
  }
}
