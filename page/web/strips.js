'use strict';
// The figures of a shelf's strips: of each value of a pinned number the program's, counted in the background, coarse at first and then
// from the slider's handle on. A value has a text of its own, with replicates so many, and the same with the other queue.

const COARSE = 8;                       // parts into which a range is cut at first
const MOST_OF_TEXTS = 2e7, MOST_ANSWERS = 4000;     // letters of the texts of a range, and texts whose figures are kept
const MOST_RUNNING = Math.max(1, Math.min(8, navigator.hardwareConcurrency || 2));
const WAITS_FOR_HAND = 40;              // ms after which it is asked again whether a hand moves
const OF_QUEUE = ['capacity', 'target', 'interval', 'maxpacket'];
// What a strip can show: a name, of what it is, how it is read from an overview of figures, and how it is written.
const inTime = ns => (ns ? waitText(ns) : '0 s'), inRate = bits => rateText(+bits.toPrecision(4)), inCount = (value, one) => `${number(+value.toPrecision(6))} ${one}${value === 1 ? '' : 's'}`;
const STRIPS = {
  goodput: {of: 'flow', read: (seen, f) => seen.goodputs[f], text: inRate}, complete: {of: 'flow', read: (seen, f) => seen.completed[f], text: inTime},
  timeouts: {of: 'flow', read: (seen, f) => seen.of('flow', f, 'timeouts'), text: value => inCount(value, 'timeout')}, used: {of: 'link', read: (seen, l) => seen.used[l], text: percent},
  wait95: {of: 'link', read: (seen, l) => seen.of('link', l, '95th percentile of delay in the queue'), text: inTime}, dropped: {of: 'link', read: (seen, l) => seen.dropped(l), text: value => inCount(value, 'packet')},
  Jain: {of: 'run', read: seen => jain(seen.compared[0].map(f => seen.goodputs[f])), text: value => value.toFixed(4)}};
const STRIP_NAMES = {goodput: 'goodput', complete: 'completion', timeouts: 'timeouts', used: 'utilization', wait95: 'wait, 95 %', dropped: 'dropped', Jain: 'Jain\u2019s index'};

// The figures of flows or links that the program counts, each with its unit.
const figuresOf = (csv, what) => new Map(csv ? readFigures(csv).filter(row => row.what === what).map(({figure, unit}) => [figure, unit]) : []);
// What strips of these names can show: [value, words] each, and the same of the program's own figures, but for those with the same words.
function offeredOf({flows, links}, csv) {
  const names = {flow: flows, link: links, run: [{name: ''}]};
  const ones = Object.entries(STRIPS).flatMap(([key, {of}]) => names[of].map(({name}) => [`${key} ${name}`.trim(), `${STRIP_NAMES[key]} ${name && `of ${name}`}`.trim()]));
  const more = ['flow', 'link'].flatMap(what => [...figuresOf(csv, what).keys()].flatMap(figure => names[what].map(({name}) => [`${what} ${name} ${figure}`, `${inWords(figure)} of ${name}`])));
  return [ones, more.filter(([, words]) => !ones.some(([, one]) => one === words))];
}
// How a figure is read from an overview, and written; `csv` has the units.
function shownOf(chosen, csv) {
  const [key, name] = chosen.split(' '), {of, read, text} = STRIPS[key] || {};
  const place = (seen, what, one) => seen.facts[`${what}s`].findIndex(each => each.name === one);
  if (read) return {read: seen => read(seen, of === 'run' ? 0 : place(seen, of, name)), text};
  const [, what, whose, figure] = /^(flow|link) (\S+) (.*)$/.exec(chosen), unit = figuresOf(csv, what).get(figure) || '';
  return {read: seen => seen.of(what, place(seen, what, whose), figure), text: value => (UNITS_IN_CELLS.includes(unit) ? inUnits(value, unit) : `${number(+value.toPrecision(6))} ${unit}`.trim())};
}

class Strips {
  // `engine` answers the program; `pages` the memory of a run; `waits` whether a hand moves, which comes first. `told` is called where there is more to draw.
  constructor({engine, pages, waits, told}) { Object.assign(this, {engine, pages, waits, told, pins: [], chosen: 0, answers: new Map(), running: new Map()}); }
  // The pinned numbers, of which the chosen one comes first: each {values, index, texts}. Runs of texts that are no longer wanted are ended.
  show(pins, chosen) {
    Object.assign(this, {pins, chosen});
    const {texts} = this;
    for (const [text, run] of this.running) if (!texts.has(text)) { run.stop(); this.running.delete(text); }
    if (this.answers.size > MOST_ANSWERS) for (const text of this.answers.keys()) if (!texts.has(text)) this.answers.delete(text);
    this.pump();
  }
  get texts() { return new Set(this.pins.flatMap(({texts}) => (texts || []).flat(2))); }
  // The next text whose figures are wanted: coarse first, then from the handle on; the chosen pin before the others.
  wanted() {
    const pins = [this.pins[this.chosen], ...this.pins.filter((_, k) => k !== this.chosen)].filter(pin => pin && pin.now && pin.texts);
    const lacks = text => !this.answers.has(text) && !this.running.has(text);
    for (const coarse of [true, false]) for (const pin of pins) {
      const last = pin.values.length - 1, step = Math.max(1, Math.floor(last / COARSE)), order = coarse ? d3.range(0, last + 1, step).concat(last, pin.index) :
        d3.range(last + 1).sort((one, two) => Math.abs(one - pin.index) - Math.abs(two - pin.index));
      for (const k of order) { const found = pin.texts[k].flat().find(lacks); if (found !== undefined) return found; }
    }
    return null;
  }
  pump() {
    while (this.engine() && this.running.size < MOST_RUNNING) {
      const text = this.wanted();
      if (text === null) break;
      if (this.waits()) { clearTimeout(this.later); this.later = setTimeout(() => this.pump(), WAITS_FOR_HAND); break; }
      const run = this.engine().start(['figures'], toBytes(text), {pages: this.pages()});
      this.running.set(text, run);
      this.count(text, run);
    }
    this.told();
  }
  async count(text, run) {
    const parts = [];
    for await (const piece of run.pieces) parts.push(piece);
    const {status, why} = await run.ended, csv = why || status ? null : new TextDecoder().decode(joined(parts));
    if (this.running.get(text) !== run) return;         // it was ended
    this.running.delete(text);
    this.answers.set(text, csv && {csv});
    this.pump();
  }
  // How many texts of the pins the program refused.
  get refused() { return [...this.texts].filter(text => this.answers.get(text) === null).length; }
  // What a figure is in the run of a text; undefined where it is not counted, null where there is none.
  valueOf(text, figure, read) {
    const answer = this.answers.get(text);
    if (!answer) return answer;
    if (answer.figure !== figure) Object.assign(answer, {figure, value: read(new Overview(answer.csv, factsOf(text, ''), null))});
    return answer.value;
  }
  // Of a pinned number's own queue, and of the other: [place of the value, what the figure is in each of its runs, whether all are counted].
  curves(pin, figure, read) {
    return [0, 1].map(kind => pin.texts.flatMap((texts, k) => {
      const all = (texts[kind] || []).map(text => this.valueOf(text, figure, read)), values = all.filter(value => value !== null && value !== undefined);
      return values.length ? [[k, values, !all.includes(undefined)]] : [];
    }));
  }
}
