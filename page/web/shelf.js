'use strict';
// A shelf above the net: numbers of the scenario that were pinned, each with a slider over its range, and below that a strip of a
// figure over the whole range.

const MOST_PINS = 12, MOST_VALUES = 400;            // sliders, and values of a range
const RESTS_AFTER = 400, FRESH_AFTER = 250;         // ms after a lecture's key that moves a number; after the last change of the rest of the text
const REPLICATES = [0, 4, 10, 20];                  // so many starts that a shelf offers
const FAR = 8;                                      // values that PageUp and PageDown go

class Shelf {
  // `simulator` has the text, its editor and its engine.
  constructor(place, simulator, ranges) {
    Object.assign(this, {place, simulator, ranges, pins: [], figure: '', both: false, replicates: 0, chosen: 0});
    this.strips = new Strips({engine: () => this.simulator.engine, pages: () => simulator.mostPages, waits: () => simulator.exploring, told: () => { this.say(); this.drawSoon(); }});
    const bar = document.createElement('div'), labelled = (words, control, name = '') => {
      const label = Object.assign(document.createElement('label'), {className: name});
      label.append(...(name ? [control, words] : [words, control]));
      bar.append(label);
      return control;
    };
    bar.className = 'shelf-bar';
    this.select = labelled('figure ', document.createElement('select'));
    this.select.title = 'what the curves below the sliders show, over the whole range of each';
    this.select.addEventListener('change', () => { this.figure = this.select.value; this.told(true); });
    this.bothBox = labelled(this.otherName = document.createElement('span'), Object.assign(document.createElement('input'), {type: 'checkbox'}), 'tick');
    this.bothBox.addEventListener('change', () => { this.both = this.bothBox.checked; this.make(); });
    this.spread = labelled('runs for each value ', document.createElement('select'));
    this.spread.title = 'how often each value of a slider is run for its point in the curve: once, or as replicates that differ a little, as tcpsim-net --spread 1, 2, .. writes them';
    this.spread.addEventListener('change', () => { this.replicates = +this.spread.value; this.make(); });
    this.says = Object.assign(document.createElement('span'), {className: 'shelf-says'});
    this.says.setAttribute('role', 'status');
    bar.append(this.says);
    this.row = Object.assign(document.createElement('div'), {className: 'pins'});
    place.append(bar, this.row);
  }
  get shown() { return this.pins.length > 0; }
  get text() { return shelfText(this); }
  get answers() { return this.strips.answers; }
  get running() { return this.strips.running; }

  // ---- what is on it

  // Puts these on it; what the scenario lacks is left out.
  open(words) {
    const {pins, ...rest} = readShelf(words, this.ranges), lines = pins.length ? this.lines : [];     // a text may have 16 MiB
    Object.assign(this, rest, {pins: pins.filter(pin => pinnedIn(lines, pin)).slice(0, MOST_PINS), chosen: 0});
    this.make();
  }
  get lines() { return this.simulator.editor.text.split('\n'); }
  // The number at the editor's cursor, or the one that was pointed at last.
  pin(at) {
    const pinned = this.pins.findIndex(({of, name}) => at.of === of && at.name === name);
    if (pinned < 0) this.pins.push({of: at.of, name: at.name, range: usualRange(at, this.ranges[at.name])});
    this.choose(pinned < 0 ? this.pins.length - 1 : pinned);
    this.make();
    this.pins[this.chosen].slider.focus();
  }
  unpin(pin) {
    this.pins = this.pins.filter(one => one !== pin);
    this.choose(Math.min(this.chosen, this.pins.length - 1));
    this.make();
    this.simulator.note();
    const next = this.pins[this.chosen];
    if (next) next.slider.focus();
  }
  choose(k) {
    this.chosen = this.pins.length ? (k + this.pins.length) % this.pins.length : 0;
    this.pins.forEach(({element}, one) => { if (element) element.classList.toggle('chosen', one === this.chosen); });
  }
  make() {
    const {place, pins} = this;
    if (place.hidden && !pins.length) return;
    place.hidden = !pins.length;
    this.spread.replaceChildren(...[...new Set([...REPLICATES, this.replicates])].sort((one, two) => one - two).map(count => new Option(count ? `${count} and their mean` : '1', count)));
    this.spread.value = this.replicates;
    this.row.replaceChildren(...pins.map(pin => this.makePin(pin)));
    this.choose(this.chosen);
    this.simulator.laySoon();
    this.told(true);
  }
  // How many values of a range have room, with their texts and what is kept of their runs.
  get mostValues() {
    const runs = Math.max(1, this.replicates) * (this.both ? 2 : 1), room = Math.min(MOST_OF_TEXTS / this.simulator.editor.text.length, MOST_ANSWERS / 2 / this.pins.length) / runs;
    return Math.max(2, Math.min(MOST_VALUES, Math.max(COARSE, room)));
  }
  makePin(pin) {
    const make = (name, facts = {}, ...parts) => { const made = Object.assign(document.createElement(name), facts); made.append(...parts); return made; };
    const {pins} = this, at = pinnedIn(this.lines, pin), begin = () => { pin.origin = this.simulator.drag.origin(); this.choose(pins.indexOf(pin)); };
    pin.values = valuesOf(pin.name, pin.range, this.mostValues, at ? at.value : undefined);
    pin.place = placesOf(pin.name, pin.values);
    pin.said = make('output');
    // Its thumb has the place that the value has in the strip.
    pin.slider = make('input', {type: 'range', min: 0, max: 1, step: 'any', title: 'moves this number in the scenario, which runs anew at each step'});
    const ends = pin.range.map((value, k) => {
      const input = make('input', {className: 'end', value: spelledOf(pin.name, value), autocomplete: 'off', spellcheck: false, ariaLabel: `${k ? 'greatest' : 'least'} ${pin.of} ${pin.name}`, title: `the ${k ? 'greatest' : 'least'} value of the slider: type another one`});
      input.addEventListener('change', () => this.setEnd(pin, k, input));
      return input;
    });
    for (const what of ['pointerdown', 'focus']) pin.slider.addEventListener(what, begin);
    pin.slider.addEventListener('input', () => {
      this.put(pin, pin.values[nearest(pin.values.map(pin.place), +pin.slider.value)]);
      if (pin.now) pin.slider.value = placeNow(pin);
    });
    pin.slider.addEventListener('change', () => this.simulator.rest());
    pin.slider.addEventListener('keydown', event => this.key(pin, event));
    const away = make('button', {textContent: '\u00d7', title: 'takes this slider away; the number stays as it is', ariaLabel: `takes ${pin.of} ${pin.name} from the shelf`});
    away.addEventListener('click', () => this.unpin(pin));
    pin.strip = document.createElementNS('http://www.w3.org/2000/svg', 'svg');
    pin.strip.setAttribute('role', 'img');
    pin.strip.setAttribute('preserveAspectRatio', 'none');
    pin.strip.addEventListener('click', event => {
      begin();
      this.put(pin, pin.values[this.at(pin, event)]);
      this.simulator.rest();
    });
    const scale = isByNotches(pin.name) ? [make('span', {className: 'scale', textContent: 'log scale', title: 'the axis is logarithmic'})] : [];
    pin.element = make('div', {className: 'pin'}, make('div', {className: 'pin-head'}, pin.said, ...scale, ends[0], make('span', {className: 'end-to', textContent: '\u2013'}), ends[1], away), pin.slider, pin.strip);
    return pin.element;
  }
  setEnd(pin, k, input) {
    input.removeAttribute('aria-invalid');
    try {
      const range = [...pin.range];
      range[k] = within(this.ranges, pin.name, readOf(pin.name, input.value.trim()), `'${input.value.trim()}'`);
      if (range[0] >= range[1]) throw new Wrong('the least is below the greatest');
      pin.range = range;
      this.make();
    } catch (wrong) {
      if (!(wrong instanceof Wrong)) throw wrong;
      input.setAttribute('aria-invalid', 'true');
      this.simulator.say(wrong.message);
    }
  }
  // Gives a pinned number a value, and the page runs the text.
  put(pin, value) {
    const at = pinnedIn(this.lines, pin);
    if (at) this.simulator.drag.put(at, value, pin.origin);
  }
  // The arrow keys go from value to value.
  key(pin, event) {
    const by = {ArrowUp: 1, ArrowRight: 1, ArrowDown: -1, ArrowLeft: -1, PageUp: FAR, PageDown: -FAR, Home: -Infinity, End: Infinity}[event.key];
    if (!by || event.altKey || event.ctrlKey || event.metaKey) return;
    event.preventDefault();
    event.stopPropagation();
    this.put(pin, pin.values[Math.max(0, Math.min(pin.values.length - 1, pin.index + by))]);
    this.restSoon();
  }
  // A step by the keys of a lecture.
  move(way) {
    const pin = this.pins[this.chosen], at = pin && pinnedIn(this.lines, pin);
    if (!at) return;
    if (this.keyed !== pin) { this.keyed = pin; pin.origin = this.simulator.drag.origin(); }
    this.put(pin, nextValue(pin.name, at.value, way, pin.range));
    this.restSoon();
  }
  restSoon() {
    clearTimeout(this.resting);
    this.resting = setTimeout(() => { this.keyed = null; this.simulator.rest(); }, RESTS_AFTER);
  }

  // ---- what its strips show

  // The other queue that a strip has too: at a pinned link, or else at the one where most packets wait, CoDel for drop-tail or the other way round.
  other(facts, pin) {
    const {page} = this.simulator, pinned = OF_QUEUE.includes(pin.name) ? facts.links.findIndex(({name}) => name === pin.of) : -1;
    const longest = page && page.facts.links.length === facts.links.length ? page.record.longest.indexOf(Math.max(...page.record.longest)) : 0, l = pinned < 0 ? longest : pinned;
    return [l, otherQueue(facts, l)];
  }
  // The texts of a value of a pin: those of its runs, and the same with the other queue.
  textsOf(pin, value) {
    const own = withValue(this.simulator.editor.text, pin, value);
    if (own === null) return [];
    try {
      const runs = this.replicates ? d3.range(1, this.replicates + 1).map(number => spreadText(own, number)) : [own];
      if (!this.both) return [runs];
      const facts = factsOf(own, ''), [l, word] = this.other(facts, pin);
      return [runs, runs.map(text => withQueue(text, this.replicates ? factsOf(text, '') : facts, l, word, this.ranges))];
    } catch (wrong) {
      if (!(wrong instanceof TypeError || wrong instanceof Wrong || wrong instanceof RangeError)) throw wrong;
      return [[own]];               // a text that the program refuses
    }
  }
  // Something is other than it was: the text, a range, what is shown. Where more of a text has changed than a pinned number, the texts of
  // that number's range are made once the hand rests, or at once if `fresh`.
  told(fresh = false) {
    if (!this.shown) { this.strips.show([], 0); return; }
    const {lines} = this, text = lines.join('\n');
    for (const pin of this.pins) {
      const at = pin.now = pinnedIn(lines, pin);
      pin.slider.disabled = !at;
      pin.said.textContent = at ? saidOf(at, at.value) : `${pin.of} ${pin.name} is gone`;
      if (!at) continue;
      pin.index = nearest(pin.values, at.value);
      pin.slider.value = placeNow(pin);
      pin.slider.setAttribute('aria-label', movedName(pin));
      pin.slider.setAttribute('aria-valuetext', wordsOf(pin.name, at.value));
      // Of a text that differs in nothing but this number the texts of all values are the same.
      const base = `${withValue(text, pin, '?')} ${this.both} ${this.replicates}`;
      if (base !== pin.base || pin.counted !== pin.values) Object.assign(pin, {base, counted: pin.values, texts: null});
    }
    this.offer();
    clearTimeout(this.making);
    if (fresh) this.makeTexts(); else { this.making = setTimeout(() => this.makeTexts(), FRESH_AFTER); this.strips.pump(); }
    this.simulator.note();
  }
  get stale() { return this.pins.filter(({now, texts}) => now && !texts); }
  makeTexts() {
    for (const pin of this.stale) pin.texts = pin.values.map(value => this.textsOf(pin, value));
    this.strips.show(this.pins, this.chosen);
  }
  // The figures that there are of the scenario.
  offer() {
    let facts = null;
    try { facts = factsOf(this.simulator.editor.text, ''); } catch { return; }     // a text that the program refuses
    if (!facts.flows.length || !facts.links.length) return;
    const {csv = ''} = this.simulator.run || {}, [ones, more] = offeredOf(facts, csv);
    // What was shared may name a figure before the program has counted any.
    const [, what, whose, counted] = /^(flow|link) (\S+) (.+)$/.exec(this.figure) || [];
    if (what && facts[`${what}s`].some(({name}) => name === whose) && !more.some(([one]) => one === this.figure)) more.push([this.figure, `${counted} of ${whose}`]);
    const value = [...ones, ...more].some(([one]) => one === this.figure) ? this.figure : `goodput ${facts.flows[0].name}`;
    const offered = String([...ones, ...more]);
    if (offered !== this.offered) {
      const group = document.createElement('optgroup');
      group.label = 'as the program counts them';
      group.append(...more.map(([one, says]) => new Option(says, one)));
      this.select.replaceChildren(...ones.map(([one, says]) => new Option(says, one)), group);
      this.offered = offered;
    }
    this.figure = this.select.value = value;
    const pin = this.pins[this.chosen], [l, word] = this.other(facts, pin);
    this.kind = word.startsWith('codel') ? 'CoDel' : 'drop-tail';
    this.otherName.textContent = `beside it ${this.kind} at ${facts.links[l].name}`;
    this.bothBox.checked = this.both;
    this.bothBox.parentNode.title = `draws a second curve, dashed: the same scenario with ${this.kind} instead of ${{CoDel: 'drop-tail', 'drop-tail': 'CoDel'}[this.kind]} at link ${facts.links[l].name}`;
  }
  // How far the runs in the background are, and of how many a value is.
  say() {
    const {running, refused} = this.strips, left = running.size + this.stale.length;
    const done = this.replicates ? `${many(this.replicates, 'run')} for each value, and their mean` : 'one run for each value: a single sample';
    this.says.textContent = this.says.title = left ? 'counting' : `${done}${refused ? `; ${many(refused, 'run')} refused` : ''}`;
    this.place.dataset.counting = left;
  }
  drawSoon() {
    if (this.drawing) return;
    this.drawing = requestAnimationFrame(() => { this.drawing = null; this.draw(); });
  }
  // The value in the strip that is pointed at.
  at(pin, {clientX}) {
    const across = clientX - pin.strip.getBoundingClientRect().left;
    return d3.range(pin.values.length).reduce((best, k) => Math.abs(pin.x(pin.values[k]) - across) < Math.abs(pin.x(pin.values[best]) - across) ? k : best, 0);
  }
  draw() {
    const pins = this.pins.filter(({texts}) => texts);
    if (!pins.length || !this.figure) return;
    const {read, text} = shownOf(this.figure, (this.simulator.run || {}).csv || ''), drawn = pins.map(pin => this.strips.curves(pin, this.figure, read));
    const left = beforeAxis(drawn.flat(), text, pins[0].strip), says = {figure: this.select.selectedOptions[0].textContent, other: this.kind};
    pins.forEach((pin, k) => drawStrip(pin, drawn[k], text, left, says));
  }
}
