'use strict';
// Any number of the scenario can be moved: by a handle that a pointer drags, or by Alt and the arrow keys. A step goes to the next
// value that the quantity takes, within its limits, and a whole drag is undone at once.

// The numbers of a statement, by their places; the ranges of the templates have their limits.
const MOVED = {sim: {1: 'end'}, link: {4: 'rate', 5: 'delay', 7: 'capacity', 8: 'target', 9: 'interval', 10: 'maxpacket'},
  flow: {4: 'mss', 5: 'segments', 6: 'start', 7: 'rwnd', 8: 'delack', 10: 'iw'}, lose: {2: 'lose'}};
const MOST_LOST = 1e9;                  // the greatest number of a `lose`
// By how much a step goes, or else from notch to notch of 1, 2, 5, 10, ..; and how many pixels it is.
const STEPS_OF = {capacity: 1, lose: 1, mss: 20, maxpacket: 20, iw: 7};
const WINDOWS = [3, 10];                // initial windows, in segments: iw3 and iw10
const PIXELS = 4, PIXELS_OF_NOTCH = 16;
const LEAST_TIME = 1e6;                 // ns: the first notch above a time of 0
const SAID_OF = {end: 'the run ends at', capacity: 'queue', maxpacket: 'maxpacket', mss: 'segment', rwnd: 'receive window', delack: 'delayed acknowledgement', lose: 'lost packet', iw: 'initial window'};
const ONES_OF = {capacity: 'packet', segments: 'segment', iw: 'segment', mss: 'byte', rwnd: 'byte', maxpacket: 'byte'};

// The value a step above or below.
function nextValue(name, value, way, [least, most]) {
  // Of a long queue a step is of two digits.
  const by = STEPS_OF[name] * (name === 'capacity' ? 10 ** Math.max(0, String(value).length - 2) : 1);
  if (by) return Math.min(most, Math.max(least, value + way * by));
  if (!value) return way > 0 ? LEAST_TIME : 0;
  const scale = 10 ** (String(value).length - 1), notches = [0.5, 1, 2, 5, 10].map(notch => notch * scale);
  const next = way > 0 ? notches.find(notch => notch > value) : notches.reverse().find(notch => notch < value);
  return Math.min(most, !least && next < LEAST_TIME && way < 0 ? 0 : Math.max(least, next));
}
// The number of a line at a place: {name, of, begin, end, value}, or null.
function numberIn(line, ch) {
  const ones = [...line.split('#', 1)[0].matchAll(/[^ ]+/g)], k = ones.findIndex(({0: word, index}) => index <= ch && ch <= index + word.length);
  const name = k > 0 && MOVED[ones[0][0]] && MOVED[ones[0][0]][k];
  const before = name === 'iw' ? 'iw' : '', word = name ? ones[k][0].slice(before.length) : '';
  if (!/^\d{1,15}$/.test(word) || !ones[k][0].startsWith(before)) return null;
  return {name, of: name === 'end' ? '' : ones[1][0], begin: ones[k].index + before.length, end: ones[k].index + ones[k][0].length, value: +word};
}
// A value in words, and what a number is then.
function wordsOf(name, value) { return ONES_OF[name] ? many(value, ONES_OF[name]) : name === 'rate' ? rateText(value) : name === 'lose' ? number(value) : value ? waitText(value) : '0 s'; }
function movedName({name, of}) { return `${of} ${SAID_OF[name] || name}`.trim(); }
function saidOf(at, value) { return `${movedName(at)} ${wordsOf(at.name, value)}`; }

class Drag {
  // `moved` is told what a number is now, in words, once the text has it, `rests` that the hand has let it go, and `pins` of one that is pressed twice.
  constructor(place, box, ranges, {moved, rests, pins}) {
    Object.assign(this, {box, ranges: {...ranges, lose: [1, MOST_LOST], iw: WINDOWS}, moved, rests, drags: 0, held: null});
    const handle = this.handle = document.createElement('button');
    Object.assign(handle, {id: 'handle', type: 'button', hidden: true, tabIndex: -1});
    handle.setAttribute('role', 'slider');               // the keys do the same
    place.append(handle);
    place.addEventListener('pointermove', event => { if (!this.held && event.target !== handle) this.point(event); });
    place.addEventListener('pointerleave', () => { if (!this.held) handle.hidden = true; });
    box.on('scroll', () => { if (!this.held) handle.hidden = true; });
    handle.addEventListener('pointerdown', event => this.take(event));
    handle.addEventListener('dblclick', () => pins(this.at));
    const by = way => () => this.key(way);
    box.setOption('extraKeys', {...box.getOption('extraKeys'), 'Alt-Up': by(1), 'Alt-Right': by(1), 'Alt-Down': by(-1), 'Alt-Left': by(-1)});
    box.getInputField().addEventListener('keyup', event => { if (event.key === 'Alt' && this.keyed) { this.keyed = null; rests(); } });
    box.getInputField().setAttribute('aria-description', 'Alt and the arrow keys move the number at the cursor, and run the scenario anew');
  }
  found(line, ch) {
    const at = this.box.getOption('readOnly') ? null : numberIn(this.box.getLine(line) || '', ch);
    return at && {line, ...at};
  }
  // What the number at a place of the text is now, in words.
  saidAt({line, ch}) {
    const at = this.found(line, ch);
    return at ? saidOf(at, at.value) : 'as it was';
  }
  // The handle's grip lies between the number that is pointed at and the next line; below that it cannot be seen.
  point({clientX: left, clientY: top}) {
    const {line, ch, outside} = this.box.coordsChar({left, top}, 'window'), at = outside ? null : this.found(line, ch);
    if (!at) return;
    this.at = at;
    const {left: x, bottom: y} = this.box.charCoords({line, ch: at.begin}, 'window'), {left: from, top: above} = this.handle.parentNode.getBoundingClientRect();
    Object.assign(this.handle.style, {left: `${x - from}px`, top: `${y - above - 3}px`});
    this.tell(at, at.value);
    this.handle.hidden = false;
  }
  // What the handle moves, and its value.
  tell(at, value) {
    const [least, most] = this.ranges[at.name], {handle} = this;
    handle.title = `drag to move ${saidOf(at, value)}, or Alt and the arrow keys; two presses pin it (Alt-P)`;
    for (const [name, said] of Object.entries({label: movedName(at), valuetext: wordsOf(at.name, value), valuenow: value, valuemin: least, valuemax: most})) handle.setAttribute(`aria-${name}`, said);
  }
  take(event) {
    const {at} = this, origin = this.origin(), free = new AbortController(), {signal} = free, {clientX, clientY} = event;
    let moved = false;
    this.held = at;
    event.preventDefault();
    window.addEventListener('pointermove', ({clientX: x, clientY: y}) => {
      moved = moved || x !== clientX || y !== clientY;
      const wide = STEPS_OF[at.name] ? PIXELS : PIXELS_OF_NOTCH, steps = Math.trunc((x - clientX + clientY - y) / wide);
      let value = at.value;
      for (let k = 0; k < Math.abs(steps); k++) value = nextValue(at.name, value, Math.sign(steps), this.ranges[at.name]);
      this.put(at, value, origin);
    }, {signal});
    const drop = ({clientX: left, clientY: top}) => {
      free.abort();
      this.held = null;
      this.handle.hidden = moved;
      // A press alone puts the cursor there, as anywhere in the text; a second one finds the handle still.
      if (moved) this.rests(); else { this.box.focus(); this.box.setCursor(this.box.coordsChar({left, top}, 'window')); }
    };
    for (const what of ['pointerup', 'pointercancel']) window.addEventListener(what, drop, {signal});
  }
  // All that is changed by one drag, or while Alt is held, has an origin of its own: it is one step back.
  origin() { return `*drag ${this.drags += 1}`; }
  key(way) {
    const {line, ch} = this.box.getCursor(), at = this.found(line, ch);
    if (!at) return;
    if (!this.keyed || this.keyed.line !== line || this.keyed.begin !== at.begin) this.keyed = {line, begin: at.begin, origin: this.origin()};
    this.box.operation(() => {
      this.put(at, nextValue(at.name, at.value, way, this.ranges[at.name]), this.keyed.origin);
      this.box.setCursor({line, ch: at.begin});
    });
  }
  put(at, value, origin) {
    const {line, begin} = at, now = this.found(line, begin);
    if (!now || now.value === value) return;
    // The run begins before the editor is laid out.
    this.box.operation(() => {
      this.box.replaceRange(String(value), {line, ch: begin}, {line, ch: now.end}, origin);
      this.moved(saidOf(at, value));
    });
    if (this.held) this.tell(at, value);
  }
}
