'use strict';
// All lines of a trace in a list that scrolls; only those that are seen are elements. A click leads to the line's event.

const LINE = 18, MOST_TALL = 8e6;       // pixels: a line's height, and what a browser lets an element be high

class TraceList {
  constructor(place, record, go) {
    Object.assign(this, {place, record, go, at: 0, rows: [], wide: widthsOf(record)});
    place.textContent = '';
    this.box = document.createElement('div');
    this.box.className = 'lines';
    this.box.tabIndex = 0;
    this.box.setAttribute('role', 'region');
    this.box.setAttribute('aria-label', 'all lines of the trace; the arrow keys go from line to line');
    this.heads = Object.assign(document.createElement('div'), {className: 'heads'});
    this.space = document.createElement('div');
    this.seen = document.createElement('div');
    this.seen.className = 'seen';
    this.space.append(this.seen);
    this.box.append(this.heads, this.space);
    const find = document.createElement('form'), word = this.word = document.createElement('input');
    word.type = 'search';
    word.placeholder = 'find words, as drop=full';
    word.setAttribute('aria-label', 'words of a line');
    word.title = 'words of a line, exact or as it is shown';
    const button = Object.assign(document.createElement('button'), {textContent: 'find next', title: 'goes to the next line of the trace that has these words'});
    this.told = document.createElement('output');
    const exact = document.createElement('label'), box = this.exact = document.createElement('input');
    box.type = 'checkbox';
    box.addEventListener('change', () => this.draw());
    exact.append(box, ' lines as the program writes them');
    exact.title = 'shows each line exactly as it is in the trace: numbers instead of names, times in ns; a line\u2019s tooltip has it too';
    find.append(word, button, exact, this.told);
    find.addEventListener('submit', event => { event.preventDefault(); this.find(word.value); });
    place.append(find, this.box);
    this.tall = Math.min(MOST_TALL, record.count * LINE);
    this.space.style.height = `${this.tall}px`;
    // Where the height is another too, whoever sees that draws.
    this.box.addEventListener('scroll', () => { if (this.high === this.drawn) this.draw(); });
    // Where the present line was seen it stays so.
    this.sized = new ResizeObserver(() => { if (this.rows.some(row => !row.hidden && row.dataset.event === String(this.at))) this.show(this.at); else this.draw(); });
    this.sized.observe(this.box);
    this.box.addEventListener('keydown', event => this.key(event));
    this.box.addEventListener('click', event => {
      const row = event.target.closest('[data-event]');
      if (row) this.go(+row.dataset.event);
    });
  }
  // The arrow keys go from line to line.
  key(event) {
    const by = {ArrowDown: 1, ArrowUp: -1}[event.key];
    if (!by || event.ctrlKey || event.altKey || event.metaKey) return;
    event.preventDefault();
    this.go(Math.min(this.record.last, Math.max(this.record.first + 1, this.at + by)));
  }
  end() { this.sized.disconnect(); this.searching = null; }
  // The height below the heads; the first line that is seen there, and how many are.
  get high() { return this.box.clientHeight - LINE; }
  get room() { return Math.max(1, Math.ceil(this.high / LINE)); }
  get top() {
    const most = Math.max(1, this.tall - this.high);
    return Math.round(Math.min(1, this.box.scrollTop / most) * Math.max(0, this.record.count - this.room));
  }
  draw() {
    const {record, top} = this, many = Math.min(this.room, record.count);
    this.drawn = this.high;
    this.heads.textContent = this.exact.checked ? EXACT_HEADS : inColumns(this.wide, HEADS);
    while (this.rows.length < many) this.rows.push(this.seen.appendChild(document.createElement('div')));
    this.seen.style.transform = `translateY(${Math.min(this.box.scrollTop, Math.max(0, this.tall - many * LINE))}px)`;
    this.rows.forEach((row, k) => {
      row.hidden = k >= many;
      if (k >= many) { delete row.dataset.event; return; }
      const event = record.first + top + k + 1, line = record.line(event);
      row.textContent = this.exact.checked ? line : readable(record.facts, line, this.wide);
      row.title = line;
      row.dataset.event = event;
      row.className = (event === this.at ? 'present' : '') + (line.includes(' drop=') ? ' dropping' : '');
    });
  }
  // Shows an event's line, in the middle where it was not seen.
  show(event) {
    this.at = event;
    const k = event - this.record.first - 1, {top, room} = this;
    if (k < top || k >= top + room - 1) {
      const most = Math.max(1, this.record.count - room), wanted = Math.max(0, Math.min(most, k - (room >> 1)));
      this.box.scrollTop = wanted / most * Math.max(0, this.tall - this.high);
    }
    this.draw();
  }
  // Goes to the next line that has these words, exact or as it is shown, from the present one on and then from the first on.
  async find(text) {
    const {record} = this, token = this.searching = {};
    if (!text || !record.count) return;
    const start = Math.max(this.at, record.first), count = record.count;
    let begun = performance.now();
    for (let k = 0; k < count; k++) {
      const event = record.first + (start - record.first + k) % count + 1;
      const line = record.line(event);
      if (line.includes(text) || readable(record.facts, line, this.wide).includes(text)) { this.told.textContent = `trace line ${number(event)}`; this.go(event); return; }
      if (k % 64 || performance.now() - begun < TURN) continue;
      this.told.textContent = `looked at ${number(k)} lines of the trace`;
      await pause();
      if (this.searching !== token) return;
      begun = performance.now();
    }
    this.told.textContent = `no line of the trace has ${text}`;
  }
}
