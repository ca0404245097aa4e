'use strict';
// One clock for two runs: a moment of simulated time.

const PLAYING = ['▶ play', '❚❚ pause'];

class Clock {
  // `at` finds a control by its name, `windows` are those whose keys move the clock, while `listens` says so; `told` is given each
  // moment, `jumped` those that were jumped to.
  constructor(pages, {at, windows, listens = () => true, told = () => {}, jumped = () => {}}) {
    Object.assign(this, {pages, at, windows, listens, told, jumped, playing: false, ended: new AbortController()});
    const records = pages.map(page => page.record);
    this.begin = Math.min(...records.map(record => record.times[0]));
    this.end = Math.max(...records.map(record => record.times[record.count]));
    this.at('speed').value = Math.round(100 * Math.log10(Math.min(1, Math.max(0.001, (this.end - this.begin) / 6e10)) / 0.001));
    pages.forEach(page => { page.goTo = time => this.jump(time); });
    this.controls();
    this.go(this.begin);
  }
  // No key and no button moves it any more.
  leave() { this.playing = false; this.ended.abort(); }
  // Both runs with all their events up to a moment, its own too.
  go(time) {
    this.time = Math.min(this.end, Math.max(this.begin, time));
    for (const page of this.pages) {
      const {record} = page;
      record.go(record.eventsBefore(Math.floor(this.time) + 1));
      page.time = Math.max(record.timeOf(record.at), Math.min(this.time, record.times[record.count]));
      page.fall = this.playing ? 9e8 * this.pace() : 0;
      page.draw();
    }
    this.at('time').textContent = `${(this.time / 1e9).toFixed(6)} s`;
    this.told(Math.round(this.time));
  }
  jump(time) {
    this.play(false);
    this.go(time);
    this.jumped(Math.round(this.time));
  }
  // The moments of each run at which something of a sort happens.
  moments(what) {
    return this.pages.flatMap(({record}) => ({
      event: () => Array.from(record.times.subarray(1)), drop: () => record.drops.map(drop => drop.time),
      timeout: () => record.timeouts.map(event => record.timeOf(event)),
      stall: () => record.stalls.map(stall => stall.from)})[what]());
  }
  next(what, way) {
    const now = Math.floor(this.time);
    let found = null;
    for (const time of this.moments(what))
      if (way * (time - now) > 0 && (found === null || way * (time - found) < 0)) found = time;
    if (found === null) { this.play(false); this.at('time').textContent = `no ${what} ${way > 0 ? 'after' : 'before'} this moment`; } else this.jump(found);
  }
  pace() { return 0.001 * 10 ** (this.at('speed').value / 100); }
  play(on) {
    if (on === this.playing) return;
    if (on && this.time >= this.end) this.go(this.begin);
    this.playing = on; this.then = null;
    this.at('play').textContent = PLAYING[+on];
    if (on) requestAnimationFrame(now => this.frame(now)); else this.go(this.time);
  }
  frame(now) {
    if (!this.playing) return;
    const passed = this.then === null ? 0 : Math.min(100, now - this.then);
    this.then = now;
    this.go(this.time + passed * 1e6 * this.pace());
    if (this.time >= this.end) { this.play(false); return; }
    requestAnimationFrame(then => this.frame(then));
  }
  controls() {
    const does = {start: () => this.jump(this.begin), back: () => this.next('event', -1), on: () => this.next('event', 1),
      play: () => this.play(!this.playing), drop: () => this.next('drop', 1), timeout: () => this.next('timeout', 1),
      stall: () => this.next('stall', 1), help: () => this.keys(this.at('keys').hidden)}, {signal} = this.ended;
    for (const id in does) this.at(id).addEventListener('click', event => { does[id](); event.currentTarget.blur(); }, {signal});
    const told = () => { this.at('pace').textContent = `${+this.pace().toPrecision(2)} × real time`; };
    this.at('speed').addEventListener('input', told, {signal});
    told();
    for (const frame of this.windows) frame.addEventListener('keydown', event => this.key(event), {capture: true, signal});
  }
  keys(shown) { this.at('keys').hidden = !shown; }
  key(event) {
    if (!this.listens(event) || event.ctrlKey || event.altKey || event.metaKey || event.key === 'Shift') return;
    if (!this.at('keys').hidden) { this.keys(false); event.preventDefault(); event.stopPropagation(); return; }
    if (event.target.type === 'range' && event.key !== ' ' || event.target.tagName === 'BUTTON' && event.key === ' ') return;
    const does = {ArrowRight: () => this.next('event', 1), ArrowLeft: () => this.next('event', -1),
      ' ': () => this.play(!this.playing), d: () => this.next('drop', 1), D: () => this.next('drop', -1),
      r: () => this.next('timeout', 1), R: () => this.next('timeout', -1), s: () => this.next('stall', 1),
      S: () => this.next('stall', -1), f: () => this.pages.forEach(page => { page.makeNet(!page.net.folded); page.draw(); }),
      '?': () => this.keys(true), Home: () => this.jump(this.begin), End: () => this.jump(this.end)}[event.key];
    if (!does) return;
    does();
    event.preventDefault(); event.stopPropagation();
  }
}
