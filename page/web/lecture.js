'use strict';
// A lecture's mode: the whole screen for the net, or two under one clock, one panel and the clock, in large letters, and keys for
// all else.

const LECTURE_KEYS = [['l', 'full screen, for a lecture, and back (Esc too)'], ['p', 'in a lecture: the next panel'],
  ['c', 'in a lecture: two runs, and back to one'],
  ['[ ]', 'the shelf of sliders, and the next of them; in a lecture \u2191 \u2193 move it'], ['n N', 'the next trace line that the lesson names, the one before'], ['PgDn PgUp', 'in a lecture: the next lesson, the one before']];
const OF_ONE = Object.keys(PANELS), OF_BOTH = ['windows', 'lengths', 'figures'];
const SHELF = 'shelf';                  // the panel that it is in a lecture
const ROWS = 120;                       // pixels by which a table of figures is moved

class Lecture {
  constructor(simulator) {
    Object.assign(this, {simulator, root: document.documentElement, panel: OF_ONE[0], step: -1});
    window.addEventListener('keydown', event => this.key(event), true);
    document.addEventListener('fullscreenchange', () => { if (!document.fullscreenElement && this.whole) this.leave(); });
    for (const [id, does] of [['open', () => this.begin()], ['leave', () => this.leave()], ['play', () => this.play()]])
      byId(`lecture-${id}`).addEventListener('click', event => { event.currentTarget.blur(); does(); });
  }
  get on() { return this.root.classList.contains('lecture'); }
  // Whether two runs are what is seen.
  get both() { return byId('run-side').dataset.view === 'compare'; }
  begin() {
    if (this.on) return;
    this.root.classList.add('lecture', 'slide');
    if (document.activeElement) document.activeElement.blur();
    const {compare, editor} = this.simulator;
    if (this.both && compare && compare.shows(editor.text)) this.showBoth(); else this.show();
    if (this.root.requestFullscreen) this.fill(this.asked = {});
  }
  // Asks for the whole screen, behind what the last lecture gave back; a request of a lecture that is over by then is taken back.
  async fill(mine) {
    if (this.given) await this.given;
    if (this.asked !== mine) return;
    try { await this.root.requestFullscreen(); } catch { return; }
    if (this.asked === mine) this.whole = true; else if (!this.on) document.exitFullscreen();
  }
  play() {
    const {page, compare} = this.simulator, moved = this.both ? compare.clock : page;
    if (moved) moved.play(!moved.playing);
  }
  leave() {
    if (!this.on) return;
    const {simulator} = this, {page, compare} = simulator;
    this.root.classList.remove('lecture', 'slide');
    this.whole = false;
    this.asked = null;
    if (document.fullscreenElement) this.given = document.exitFullscreen().catch(() => {}).then(() => { this.given = null; });
    if (page) { if (page.went) page.toggleTime(); page.makeNet(); simulator.showPanels(); page.lay(); this.arrange(); }
    if (compare) compare.layNow();
  }
  // Here and on a phone the ends of a net with routers are stubs, so that what is between them has large letters; the key f draws
  // them whole.
  arrange() {
    const {page} = this.simulator, fold = page && this.folds(page.facts);
    if (!page || fold === undefined) return;
    page.makeNet(fold);
    page.lay();
  }
  folds({nodes}) { return this.on || isNarrow() ? nodes.some(({kind}) => kind === 'router') : undefined; }
  // The run of the scenario as it is, which is begun where there is none.
  show() {
    const {simulator} = this, {run, page} = simulator;
    simulator.showTab('net');
    if (page && run && run.text === simulator.editor.text) { simulator.showPanels(); this.arrange(); }
    else if (simulator.engine) simulator.start();
  }
  // Two runs, or one again. Which two: those that were compared, where one is of the scenario as it is; else the lesson's two
  // examples, or the scenario and the same with another queue: an example, or one where most packets waited.
  compareOrNot() {
    const {simulator} = this, {compare, page, run, editor} = simulator;
    if (this.both) { this.show(); return; }
    if (!compare) return;
    simulator.showTab('compare');
    if (compare.shows(editor.text)) { this.showBoth(); return; }
    const {longest} = page && run.text === editor.text ? page.record : {longest: [0]};
    compare.suggest(longest.indexOf(Math.max(...longest)));
    this.setPanel(this.panel);
    compare.start();
  }
  // The lesson that is shown.
  get heading() {
    const {now} = this.simulator.lessons;
    return now ? `${now.number}. ${now.title}` : '';
  }
  showBoth() {
    this.setPanel(this.panel);
    this.simulator.compare.layNow();
  }
  // Of two runs there is one panel of flows and one of links.
  setPanel(name) {
    const {page} = this.simulator;
    this.panel = name;
    this.root.dataset.panel = !this.both || OF_BOTH.includes(name) ? name : !PANELS[name] || PANELS[name].of === 'flows' ? 'windows' : 'lengths';
    if (!this.both && page && PANELS[name]) page.panels.choose([name]);
    if (page) this.simulator.laySoon();
  }
  choose(name) { if (this.on) this.setPanel(name); }
  lesson(by) {
    const {simulator} = this, {lessons, now} = simulator.lessons, at = now ? lessons.indexOf(now) + by : by > 0 ? 0 : lessons.length - 1;
    if (!lessons[at]) return;
    this.step = -1;
    simulator.showTab('net');
    simulator.openLesson(lessons[at].number);
  }
  // The events that the lesson's text names, in its order, one after another.
  named(by) {
    const lines = [...document.querySelectorAll('#lesson button.event')].map(({dataset: {event, of}}) => ({event: +event, of})), {simulator} = this;
    if (!lines.length || !simulator.page) return;
    const now = lines[this.step], here = now && now.event === simulator.page.record.at && now.of === simulator.title;
    const at = here ? this.step + by : by > 0 ? Math.max(0, lines.findIndex(({of}) => of === simulator.title)) : lines.length - 1;
    if (this.on && this.both) this.show();
    if (!lines[at]) { simulator.page.say(`the lesson names no trace line ${by > 0 ? 'after' : 'before'} this one`); return; }
    this.step = at;
    simulator.goToLine(lines[at].event, lines[at].of);
  }
  key(event) {
    const {target} = event, writes = ['INPUT', 'TEXTAREA', 'SELECT'].includes(target.tagName) && target.type !== 'checkbox' && target.type !== 'range';
    if ((event.ctrlKey || event.altKey) && !event.getModifierState('AltGraph') || event.metaKey || writes || document.querySelector('dialog[open]')) return;
    const does = {l: () => (this.on ? this.leave() : this.begin()), n: () => this.named(1), N: () => this.named(-1), '[': () => this.shelf(-1), ']': () => this.shelf(1),
      ...(this.on ? {Escape: () => this.leave(), p: () => this.next(), c: () => this.compareOrNot(), PageDown: () => this.lesson(1),
        PageUp: () => this.lesson(-1)} : {}),
      ...(this.on && !this.both && this.panel === SHELF ? {ArrowUp: () => this.simulator.shelf.move(1), ArrowDown: () => this.simulator.shelf.move(-1)} : {}),
      ...(this.on && this.both && this.panel === 'figures' ? {ArrowDown: () => this.scroll(ROWS), ArrowUp: () => this.scroll(-ROWS)} : {})}[event.key];
    if (!does || ['keys', 'both-keys'].some(id => byId(id) && !byId(id).hidden)) return;
    does();
    event.preventDefault();
    event.stopPropagation();
  }
  next() {
    const ones = this.both ? OF_BOTH : OF_ONE, {compare} = this.simulator;
    this.setPanel(ones[(ones.indexOf(this.root.dataset.panel) + 1) % ones.length]);
    if (this.both) compare.layNow();
  }
  // The next slider of the shelf, or the one before; in a lecture the shelf takes the panel's place at first.
  shelf(by) {
    const {shelf, page} = this.simulator;
    if (!shelf.shown) { if (page) page.say('nothing is pinned'); return; }
    if (!this.on) { shelf.choose(shelf.chosen + by); shelf.pins[shelf.chosen].slider.focus(); return; }
    if (this.both) this.show();
    if (this.panel === SHELF) { shelf.choose(shelf.chosen + by); shelf.draw(); } else this.setPanel(SHELF);
  }
  scroll(by) { byId('both-figures').scrollBy(0, by); }
  // The lecture's keys, with those of the net.
  addKeys(place) {
    const last = place.lastElementChild;
    for (const [keys, means] of LECTURE_KEYS) {
      const row = document.createElement('p'), key = document.createElement('kbd');
      key.textContent = keys;
      row.append(key, ` ${means}`);
      place.insertBefore(row, last);
    }
  }
}
