'use strict';
// The page: a scenario is opened and edited, run by the program, and shown.

const byId = id => document.getElementById(id);
const dataOf = id => JSON.parse(byId(id).textContent);
const LAY_AFTER = 60, NOTE_AFTER = 300;         // ms after the last change of size; of what the address says
const AT_ONCE = 30000, LATE = 100;              // events of a run that is shown while a hand moves; ms after which it is ended for the next
// The tabs: a name, as the address has it, what it says, its tooltip, the elements in its panel where simulator.html has none, and what
// is done once it is shown.
const TABS = [
  ['net', 'curves', 'shows panels over the whole run, and the trace around the moment', [], it => { if (it.page) { it.page.panels.make(); it.page.show(); } }],
  ['figures', 'figures', 'shows goodput, share, utilization, wait, loss, timeouts, fairness', ['figures-table'], it => it.drawSoon()],
  ['stalls', 'stalls', 'shows where flows had no new acknowledgement for more than 200 ms, and why', ['stall-list'], it => it.stalls && it.stalls.show()],
  ['time', 'time', 'shows where the time of a flow went (w); t goes to its next part, T to the one before', ['time-went'], it => it.showTime()],
  ['trace', 'trace', 'shows all lines of the trace, a line an event', ['all-lines'], it => it.list && it.list.show(it.page.record.at)],
  ['debug', 'debugger', 'takes commands of tcpsim debug, and shows their answers', ['debugger'], it => it.page && it.page.panels.make()],
  ['compare', 'compare', 'runs two scenarios under one clock, and shows what differs', [], it => it.compare && it.compare.offer()],
];
const isCalm = () => matchMedia('(prefers-reduced-motion: reduce)').matches;
// Whether all stands below each other, as simulator.css has it.
const isNarrow = () => matchMedia('(max-width: 900px)').matches;
const BYTE_ORDER_MARK = [0xef, 0xbb, 0xbf];         // of UTF-8
const nameOfFile = title => title.replace(/[^\w.-]+/g, '_') || 'scenario';

class Simulator {
  constructor() {
    this.mostKept = 5000000;            // events of a trace that are kept without a question
    this.mostPages = MOST_PAGES;        // of 64 KiB each, of memory that a run may have
    this.examples = dataOf('examples');
    this.lessons = new Lessons(byId('lesson'), dataOf('lessons'), name => this.openExample(name), (event, of) => this.goFromLesson(event, of));
    this.editor = new Editor(byId('editor'), dataOf('grammar'), null);
    this.editor.changed = (origin, at) => {
      if (!this.exploring) this.markOld();
      this.note();
      this.shelf.told();
      if (this.explored && /^(undo|redo)$/.test(origin)) this.explore(this.drag.saidAt(at)).then(() => this.rest());
    };
    this.drag = new Drag(byId('editor'), this.editor.box, dataOf('templates').ranges, {moved: said => this.explore(said), rests: () => this.rest(), pins: at => this.pin(at)});
    this.shelf = new Shelf(byId('shelf'), this, this.drag.ranges);
    this.title = 'scenario';
    this.typed = [];                    // at the debugger's prompt
    this.templates = new TemplateForm(byId('template-dialog'), dataOf('templates'), (text, name) => this.openText(text, name));
    this.save = new Save(byId('save-dialog'), this);
    this.share = new Share(byId('share-dialog'), () => this.shared());
    this.lecture = new Lecture(this);
    this.makeChoice();
    this.makeTabs();
    this.makeButtons();
    this.showTab('net');
    this.panes = new Panes(() => this.laySoon());
  }

  // ---- opening

  makeChoice() {
    const choose = byId('choose'), group = (label, ones) => {
      const made = document.createElement('optgroup');
      made.label = label;
      for (const [value, text] of ones) made.append(new Option(text, value));
      choose.append(made);
    };
    group('Lessons', this.lessons.lessons.map(lesson => [`lesson ${lesson.number}`, `${lesson.number}. ${lesson.title}`]));
    group('Examples', Object.keys(this.examples).map(name => [`example ${name}`, name.replace(/_/g, ' ')]));
    // It says whole what may have no room in it.
    choose.addEventListener('pointerenter', () => { choose.title = `opens a lesson of the tutorial, or an example, and runs it: ${choose.selectedIndex < 0 ? 'none is chosen' : choose.selectedOptions[0].textContent}`; });
    choose.addEventListener('change', () => {
      const [kind, name] = choose.value.split(' ');
      if (kind === 'lesson') this.openLesson(+name); else { this.lessons.show(null); this.openExample(name); }
    });
  }
  openLesson(number) {
    const lesson = this.lessons.lessons.find(one => one.number === number);
    this.lessons.show(lesson);
    byId('choose').value = `lesson ${number}`;
    if (lesson.examples.length) this.openExample(lesson.examples[0]);
  }
  // It runs at once, and moves unless a lecturer has the keys.
  openExample(name) {
    const {now} = this.lessons;
    this.endRun();
    this.title = name;
    this.say('');
    this.editor.text = this.examples[name];
    this.openShelf(now && now.examples.includes(name) ? now.shelf : '');
    return this.engine ? this.start({plays: !this.lecture.on}) : this.showCarried();
  }
  // Of a file that is too long no more is read than the program needs to say so.
  async openFile(file) {
    let bytes;
    try {
      bytes = new Uint8Array(await file.slice(0, MOST_SHARED + 1).arrayBuffer());
    } catch (wrong) {
      this.say(`${file.name} cannot be read, and nothing was opened: ${wrong.message}`);
      return;
    }
    const other = otherThanAScenario(bytes);
    if (other) { this.say(`${file.name} is ${other}, and no scenario: nothing was opened`); return; }
    const title = file.name.replace(/\.(txt|tcb)$/, ''), said = [];
    if (bytes[0] === 84 && bytes[1] === 67 && bytes[2] === 66 || bytes.length > MOST_SHARED && this.engine) {       // an image
      const {status, note, bytes: text} = await this.engine.run(['dis', '--explain'], bytes);
      if (status) { this.say(`${file.name}: ${note.trim().replace(/\n/g, '; ')}`); return; }
      this.openText(new TextDecoder('latin1').decode(text), title, `${file.name} is an image: this is its canonical text, in which names are numbers`);
      return;
    }
    if (BYTE_ORDER_MARK.every((byte, k) => bytes[k] === byte))
      said.push(`${file.name} begins with a byte order mark, which the program refuses; here it is taken off`);
    const text = new TextDecoder().decode(bytes);
    if (text.includes('\r')) said.push(`the lines of ${file.name} end as those of Windows, which the program refuses; here they end with a line feed`);
    this.openText(text, title, said.join('; '));
  }
  // A text that is no lesson's and no example's.
  openText(text, title, said = '') {
    this.endRun();
    this.title = title;
    this.say(said);
    this.editor.text = text;
    this.openShelf('');
    this.lessons.show(null);
    byId('choose').selectedIndex = -1;
  }
  // What a lesson, or nobody, put on the shelf; what is shared says only what is other than that.
  openShelf(words) {
    this.shelf.open(words);
    this.shelfGiven = this.shelf.text;
  }
  pin(at) {
    const how = byId('pin-how'), lacks = !at || at.name === 'lose', {left, bottom} = byId('pin').getBoundingClientRect();
    how.textContent = `${at ? 'That of a lost packet can have no slider. ' : ''}Put the cursor on a number of the scenario, as a rate, a delay or a queue\u2019s capacity, and press this again.`;
    how.togglePopover(lacks);
    if (!lacks) { this.shelf.pin(at); return; }
    how.style.left = `${Math.max(8, Math.min(left, innerWidth - how.offsetWidth - 8))}px`;
    how.style.top = `${bottom}px`;
  }
  // What the scenario is compared with first: the lesson's other example, or one that differs by its queues alone.
  get partner() {
    const {lessons: {now}, title, editor: {text}} = this, ones = now && now.examples.includes(title) ? now.examples : [];
    const plain = one => [...statementsOf(one)].map(words => (words[0] === 'link' ? words.slice(0, 6) : words).join(' ')).join('\n'), wanted = plain(text);
    return ones.find(name => name !== title) || Object.keys(this.examples).find(name => this.examples[name] !== text && plain(this.examples[name]) === wanted);
  }
  // What a fragment behind the address has, or one that is written into the page: answers whether it had a scenario.
  async openFragment(fragment = location.hash || document.documentElement.dataset.shared || '') {
    const mine = this.asked = {};
    try {
      const kept = draftOf(fragment), given = await readFragment(fragment, this.examples, kept);
      if (this.asked !== mine) return true;         // another came while this one was unpacked
      if (!given) return false;
      const lesson = this.lessons.lessons.find(({number}) => number === given.lesson);
      if (lesson) this.openLesson(lesson.number); else if (given.text === null) return false;
      if (given.text !== null) {
        this.openText(given.text, given.name, kept === null ? '' : 'as it was edited');
        this.editor.edited = kept !== null;
        this.lessons.show(lesson || null);
        if (lesson && this.examples[given.name] === given.text) this.openShelf(lesson.shelf);
        if (lesson) byId('choose').value = `lesson ${lesson.number}`;
      }
      const example = `example ${given.name}`;
      if (!lesson && this.examples[given.name] === given.text) byId('choose').value = example;
      if (given.shelf !== null) this.shelf.open(given.shelf);
      this.wanted = given.runs ? given : null;
      if (this.engine && this.wanted) await this.showShared(this.wanted);
      return true;
    } catch (wrong) {
      if (!(wrong instanceof Wrong)) throw wrong;
      if (this.asked === mine) this.say(wrong.message);
      return false;
    }
  }
  async showShared({view, event, time, second}) {
    const done = this.start(), {run} = this;
    await done;
    this.wanted = null;
    if (this.run !== run || !this.page) return;
    if (event) this.goTo(event);
    if (view === 'debug' && event) this.prompt.type(`step ${event}`);
    this.showTab(view);
    if (!second) return;
    this.second = second;
    this.compare.choose(Object.hasOwn(this.examples, second.name) && this.examples[second.name] === second.text ? `example ${second.name}` : 'second');
    await this.compare.start();
    if (time && this.compare.clock) this.compare.clock.go(time);
  }
  // What is shared of the page as it is: its text, and what is seen of its run, or of two.
  shared() {
    const {text} = this.editor, shown = this.page && this.run.text === text, both = this.view === 'compare' && this.compare ? this.compare.beside(text) : null;
    return {text, name: this.title, lesson: this.lessons.now && this.lessons.now.number, view: this.view, event: shown ? this.page.record.at : null,
      shelf: this.shelf.text === this.shelfGiven ? null : this.shelf.text || NO_SHELF, ...both};
  }
  get view() { return byId('run-side').dataset.view; }

  // The address says what is seen, so that it is seen again where the page is loaded anew.
  note() {
    clearTimeout(this.noting);
    this.noting = setTimeout(() => this.keep(), NOTE_AFTER);
  }
  async keep() {
    if (this.wanted) return;            // what the address says is not yet shown
    if (this.exploring) { this.note(); return; }
    const {noting} = this, {view, ...state} = this.shared();
    if (this.run && this.run.text === state.text || state.second) state.view = view;
    let fragment = await fragmentOf(state, this.examples);
    if (fragment.length > MOST_IN_ADDRESS) fragment = await fragmentOf({...state, text: undefined, second: null});
    if (this.noting !== noting) return;
    if (location.hash !== fragment) { this.hashBefore = location.hash; history.replaceState(null, '', fragment); }
    this.keepText();
  }
  // A page that is loaded anew while its address changes may come by the one before.
  keepText() { if (!this.isPlain) keepDraft([location.hash, this.hashBefore], this.editor.text); }

  // ---- the program

  async begin() {
    const root = document.documentElement;
    this.openLesson(1);
    await this.openFragment();
    root.dataset.shown = Math.round(performance.now());
    if (!hasMemory64()) { this.say(NO_MEMORY64); this.withoutProgram(); return; }
    try {
      this.engine = await Engine.of(byId('program').textContent, byId('host').textContent);
    } catch (wrong) {
      this.say(`The program could not be made ready: ${wrong.message}`);
      this.withoutProgram();
      return;
    }
    this.editor.run = (words, input) => this.engine.run(words, input);
    this.compare = new Compare(byId('both'), this.engine, () => this.texts(), dataOf('templates').ranges, this.mostKept, this.lecture);
    this.enable(false);
    this.shelf.told();
    const ready = Math.round(performance.now());
    this.editor.judge();
    if (!this.wanted && this.isPlain) await this.start({plays: true});
    root.dataset.ready = ready;
    if (this.wanted) await this.showShared(this.wanted);
  }
  // Without the program only runs that the page carries are shown.
  withoutProgram() {
    document.documentElement.dataset.ready = 'without';
    this.wanted = null;
    for (const id of ['run', 'figures', 'save-image']) byId(id).disabled = true;
    this.editor.lock(true);
    byId('verdict').textContent = '';
    this.showCarried();
  }
  enable(running) {
    byId('run').disabled = byId('figures').disabled = running;
    byId('stop').disabled = !running;
    byId('progress').hidden = !running;
    byId('how-far').textContent = '';
  }
  // The run of an example whose trace the page has.
  async showCarried() {
    const title = this.title, mine = this.run = {text: this.examples[title], title, comes: true}, packed = byId(`trace-${title}`).textContent;
    const record = new Record(factsOf(this.examples[title], title));
    await fill(record, unpacked(packed), () => {}, () => this.run === mine);
    if (this.run !== mine) return;
    await this.showRun(record, title);
    mine.comes = false;
    if (this.run === mine && this.sought) this.goTo(this.sought);
  }

  // Says above the net if it is of another text than the editor's.
  markOld() { byId('run-side').classList.toggle('old', !!this.page && this.run.text !== this.editor.text); }
  // Whether the text is a lesson's or an example's, as it was.
  get isPlain() { return this.examples[this.title] === this.editor.text; }
  // Runs the scenario: its trace, and its figures beside it. Where it `plays`, the net moves from its first event on.
  async start({trace = true, most = this.mostKept, plays = false} = {}) {
    const text = this.editor.text, input = toBytes(text), title = this.title;
    this.endExploring();
    this.stop();
    this.clear();
    const mine = this.run = {text, title, begun: performance.now(), comes: trace};
    const wanted = () => this.run === mine;
    this.enable(true);
    this.say(byId('nothing').textContent = trace ? 'running' : 'counting');
    const figures = this.countFigures(input, mine);
    const said = trace ? await this.keepTrace(input, mine, most, wanted) : '';
    if (!wanted()) return;
    mine.comes = false;
    this.drawSoon(mine);
    if (said === null) { this.ask(mine); return; }
    const {sought} = this;
    this.sought = null;
    if (sought) this.goTo(sought); else if (plays && this.page && !isCalm()) this.page.play(true);
    const counted = await figures;
    if (!wanted()) return;
    this.enable(false);
    if (mine.csv && !mine.record) this.showTableOnly();
    if (counted.why || counted.status) this.say(byId('nothing').textContent = said || this.reason(counted));
    else this.say(said || `done in ${((performance.now() - mine.begun) / 1000).toFixed(2)} s`);
    document.documentElement.dataset.run = +(document.documentElement.dataset.run || 0) + 1;
  }
  reason({status, note, why}) {
    if (why === 'ended') return 'ended';
    return why || (note || '').trim().split('\n')[0] || `the program ended with status ${status}`;
  }
  async countFigures(input, mine) {
    const run = mine.figures = this.engine.start(['figures'], input, {pages: this.mostPages}), parts = [];
    for await (const piece of run.pieces) parts.push(piece);
    const counted = await run.ended;
    if (this.run !== mine || counted.why || counted.status) return counted;
    mine.csv = new TextDecoder().decode(joined(parts));
    this.shelf.told();
    this.drawSoon(mine);
    byId('save-figures').disabled = false;
    return counted;
  }
  showTableOnly() {
    byId('nothing').textContent = 'This run has a table of figures only: no trace of it was kept, so it has no net and no curves. Press ▶ run to see them.';
    this.showTab('figures');
  }
  // Draws the figures once they are seen, and the trace is there, if one comes.
  drawSoon(run = this.undrawn) {
    const {csv, text, title, record, comes} = this.run || {}, seen = this.view === 'figures' && run && run === this.run && csv && !comes;
    this.undrawn = seen ? null : run;
    if (seen) drawFigures(byId('figures-table'), csv, factsOf(text, title), this.page && this.page.record === record ? record : null);
  }
  // Keeps the trace, and shows it. Answers what is to be said, '' where there is nothing, null where there were too many events.
  async keepTrace(input, mine, most, wanted) {
    const run = mine.trace = this.engine.start(['run', '--explain'], input, {most, pages: this.mostPages, read: true});
    const begun = await run.pieces.begun;
    if (!wanted()) return '';
    if (!begun) return this.reason(await run.ended);
    let record = mine.record = new Record(factsOf(mine.text, mine.title)), lacks = false;
    const {end} = record.facts, told = (count, time) => {
      if (!wanted()) return;
      byId('progress').value = time / end;
      byId('how-far').textContent = `${number(count)} events, ${(100 * time / end).toFixed(0)} % of ${seconds(end, 3)}`;
    };
    try {
      await fill(record, run.pieces, told, wanted);
    } catch (wrong) {
      if (!(wrong instanceof RangeError)) throw wrong;
      run.stop();
      lacks = true;
    }
    if (!wanted()) return '';
    const ended = await run.ended;
    byId('how-far').textContent = '';
    if (lacks) { record = mine.record = null; return 'no memory in this page for the trace: a run with the table only needs none'; }
    if (ended.why === 'long') { mine.record = null; return null; }
    if (record.count) await this.showRun(record, mine.title);
    if (!wanted()) return '';
    return ended.why || ended.status ? `${this.reason(ended)}: what is shown ends at ${seconds(record.times[record.count])}` : '';
  }
  // A run that has more events than are kept unasked.
  ask(mine) {
    const dialog = byId('ask');
    byId('ask-text').textContent = `This run has more than ${number(this.mostKept)} events, and its whole trace may take more memory than ` +
      'the page can have. Its figures want none of it.';
    dialog.returnValue = '';
    dialog.onclose = async () => {
      if (this.run !== mine) return;
      if (dialog.returnValue === 'keep') { this.start({most: Infinity}); return; }
      if (dialog.returnValue !== 'figures') { this.stop(); return; }
      this.say('counting');
      const counted = await mine.figures.ended;
      if (this.run !== mine) return;
      this.enable(false);
      if (counted.why || counted.status) { this.say(byId('nothing').textContent = this.reason(counted)); return; }
      this.showTableOnly();
      this.say(`the table only, in ${((performance.now() - mine.begun) / 1000).toFixed(2)} s`);
    };
    dialog.showModal();
  }
  // Ends what runs, of which nothing is shown: the scenario is another.
  endRun() {
    this.wanted = this.sought = null;
    if (this.compare) this.compare.isAnother = true;
    this.endExploring();
    if (byId('stop').disabled) return;
    this.stop();
    this.run = {...this.run, comes: false};
  }
  // Ends what runs; what was read of the trace is shown.
  stop() {
    const {run} = this;
    if (!run || byId('stop').disabled) return;
    if (run.figures) run.figures.stop();
    if (run.trace) run.trace.stop();
    this.enable(false);
    this.say(byId('nothing').textContent = 'ended');
  }

  // ---- while a hand moves a number

  // Runs the text as it is now, and shows it in the place of the run before. Where another comes meanwhile, a run that is late is ended.
  async explore(said) {
    if (!this.engine) return;
    this.explored = said || this.explored;
    this.again = true;
    if (this.exploring) {
      if (performance.now() - this.exploring.begun > LATE) this.exploring.end();
      return;
    }
    if (!byId('stop').disabled) { this.stop(); this.run = {...this.run, comes: false}; }
    while (this.again) {
      this.again = false;
      await this.exploreOnce();
    }
    this.exploring = null;
    this.markOld();
  }
  endExploring() {
    this.again = this.isLong = false;
    if (this.exploring) this.exploring.end();
    this.exploring = null;
  }
  // Figures and trace, side by side; of a long run the figures only.
  async exploreOnce() {
    const text = this.editor.text, input = toBytes(text), {title, mostPages: pages} = this;
    const figures = this.engine.start(['figures'], input, {pages}), trace = this.engine.start(['run'], input, {most: AT_ONCE, pages, read: true});
    const mine = this.exploring = {text, title, begun: performance.now(), end: () => { figures.stop(); trace.stop(); }};
    const parts = [], counting = (async () => { for await (const piece of figures.pieces) parts.push(piece); return figures.ended; })();
    let record = null;
    if (await trace.pieces.begun) {
      record = new Record(factsOf(text, title));
      await fill(record, trace.pieces);
    }
    const read = await trace.ended, counted = await counting;
    this.isLong = read.why === 'long';
    if (counted.why || counted.status) {
      if (counted.why !== 'ended') this.say(`${this.explored}: ${this.reason(counted)}`);
      return;
    }
    if (this.exploring !== mine) return;        // another scenario was opened, or is run
    const run = this.run = {text, title, begun: mine.begun, csv: new TextDecoder().decode(joined(parts)), record: this.isLong || read.why || read.status ? null : record};
    if (run.record) await this.replaceRun(run.record);
    if (this.run !== run) return;
    this.drawSoon(run);
    byId('save-figures').disabled = false;
    this.say(`${this.explored}${this.isLong ? ': figures only, until the hand rests' : ''}`);
    document.documentElement.dataset.explored = +(document.documentElement.dataset.explored || 0) + 1;
  }
  // Another run of the same net stands where this one does, at the same moment.
  async replaceRun(record) {
    const names = ({nodes, links, flows}) => [nodes, links, flows].map(ones => ones.map(({name}) => name).join(' ')).join('\n');
    if (!this.page || names(this.page.facts) !== names(record.facts)) { await this.showRun(record, this.title); return; }
    this.page.replace(record);
    if (this.view === 'time') this.showTime();
  }
  // The hand rests: what follows from the whole trace is of the last run.
  async rest() {
    while (this.exploring) await new Promise(done => setTimeout(done, LATE));
    if (this.isLong) { this.isLong = false; await this.start(); } else if (this.run && this.run.record && this.page) this.showParts(this.run.record);
  }

  // What can be compared: [value, name, text] each.
  texts() {
    const shown = this.page && this.run ? [['run', `the run shown: ${this.run.title.replace(/_/g, ' ')}`, this.run.text]] : [];
    const second = this.second ? [['second', this.second.name.replace(/_/g, ' '), this.second.text]] : [];
    return [['editor', `${this.title.replace(/_/g, ' ')}, as it is now`, this.editor.text], ...shown, ...second,
      ...Object.entries(this.examples).map(([name, text]) => [`example ${name}`, name.replace(/_/g, ' '), text])];
  }

  // ---- what is shown

  say(text) { byId('said').textContent = text; }
  clear() {
    if (this.page) this.page.end();
    if (this.list) this.list.end();
    if (this.prompt) this.prompt.end();
    if (this.stalls) this.stalls.end();
    this.page = this.list = this.prompt = this.stalls = this.building = window.page = null;
    for (const id of ['tab-net', ...TABS.flatMap(([, , , ids]) => ids)]) byId(id).textContent = '';
    byId('save-trace').disabled = byId('save-figures').disabled = true;
    byId('progress').value = 0;
    this.markOld();         // its words take room above the net
  }
  // Part by part, and not seen before all is there; a newer run ends it.
  async showRun(record, title) {
    const {run} = this, mine = this.building = {}, place = byId('tab-net');
    if (this.page) this.page.end();
    if (this.prompt) this.prompt.end();
    this.page = window.page = null;
    this.showTab('net');
    place.classList.add('building');
    place.replaceChildren(byId('view').content.cloneNode(true));
    this.lecture.addKeys(place.querySelector('#keys'));
    this.lessons.putHead(place.querySelector('h1'), title);
    const page = await Page.of(record, {wanted: () => this.building === mine && this.run === run, choose: panels => this.choosePanels(panels), fold: this.lecture.folds(record.facts),
      told: () => this.note(), moved: at => { if (this.view === 'trace' && this.list) this.list.show(at); }, causes: () => (this.lecture.on ? 'w says why' : 'the tab stalls says why'), openTime: () => this.openTime()});
    if (this.building !== mine) return;
    this.building = null;
    place.classList.remove('building');
    if (!page) { place.textContent = ''; return; }
    this.page = window.page = page;
    if (this.view !== 'net') this.showTab(this.view);
    this.markOld();
    this.shelf.told();
    this.showParts(record);
    // Where all stands below each other, the run is brought into view, behind its lesson where there is one.
    if (document.documentElement.dataset.ready && isNarrow()) byId(byId('lesson').hidden ? 'run-side' : 'lesson').scrollIntoView();
  }
  // What is in the other tabs.
  showParts(record) {
    for (const part of [this.list, this.stalls, this.prompt]) if (part) part.end();
    for (const id of ['all-lines', 'stall-list', 'debugger']) byId(id).textContent = '';
    this.list = new TraceList(byId('all-lines'), record, event => this.goTo(event));
    byId('save-trace').disabled = false;
    if (!this.engine) return;
    this.stalls = new StallList(byId('stall-list'), this.engine, this.run.text, record, stall => this.goToStall(stall));
    this.prompt = new Prompt(byId('debugger'), this.engine, this.run.text, {record, go: event => this.goTo(event), history: this.typed});
  }
  // Of which proof the program is, and the licenses of what the page has besides.
  showAbout() {
    const {version, verdict, module, program, wasm} = dataOf('about');
    byId('about-text').textContent = `tcpsim ${version}

The program in this page and the native one are made of one module, of which the prover said:

${verdict}

SHA-256 of the module          ${module}
SHA-256 of the native program  ${program}
SHA-256 of the WebAssembly     ${wasm}

${dataOf('licenses').join('\n\n')}`;
    byId('about-dialog').showModal();
  }
  goTo(event) {
    if (this.page) this.page.jump(event);
  }
  goToStall({event, flow, from, to}) {
    this.showTab('net');
    this.goTo(event);
    this.page.say(`${this.page.facts.flows[flow].name}: ${to === undefined ? 'the retransmission timer ends' : `no new acknowledgement for ${seconds(to - from)}`}`);
  }
  // Whether the run of the scenario has still to come, and will.
  get isComing() { return !!this.run && !!this.run.comes || !this.engine && document.documentElement.dataset.ready !== 'without'; }
  // A trace line that a lesson names, in the example of which it speaks: at once, or as soon as the run that comes is there.
  async goToLine(event, of) {
    const opened = this.title !== of && this.openExample(of);
    this.sought = this.isComing ? event : null;
    if (opened) await opened; else this.goTo(event);
  }
  async goFromLesson(event, of) {
    if (!this.page && this.title === of && !this.isComing) { this.say('run the scenario first: then a trace line that the lesson names leads to its event'); return; }
    this.showTab('net');
    const goes = this.goToLine(event, of);
    if (!this.page) this.say(`running: event ${number(event)} is shown as soon as the run is there`);
    await goes;
    byId('net-room').scrollIntoView({block: 'nearest'});
  }
  // Where all stands below each other, what it shows is brought into view, below what stays above it.
  pressTab(name) {
    this.showTab(name);
    if (!isNarrow()) return;
    const place = name === 'net' && byId('panel-bar') || byId(`tab-${name}`), above = [byId('tabs'), ...(place.id === 'panel-bar' ? document.querySelectorAll('#replay header') : [])];
    scrollBy(0, place.getBoundingClientRect().top - d3.sum(above, ({offsetHeight}) => offsetHeight));
  }
  showTab(name) {
    for (const tab of document.querySelectorAll('[role=tab]')) {
      const chosen = tab.dataset.tab === name;
      tab.setAttribute('aria-selected', chosen);
      tab.tabIndex = chosen ? 0 : -1;
      byId(`tab-${tab.dataset.tab}`).hidden = !chosen;
    }
    if (this.page && name !== 'time') this.page.showTime(null);
    // All but two runs have the net above them.
    byId('tab-net').hidden = name === 'compare';
    byId('run-side').dataset.view = name;
    this.note();
    const [, , , , shown] = TABS.find(([one]) => one === name);
    if (shown) shown(this);
  }
  // Where the time went: in a tab of its own, and in a lecture in the panel's place.
  openTime() { if (this.lecture.on) this.page.toggleTime(); else this.showTab(this.view === 'time' ? 'net' : 'time'); }
  showTime() {
    if (!this.page) return;
    if (!this.went || this.went.record !== this.page.record) this.went = new TimeWent(byId('time-went'), this.page.record, (event, words) => { this.goTo(event); this.page.say(words); });
    this.page.showTime(this.went);
  }
  // The panels that carry the lesson; in a lecture the first of them alone.
  showPanels() { this.choosePanels(this.page.panels); if (!this.lecture.on) this.page.panels.make(); }
  choosePanels(panels) {
    const {now} = this.lessons, named = now && now.examples.includes(this.run.title) ? now.panels : [];
    if (named.length) panels.name(named);
    if (this.lecture.on) panels.name([panels.shown[0]]);
    this.lecture.choose(panels.shown[0]);
  }
  // What is shown of a run is laid out anew where its room has changed.
  laySoon() {
    clearTimeout(this.laying);
    this.laying = setTimeout(() => { if (this.building) { this.laySoon(); return; } if (this.page && byId('net').clientWidth) this.page.lay(); this.shelf.draw(); }, LAY_AFTER);
  }

  // ---- buttons and keys

  makeButtons() {
    const on = (id, does) => byId(id).addEventListener('click', does), file = byId('file');
    on('run', () => this.start({plays: true}));
    on('figures', () => this.start({trace: false}));
    on('stop', () => this.stop());
    on('pin', () => { const {line, ch} = this.editor.box.getCursor(); this.pin(this.drag.found(line, ch)); });
    on('template-open', () => byId('template-dialog').showModal());
    on('open', () => file.click());
    file.addEventListener('change', () => { if (file.files[0]) this.openFile(file.files[0]); file.value = ''; });
    on('save-open', () => this.save.open());
    on('share-open', () => this.share.open());
    on('about-open', () => this.showAbout());
    on('about-close', () => byId('about-dialog').close());
    on('picture-close', () => byId('picture-dialog').close());
    for (const choice of ['figures', 'keep', 'leave']) on(`ask-${choice}`, () => byId('ask').close(choice));
    const keys = this.editor.box.getOption('extraKeys'), runs = () => byId('run').click();
    this.editor.box.setOption('extraKeys', {...keys, 'Ctrl-Enter': runs, 'Cmd-Enter': runs, 'Alt-P': () => byId('pin').click()});
    this.listen();
  }
  makeTabs() {
    const tabs = TABS.map(([name, says, title, ids]) => {
      const tab = document.createElement('button'), panel = byId(`tab-${name}`) || byId('run-side').appendChild(document.createElement('div'));
      Object.assign(tab, {textContent: says, title, id: `of-${name}`, role: 'tab'});
      tab.dataset.tab = name;
      tab.setAttribute('aria-controls', panel.id = `tab-${name}`);
      panel.setAttribute('role', 'tabpanel');
      panel.setAttribute('aria-labelledby', tab.id);
      panel.append(...ids.map(id => Object.assign(document.createElement('div'), {id})));
      byId('tabs').append(tab);
      return tab;
    });
    tabs.forEach((tab, k) => {
      tab.addEventListener('click', () => this.pressTab(tab.dataset.tab));
      tab.addEventListener('keydown', event => {
        const by = {ArrowRight: 1, ArrowLeft: -1}[event.key];
        if (!by) return;
        const next = tabs[(k + by + tabs.length) % tabs.length];
        next.focus();
        this.pressTab(next.dataset.tab);
        event.preventDefault();
      });
    });
  }
  // What comes from outside: files that are dropped, another size, another fragment.
  listen() {
    document.addEventListener('dragover', event => event.preventDefault());
    document.addEventListener('drop', event => {
      event.preventDefault();
      if (event.dataTransfer.files[0]) this.openFile(event.dataTransfer.files[0]);
    });
    let size = '';
    new ResizeObserver(([{contentRect: {width, height}}]) => {
      if (size !== (size = `${width} ${height}`)) this.laySoon();
    }).observe(byId('run-side'));
    window.addEventListener('pagehide', () => this.keepText());
    window.addEventListener('hashchange', async ({newURL}) => {
      if (!await this.openFragment(new URL(newURL).hash) && this.list && this.page) this.list.show(this.page.record.at);
    });
  }
}

window.simulator = new Simulator();
simulator.begin();
