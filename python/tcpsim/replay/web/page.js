'use strict';
// The page: the present moment, the keys, the address, and what is shown of it.

const HANGS = 8;                        // letters before the further rows of a line, as page.css has it
// How many rows a line takes that is wrapped between its words.
function rowsOf(line, letters) {
  let rows = 1, whole = letters, room = letters;
  const next = () => { rows += 1; whole = Math.max(1, letters - HANGS); };
  for (const {length} of line.split(' ')) {
    if (length > room && room < whole) { next(); room = whole; }
    while (room < length) { next(); room += whole; }
    room -= length + 1;
  }
  return rows;
}

// The clock may be behind the event's own time; on a slide it has no room for its name.
function whereText(event, last, time) { return `event ${number(event)} of ${number(last)}   ${isSlide() ? '' : 'clock '}${seconds(time)}`; }
const EVENT_AFTER = 100;                // ms: while it plays, its events are read no faster
const PLAY = ['▶ play', '❚❚ pause'], LEAST_FONT = 12, LEAST_LINES = 3;

// Takes smaller letters, down to LEAST_FONT, until an element's words have room in it.
function fit(element) {
  element.style.fontSize = '';
  const cut = () => element.scrollHeight > element.clientHeight || element.scrollWidth > element.clientWidth;
  for (let size = parseFloat(getComputedStyle(element).fontSize); size > LEAST_FONT && cut();)
    element.style.fontSize = `${size -= 0.5}px`;
}

// Does something part by part, between which the browser answers and draws; answers whether it is `wanted` to the end.
async function inParts(parts, wanted) {
  for (const _ of parts) if (await pause(), !wanted()) return false;
  return true;
}

class Page {
  // Shows a record in the elements of view.html, until `end`, part by part. Answers the page,
  // or null where it is no more `wanted` before all is there. `choose` is given the panels, `fold` is as makeNet has it.
  static async of(record, {wanted = () => true, choose = () => {}, fold, ...around} = {}) {
    const page = new Page(record, around);
    choose(page.panels);
    if (await inParts(page.parts(fold), wanted)) return page;
    page.end();
    return null;
  }
  // A page around it that has an address of its own is `told` where this one is, and has `moved` to each event that is drawn; `causes`
  // answers where a stall's cause is found, and `openTime` shows where the time went, or what was before.
  constructor(record, {told = null, moved = () => {}, causes = () => 'tcpsim-stalls says why', openTime = () => this.toggleTime()} = {}) {
    this.ended = new AbortController();
    Object.assign(this, {told, moved, causes, openTime, went: null, record, facts: record.facts, time: record.times[0], playing: false, picked: null, frames: 0});
    this.sayLeft();
    this.panels = new Panels(record, time => this.goTo(time));
  }
  *parts(fold) {
    this.panels.layBar();
    yield this.keepRoom();
    yield this.makeNet(fold);
    yield* this.panels.parts();
    yield this.makeLines();
    this.makeControls();
    this.fromAddress();
    this.onWindow('hashchange', () => this.fromAddress());
    this.onWindow('keydown', event => this.key(event));
  }
  // The net, with its ends as stubs or whole; where `fold` is not given as its size wants it.
  makeNet(fold) {
    this.folds = fold;
    this.net = new Net(d3.select('#net'), this.record, what => this.pick(what), fold);
    const button = document.getElementById('fold');
    button.hidden = !this.net.canFold;
    document.getElementById('at-stubs').hidden = !this.net.folded;
    button.setAttribute('aria-pressed', this.net.folded);
  }
  // Lays all out anew, in the room that there is now.
  lay() {
    this.keepRoom();
    this.makeNet(this.folds);
    this.panels.make();
    if (this.went) this.went.layParts();
    this.measure();
    this.show();
  }
  // Another run of the same net takes this one's place, at the same moment; the curves before it lie behind its own.
  replace(record) {
    this.play(false);
    const timed = document.getElementById('went').parentNode.classList.contains('timed');
    if (timed) this.toggleTime();
    Object.assign(this, {record, facts: record.facts, picked: null});
    this.sayLeft();
    if (!this.net.replace(record)) this.makeNet(this.folds);
    this.panels.replace(record);
    record.go(record.eventsBefore(Math.round(Math.min(this.time, record.times[record.count]))));
    this.time = Math.max(Math.min(this.time, record.times[record.count]), record.timeOf(record.at));
    this.show();
    if (timed) this.toggleTime();
  }
  // Where the time of a flow went, in the place of the curves, and back.
  toggleTime() {
    const place = document.getElementById('went');
    this.showTime(this.went ? null : new TimeWent(place, this.record, (event, words) => { this.jump(event); this.say(words); }));
    place.parentNode.classList.toggle('timed', Boolean(this.went));
    this.lay();
  }
  // The net marks what the path of `went` is about; null: nothing.
  showTime(went) {
    this.went = went;
    document.getElementById('open-time').setAttribute('aria-pressed', Boolean(went));
    document.getElementById('at-path').hidden = !went;
    this.draw();
  }
  fold() {
    this.makeNet(!this.net.folded);
    this.show();
  }
  keys(shown) { document.getElementById('keys').hidden = !shown; }
  // Which events of the run the page does not have.
  sayLeft() {
    const {record, facts} = this, before = facts.first, after = !facts.whole;
    const words = [before ? `${number(before)} events before ${seconds(record.times[1] || record.times[0], 3)}` : '',
      after ? `what comes after ${seconds(record.times[record.count], 3)}` : ''].filter(Boolean).join(' and ');
    document.getElementById('left').textContent = words ? `; left out: ${words}` : '';
  }
  onWindow(what, does) { window.addEventListener(what, does, {signal: this.ended.signal}); }
  // Leaves its elements: no key, no frame and no address moves it any more.
  end() { this.playing = false; this.ended.abort(); }

  // What changes its words keeps room for the longest, so that nothing else moves.
  keepRoom() {
    const {record} = this, room = (id, ...texts) => {
      const element = document.getElementById(id), {style} = element, now = element.textContent;
      style.minWidth = '';
      style.minWidth = `${d3.max(texts, text => { element.textContent = text; return Math.ceil(element.getBoundingClientRect().width); })}px`;
      element.textContent = now;
    };
    room('where', whereText(record.last, record.last, record.times[record.count]));
    document.getElementById('under').style.setProperty('--where', `${document.getElementById('where').offsetWidth}px`);
    room('play', ...PLAY);
    room('pace', '0.001 ×', '10000 a second');
    fit(document.getElementById('under'));
    this.say(this.saying);
  }

  // ---- where we are

  goEvent(event) {
    this.record.go(event);
    this.time = this.record.timeOf(this.record.at);
    this.carry = 0;
    this.show();
  }
  // The moment `time`, as `until` of the debugger goes there: events before it are done.
  goTo(time) {
    this.record.go(this.record.eventsBefore(Math.round(time)));
    this.time = Math.max(Math.min(time, this.record.times[this.record.count]), this.record.timeOf(this.record.at));
    this.show();
  }
  fromAddress() {
    const found = !this.told && /^#event=(\d{1,16})$/.exec(location.hash);
    if (!found) { this.show(); return; }
    if (this.playing) this.play(false);
    this.goEvent(+found[1]);
  }
  address() {
    if (this.told) { this.told(this.record.at); return; }
    if (document.documentElement.classList.contains('within')) return;      // the page around it has the address
    const words = `#event=${this.record.at}`;
    if (location.hash !== words) history.replaceState(null, '', words);
  }

  // ---- drawing

  show() {
    this.draw();
    if (!this.playing && this.record.at > this.record.first) this.net.reveal(+this.record.line(this.record.at).split(' ')[2]);
    this.address();
    this.drawEvent();
  }
  // Clock, marked line and words, which are of one event whenever the page is seen.
  drawEvent() {
    this.drawWhere();
    this.drawLines();
    this.drawWords();
    this.moved(this.record.at);
  }
  draw() {
    const record = this.record;
    this.net.draw(this.time, this.fallTime());
    this.net.follow(this.went && this.went.at(this.time));
    if (this.went) this.went.mark(this.time);
    this.panels.mark(this.time);
    if (!this.playing) this.drawWhere();
  }
  drawWhere() {
    const {record: {at, last}} = this, where = document.getElementById('where');
    where.textContent = whereText(at, last, this.time);
    document.documentElement.dataset.event = where.dataset.event = at;
  }
  // A drop is seen to fall for 0.9 s of the reader's time.
  fallTime() {
    if (this.fall !== undefined) return this.fall;
    if (!this.playing) return 0;
    return this.unit.value === 'time' ? 9e8 * this.pace() : 9e8 * this.pace() * this.meanGap;
  }

  makeLines() {
    this.list = document.getElementById('lines');
    this.columns = widthsOf(this.record);
    this.measure = () => {
      // Where the lines are not shown, as in a slide, their list has no width.
      this.letters = Math.max(1, Math.floor((this.list.clientWidth - 14) / textWidth('0', getComputedStyle(this.list).font)));
      // Few lines have no heads above them.
      const room = Math.floor((this.list.clientHeight - 4) / 16);
      heads.hidden = room <= LEAST_LINES;
      this.fit = Math.min(41, Math.max(3, room - !heads.hidden));
    };
    const heads = Object.assign(document.createElement('li'), {className: 'heads', textContent: inColumns(this.columns, HEADS)});
    this.list.append(heads);
    this.measure();
    this.onWindow('resize', () => { this.measure(); this.panels.resize(); this.show(); });
    this.rows = d3.range(41).map(() => {
      const row = document.createElement('li');
      row.tabIndex = -1;
      row.addEventListener('click', () => { if (row.dataset.event) this.pick({event: +row.dataset.event}); });
      return this.list.appendChild(row);
    });
  }
  // As many lines around the present one as there is room for, each whole.
  drawLines() {
    if (!this.list.clientWidth) return;
    const record = this.record, readably = event => readable(this.facts, record.line(event), this.columns), rows = event => rowsOf(readably(event), this.letters);
    let begin = record.at, end = record.at - 1, room = this.fit;
    const add = event => {
      if (event <= record.first || event > record.last || rows(event) > room) return false;
      room -= rows(event);
      return true;
    };
    if (record.at > record.first) { end = record.at; room -= rows(record.at); } else { begin = record.at + 1; end = record.at; }
    for (let more = true; more;) {
      more = false;
      if (add(begin - 1)) { begin -= 1; more = true; }
      if (add(end + 1)) { end += 1; more = true; }
    }
    this.rows.forEach((row, i) => {
      const event = begin + i, shown = event <= end;
      if (row.hidden === shown) row.hidden = !shown;
      if (!shown) { row.removeAttribute('data-event'); row.className = ''; return; }
      const line = record.line(event);
      if (row.dataset.event !== String(event) || row.title !== line) { row.textContent = readably(event); row.title = line; row.dataset.event = event; }
      const look = (event === record.at ? 'present' : '') + (line.includes(' drop=') ? ' dropping' : '');
      if (row.className !== look) row.className = look;
      if (event === record.at) row.setAttribute('aria-current', 'true'); else row.removeAttribute('aria-current');
    });
  }

  // ---- the words of what was picked; of the present line where nothing is

  pick(what) {
    this.picked = what;
    if (what.event !== undefined && what.event !== this.record.at) { this.play(false); this.picked = what; this.drawWords(); return; }
    this.drawWords();
  }
  drawWords() {
    const box = document.getElementById('words'), what = this.picked || {event: this.record.at};
    box.textContent = '';
    const rows = what.packet ? this.packetRows(what) : what.node !== undefined ? this.nodeRows(what.node) :
      what.link !== undefined ? this.linkRows(what.link) : this.lineRows(what.event);
    const code = text => { const made = document.createElement('code'); made.textContent = text; return made; };
    const table = document.createElement('table');
    for (const [word, means, section] of rows) {
      const row = table.insertRow();
      if (section === undefined) {        // the words that a line begins with
        const cell = row.insertCell();
        cell.colSpan = 3; cell.className = 'first';
        cell.append(code(word), ` ${means}`);
        continue;
      }
      row.insertCell().textContent = word;
      row.insertCell().textContent = means;
      if (!section) { row.lastChild.colSpan = 2; continue; }
      const cell = row.insertCell();
      section.split(', ').forEach((one, k) => {
        const name = document.createElement('span');
        name.textContent = one;
        cell.append(k ? ', ' : '', name);
      });
    }
    const event = what.event !== undefined ? what.event : this.record.at;
    const commands = document.createElement('p');
    const moment = this.record.timeOf(Math.min(this.record.last, Math.max(this.record.first, event)));
    commands.append('In the debugger ', code(`step ${event}`), ' leads just behind it, ', code(`until ${moment}`), ' just before its moment.');
    box.append(commands, table);
    fit(box);
    box.dataset.event = event;
  }
  lineRows(event) {
    if (event <= this.record.first) return [['', event ? `before the page's first line: ${number(event)} events were run` : 'before the first event', '']];
    const line = this.record.line(event);
    return explainLine(this.facts, line, line.includes(' ack ') ? this.before(event) : null);
  }
  // The sender's state before an event, for the words of an acknowledgement.
  before(event) {
    const at = this.record.at, name = +this.record.line(event).split(' ')[6];
    this.record.go(event - 1);
    const state = name < this.facts.flows.length ? this.record.flow(name) : null;
    this.record.go(at);
    return state;
  }
  packetRows({packet, link, sent}) {
    const track = this.record.tracks[link], l = this.facts.links[link];
    return [['packet', packetName(this.facts, packet), ''], ['link', `${l.name}, ${rateText(l.rate)}, ${milliseconds(l.delay)}`, ''],
      ['waited', `from ${seconds(packet.entered, 9)}, ${milliseconds(track.begun(sent) - packet.entered)}`, ''],
      ['tx', `begun ${seconds(track.begun(sent), 9)}`, ''], ['arrives', seconds(track.arrives(sent), 9), ''],
      ['again', packet.again ? 'this segment was sent before' : 'sent for the first time', packet.again ? 'RFC 5681 section 3.2, RFC 6298 section 5.4' : '']];
  }
  linkRows(l) {
    const link = this.facts.links[l], now = this.record.link(l);
    const words = d3.range(now.head, Math.min(now.tail, now.head + 8)).map(k => packetName(this.facts, this.record.packet(l, k)));
    return [['queue', `of link ${link.name}, ${{codel: 'CoDel', droptail: 'drop-tail'}[link.queue] || link.queue}`, link.queue === 'codel' ? 'RFC 8289' : ''],
      ['waiting', `${number(now.length)} of at most ${number(link.limit)}`, ''],
      ['from the head', words.join('; ') + (now.length > 8 ? '; ..' : ''), ''],
      ['offered', number(now.offered), ''], ['sent', number(now.sent), '']];
  }
  nodeRows(n) {
    const node = this.facts.nodes[n], f = this.record.endOf[n], rows = [['node', `${node.name}, a ${node.kind}`, '']];
    if (node.kind === 'sender') {
      const now = this.record.flow(f), phase = now.recovery ? 'fr' : now.cwnd < now.ssthresh ? 'ss' : 'ca';
      rows.push(...['una', 'nxt', 'cwnd', 'ssthresh'].map(word => explainWord(this.facts, `${word}=${now[word]}`)),
        explainWord(this.facts, `phase=${phase}`), ['dups', `${now.dups} duplicate acknowledgements in a row`, 'RFC 5681 section 3.2']);
    } else if (node.kind === 'receiver') rows.push(explainWord(this.facts, `next=${this.record.flow(f).next}`));
    this.facts.links.forEach((link, l) => { if (link.from === n) rows.push(...this.linkRows(l).slice(0, 2)); });
    return rows;
  }

  // ---- keys and buttons

  makeControls() {
    const on = (id, what) => document.getElementById(id).addEventListener('click', event => { what(); event.currentTarget.blur(); });
    on('start', () => this.goEvent(this.record.first)); on('back', () => this.step(-1)); on('on', () => this.step(1));
    on('play', () => this.play(!this.playing)); on('drop', () => this.next('drop', 1));
    on('timeout', () => this.next('timeout', 1)); on('stall', () => this.next('stall', 1));
    on('fold', () => this.fold()); on('open-time', () => this.openTime()); on('help', () => this.keys(document.getElementById('keys').hidden));
    this.speed = document.getElementById('speed'); this.unit = document.getElementById('unit');
    const span = this.record.times[this.record.count] - this.record.times[0];
    this.meanGap = span / 1e9 / Math.max(1, this.record.count);
    // At first the whole page takes a minute, or real time where that is shorter.
    this.speed.value = Math.round(100 * Math.log10(Math.min(1, Math.max(0.001, span / 6e10)) / 0.001));
    const told = () => { document.getElementById('pace').textContent = this.unit.value === 'time' ?
      `${+this.pace().toPrecision(2)} ×` : `${+this.pace().toPrecision(2)} a second`; };
    this.speed.addEventListener('input', told); this.unit.addEventListener('change', told);
    told();
  }
  // A thousandth to ten times real time, or 1 to 10,000 events a second.
  pace() { return 10 ** (this.speed.value / 100) * (this.unit.value === 'time' ? 0.001 : 1); }

  key(event) {
    if (event.ctrlKey || event.altKey || event.metaKey || event.key === 'Shift') return;
    if (!document.getElementById('keys').hidden) { this.keys(false); event.preventDefault(); return; }
    if (event.target !== document.body && !document.getElementById('replay').contains(event.target)) return;
    const tag = event.target.tagName;
    if ((tag === 'INPUT' && event.target.type === 'range' || tag === 'SELECT') && event.key !== ' ') return;
    if (event.key === ' ' && (tag === 'BUTTON' || tag === 'SELECT' || tag === 'INPUT' && event.target.type === 'checkbox')) return;
    const does = {ArrowRight: () => this.step(1), ArrowLeft: () => this.step(-1), ' ': () => this.play(!this.playing),
      d: () => this.next('drop', 1), D: () => this.next('drop', -1), r: () => this.next('timeout', 1),
      R: () => this.next('timeout', -1), s: () => this.next('stall', 1), S: () => this.next('stall', -1),
      f: () => this.fold(), w: () => this.openTime(), t: () => this.nextPart(1), T: () => this.nextPart(-1), '?': () => this.keys(true),
      Home: () => this.jump(this.record.first), End: () => this.jump(this.record.last)}[event.key];
    if (does) { does(); event.preventDefault(); }
  }
  step(by) { this.jump(this.record.at + by); }
  jump(event) { this.play(false); this.picked = null; this.say(''); this.goEvent(event); }

  // The next drop, timeout or stall after the present event, or the one before it.
  next(what, way) {
    const events = {drop: () => this.record.drops.map(drop => drop.event), timeout: () => this.record.timeouts,
      stall: () => this.record.stalls.map(stall => stall.event)}[what]().filter(event => way * (event - this.record.at) > 0);
    if (!events.length) { this.play(false); this.say(`no ${what} ${way > 0 ? 'after' : 'before'} this event`); return; }
    this.jump(way > 0 ? d3.min(events) : d3.max(events));
    if (what === 'stall') {
      const stalls = this.record.stalls.filter(stall => stall.event === this.record.at);
      this.say(() => stalls.map(stall => `${this.facts.flows[stall.flow].name}: no new acknowledgement for ${seconds(stall.to - stall.from, isSlide() ? 3 : 6)}`).join('; ') +
        ` (${this.causes()})`);
    }
  }
  nextPart(way) {
    if (!this.went) this.openTime();
    if (!this.went.next(way, this.record.at)) this.say(`no part ${way > 0 ? 'after' : 'before'} this event`);
  }
  // A function's words are those of the room that there is, also once that is another.
  say(words = '') {
    const notice = document.getElementById('notice'), now = words instanceof Function ? words() : words;
    this.saying = words;
    if (notice.textContent !== now) notice.textContent = now;
    fit(notice);
  }

  play(on) {
    if (on === this.playing) return;
    if (on && this.record.at === this.record.last) this.goEvent(this.record.first);
    this.playing = on;
    document.getElementById('play').textContent = PLAY[+on];
    document.getElementById('words').setAttribute('aria-live', on ? 'off' : 'polite');
    if (!on) { this.show(); return; }
    this.picked = null; this.say('');
    this.then = null; this.carry = this.due = 0;
    requestAnimationFrame(now => this.frame(now));
  }
  frame(now) {
    if (!this.playing) return;
    const passed = this.then === null ? 0 : Math.min(100, now - this.then), {record} = this;
    this.then = now; this.frames += 1;
    if (this.unit.value === 'time') {
      this.time += passed * 1e6 * this.pace();
      record.go(Math.max(record.at, record.eventsBefore(this.time + 0.5)));
    } else {
      this.carry += passed / 1000 * this.pace();
      const events = Math.floor(this.carry);
      this.carry -= events;
      record.go(record.at + events);
      const at = record.timeOf(record.at), next = record.at < record.last ? record.timeOf(record.at + 1) : at;
      this.time = at + (next - at) * this.carry;
    }
    if (record.at === record.last) { this.time = record.timeOf(record.last); this.play(false); return; }
    this.draw();
    if (now >= this.due) { this.due = now + EVENT_AFTER; this.drawEvent(); }
    if (this.frames % 20 === 0) this.address();
    requestAnimationFrame(then => this.frame(then));
  }
}
window.Page = Page;      // so that the page around a frame can show a run in it
