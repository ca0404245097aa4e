'use strict';
// The program's debugger: commands are typed, answers stand below each other, and the net goes where the program is. A session
// is run anew over all commands so far, which gives the same answers, with those of the last command behind them; where that
// takes too long a worker keeps the session, and waits. `time` is answered here, as tcpsim-debug does it.

const SCENARIO_FILE = 'scenario.txt', PROMPT = '(tcpsim) ';
const QUIT = /^ *q(u(i(t)?)?)? *$/, PLACE = /^at (\d+) of the run/gm;
const AGAIN_WITHIN = 100;               // ms that a session may take to be run anew

// The debugger's stalls are not those of the button.
const STANDS_STILL = 'where nothing of a flow is under way. The button stall goes to others: more than 200 ms without a new acknowledgement';
const ASKS_STALLS = /^ *stal(l(s)?)? *$/, STALLED = /^goto \d+: flow (.*) is stalled at/, IN_NS = /\b(\d+) ?ns\b/g;
// What a line of an answer means: its times in seconds, or names for its numbers, of a node, a link or an event that the session shows.
function meaningOf(facts, line) {
  const times = [...line.matchAll(IN_NS)].map(([, ns]) => seconds(+ns)).join(', '), stalled = STALLED.exec(line);
  if (times) return stalled ? `${times}: ${stalled[1]} stands still` : times;
  const [kind, first, second, , , what, name, packet] = line.split(' ');
  if (kind === 'node' && facts.nodes[first]) return `${second} ${facts.nodes[first].name}`;
  if (kind === 'link' && facts.links[first]) return `link ${facts.links[first].name}`;
  if (kind !== 'event' || !facts.nodes[second]) return '';
  const of = what === 'free' ? `link ${facts.links[name].name}` : `${packet === undefined ? '' : `${number(packet)} `}of ${facts.flows[name].name}`;
  return `${seconds(+first)}, ${facts.nodes[second].name}: ${what} ${of}`;
}

// ---- where the time went

const ASKS_TIME = /^ *time(?: +(\S+))? *$/, HELP_OF_TIME = /^ *h(?:e(?:l(?:p)?)?)? +time *$/, BEHIND = /^why F .*\n/m;       // in the list of help
const USAGE = 'time [F]     tell where the time of flow F went, in the whole run; alone, a row for each flow\n';
const inSeconds = ns => `${Math.floor(ns / 1e9)}.${String(ns % 1e9).padStart(9, '0')}`, partOfWhole = (ns, whole) => (100 * ns / (whole || 1)).toFixed(2);
// Rows below each other, all columns but the last to the right.
function aligned(rows) {
  const wide = rows[0].map((_, k) => Math.max(...rows.map(row => row[k].length)));
  return rows.map(row => `${row.map((word, k) => k < row.length - 1 ? word.padStart(wide[k]) : word).join('  ')}\n`).join('');
}
// The parts of a flow's time as tcpsim-time has them; of none a row for each flow, with its greatest part.
function timeText(record, named) {
  const {flows} = record.facts, f = flows.findIndex(({name}, k) => name === named || String(k) === named), path = k => new CriticalPath(record, k);
  if (named && f < 0) return `time: there is no flow ${named}\n`;
  if (named) {
    const found = path(f), {time} = found;
    if (!found.acknowledged) return `time: nothing is acknowledged of ${flows[f].name}\n`;
    return aligned([['seconds', '%', 'part'], ...found.parts().map(({part, ns}) => [inSeconds(ns), partOfWhole(ns, time), partText(part, flows[f].name)]), [inSeconds(time), '100.00', 'in all']]);
  }
  return aligned([['flow', 'seconds', '%', 'greatest part'], ...flows.map(({name}, k) => {
    const found = path(k), [most] = found.acknowledged ? found.parts() : [];
    return most ? [name, inSeconds(found.time), partOfWhole(most.ns, found.time), partText(most.part, name)] : [name, '-', '-', '-'];
  })]);
}

class Prompt {
  // `record` is of the scenario's run, `go` is given the number of events run, `history` has the lines typed before.
  constructor(place, engine, text, {record, go, history}) {
    const {facts} = record;
    Object.assign(this, {engine, go, history, record, facts, againWithin: AGAIN_WITHIN, commands: [], known: 0, noted: 0, file: toBytes(text), back: 0, draft: '', kept: null});
    place.textContent = '';
    this.said = document.createElement('pre');
    this.said.setAttribute('aria-live', 'polite');
    this.said.setAttribute('aria-label', 'what was typed, and the answers');
    this.said.tabIndex = 0;
    const form = document.createElement('form'), label = document.createElement('label'), button = document.createElement('button');
    label.textContent = 'tcpsim debug> ';
    this.line = document.createElement('input');
    Object.assign(this.line, {autocomplete: 'off', autocapitalize: 'off', spellcheck: false, placeholder: 'help; step 3; run'});
    Object.assign(button, {textContent: 'do it', title: 'gives the command to the program (Enter)'});
    this.line.title = 'a command of the prompt, as help, stalls, step 3, until 2s, break drop, run, display flow 0; Tab completes it, and the arrow keys bring earlier ones';
    label.append(this.line);
    form.append(label, button);
    this.completion = new Completion(this.line, command => this.ask(command), facts);
    form.addEventListener('submit', event => { event.preventDefault(); this.type(this.line.value); });
    this.line.addEventListener('keydown', event => this.recall(event));
    place.append(this.said, this.completion.place, form);
  }
  end() { this.leave(); this.over = true; }
  // Lets the worker go that keeps the session.
  leave() {
    if (this.kept) this.kept.stop();
    this.kept = null;
  }
  // The session has ended: the next command begins another.
  forget() {
    this.leave();
    Object.assign(this, {commands: [], known: 0, noted: 0});
    this.said.append('the session has ended; the next command begins another\n');
  }
  // An earlier line, by the arrow keys; below the last one what was being typed.
  recall(event) {
    const by = {ArrowUp: 1, ArrowDown: -1}[event.key];
    if (!by) return;
    event.preventDefault();
    if (!this.back) this.draft = this.line.value;
    this.back = Math.max(0, Math.min(this.history.length, this.back + by));
    this.line.value = this.back ? this.history[this.history.length - this.back] : this.draft;
    this.line.setSelectionRange(this.line.value.length, this.line.value.length);
    this.completion.draw();
  }
  get files() { return new Map([[SCENARIO_FILE, this.file]]); }
  // What the program answers to one command in a session of its own.
  async ask(command) {
    const {bytes} = await this.engine.run(['debug', SCENARIO_FILE], toBytes(`${command}\n`), {files: this.files});
    return new TextDecoder('latin1').decode(bytes);
  }

  async type(command) {
    if (this.running) return;
    this.running = true;
    this.line.value = '';
    Object.assign(this, {back: 0, draft: ''});
    if (command.trim() && this.history[this.history.length - 1] !== command) this.history.push(command);
    this.completion.draw();
    const {answer, noted} = await this.answerTo(command);
    this.running = false;
    if (this.over) return;
    const [typed, end] = this.lines(`> ${command}\n`);
    if (ASKS_STALLS.test(command)) typed.dataset.hint = STANDS_STILL;
    this.said.append(typed, end, ...this.lines(answer), noted);
    if (QUIT.test(command)) this.forget();
    this.said.scrollTop = this.said.scrollHeight;
    const places = [...answer.matchAll(PLACE)];
    if (places.length) this.go(+places[places.length - 1][1]);
  }
  async answerTo(command) {
    const time = ASKS_TIME.exec(command);
    if (time) return {answer: timeText(this.record, time[1]), noted: ''};
    if (HELP_OF_TIME.test(command)) return {answer: USAGE, noted: ''};
    const told = await (this.kept ? this.giveKept(command) : this.runAnew(command));
    return /^ *h(e(l(p)?)?)? *$/.test(command) ? {...told, answer: told.answer.replace(BEHIND, found => found + USAGE)} : told;
  }
  // The lines of an answer, each with what its numbers mean behind it.
  lines(answer) {
    return answer.split(/(?<=\n)/).map(line => {
      const row = document.createElement('span'), end = line.endsWith('\n') ? '\n' : '', hint = meaningOf(this.facts, line.trimEnd());
      row.textContent = end ? line.slice(0, -1) : line;
      if (hint) row.dataset.hint = hint;
      return [row, end];
    }).flat();
  }
  // The whole session again, with the command behind it.
  async runAnew(command) {
    const commands = [...this.commands, command], begun = performance.now();
    const {status, note, why, bytes} = await this.engine.run(['debug', SCENARIO_FILE], toBytes(commands.map(line => `${line}\n`).join('')),
      {files: this.files});
    const answer = new TextDecoder('latin1').decode(bytes.subarray(this.known));
    const noted = why ? `${why}\n` : this.plain(status === 0 ? note.slice(this.noted) : note);
    if (status === 0) Object.assign(this, {commands, known: bytes.length, noted: note.replace(/\n$/, '').length});
    if (status === 0 && performance.now() - begun > this.againWithin && canKeep() && !QUIT.test(command)) this.keep();
    return {answer, noted};
  }
  // From the next command on a worker keeps the session.
  keep() {
    this.kept = this.engine.keep(['debug', SCENARIO_FILE], {files: this.files});
    this.caught = this.kept.give(toBytes(this.commands.map(line => `${line}\n`).join('')));
  }
  async giveKept(command) {
    const {note: before} = await this.caught, {bytes, note, ended} = await this.kept.give(toBytes(`${command}\n`));
    this.caught = {note};
    this.commands.push(command);
    if (ended && (ended.why || ended.status)) this.forget();
    return {answer: new TextDecoder('latin1').decode(bytes), noted: ended && ended.why ? `${ended.why}\n` : this.plain(note.slice(before.length))};
  }
  plain(note) { return note.replaceAll(PROMPT, '').replace(/^\n/, ''); }
}
