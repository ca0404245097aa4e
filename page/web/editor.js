'use strict';
// The scenario's editor: line numbers, the colours of editors/vscode, and what the program says of the text as it is typed.

const JUDGE_AFTER = 250, SAY_AFTER = 150;       // ms after the last key; after which a verdict is waited for in words
// What the editor takes: letters, lines, and letters of a line. Of a longer text it shows a part, which cannot be edited.
const MOST_LETTERS_SHOWN = 2 ** 19, MOST_LINES_SHOWN = 2 ** 14, MOST_OF_A_LINE = 2 ** 12;
// The scopes of the grammar, and the colours of the editor.
const SCOPES = [['comment', 'comment'], ['invalid', 'error'], ['keyword', 'keyword'], ['entity', 'def'], ['storage', 'type'],
  ['constant', 'number']];
const lookOf = scope => (SCOPES.find(([begin]) => scope.startsWith(begin)) || [])[1] || null;

// A line in parts of one look each: [end, look]. The earliest match counts, of those the first of the grammar.
function partsOf(line, patterns) {
  const parts = [];
  for (let at = 0; at < line.length;) {
    let first = null;
    for (const {name, match, captures} of patterns) {
      match.lastIndex = at;
      const found = match.exec(line);
      if (found && found[0] && (!first || found.index < first.found.index)) first = {name, captures, found};
    }
    if (!first) break;
    const {found, name, captures} = first, end = found.index + found[0].length;
    if (found.index > at) parts.push([found.index, null]);
    if (name) parts.push([end, lookOf(name)]);
    else {
      for (const number of Object.keys(captures)) {
        const [begin, close] = found.indices[number];
        parts.push([begin, null], [close, lookOf(captures[number].name)]);
      }
      parts.push([end, null]);
    }
    at = end;
  }
  parts.push([line.length, null]);
  return parts;
}
function defineColours(grammar) {
  const patterns = grammar.patterns.map(pattern => ({...pattern, match: new RegExp(pattern.match, 'gd')}));
  CodeMirror.defineMode('tcpsim', () => ({
    startState: () => ({parts: []}),
    token(stream, state) {
      if (stream.sol()) state.parts = partsOf(stream.string, patterns);
      while (state.parts.length > 1 && state.parts[0][0] <= stream.pos) state.parts.shift();
      const [end, look] = state.parts[0];
      stream.pos = Math.max(stream.pos + 1, Math.min(end, stream.string.length));
      return look;
    },
  }));
}

// As much of a text as the editor takes.
function partOf(text) {
  const lines = text.slice(0, MOST_LETTERS_SHOWN).split('\n', MOST_LINES_SHOWN);
  const part = lines.map(line => line.slice(0, MOST_OF_A_LINE)).join('\n');
  return part.length === text.length ? text : part;
}

// Where byte `at` of a line stands among its letters.
function letterOf(line, at) {
  let bytes = 0, k = 0;
  for (const letter of line) {
    if (bytes >= at) break;
    bytes += toBytes(letter).length;
    k += letter.length;
  }
  return k;
}
// The span of letters that carets show, of a line that may be shown in part: [begin, end].
function spanOf(line, shown, carets) {
  const begin = carets.indexOf('^'), end = carets.lastIndexOf('^') + 1;
  const asShown = [...toBytes(line)].map(byte => byte < 32 || byte > 126 ? '?' : String.fromCharCode(byte)).join('');
  const offset = Math.max(0, asShown.indexOf(shown));
  return [letterOf(line, offset + begin), letterOf(line, offset + end)];
}
// What a note of the program says with --explain: code, line (or null), the rest's lines, and the span under its carets.
function readNote(note, text) {
  const [head, ...rest] = note.replace(/\n$/, '').split('\n');
  const found = /^refused ([A-Z]+\d*)(?: line (\d+))?$/.exec(head);
  if (!found) return {head, rest, code: null, line: null, span: null};
  const line = found[2] && +found[2] ? +found[2] : null;
  const whole = line ? text.split('\n', line)[line - 1] : '';
  const span = whole && whole.length <= MOST_OF_A_LINE && rest.length > 1 && /^ *\^+$/.test(rest[1]) ? spanOf(whole, rest[0], rest[1]) : null;
  return {head, rest, code: found[1], line, span};
}

class Editor {
  // `judged` is told what the program says of the present text, once it has said it.
  constructor(place, grammar, run) {
    defineColours(grammar);
    Object.assign(this, {run, marks: [], whole: null, locked: false, changed: () => {}});
    this.box = CodeMirror(place, {lineNumbers: true, mode: 'tcpsim', gutters: ['CodeMirror-linenumbers', 'faults'],
      lineWrapping: true, inputStyle: 'textarea', dragDrop: false, extraKeys: {Tab: false, 'Shift-Tab': false}});
    this.box.getInputField().setAttribute('aria-label', 'the scenario');
    this.hints = new Hints(this.box);
    this.box.on('beforeChange', (box, change) => {
      const text = change.text.join('\n');
      if (change.origin === 'setValue' || partOf(text) === text) return;
      change.cancel();
      this.say('bad', 'this is too long to be edited here: open it as a file');
    });
    this.box.on('change', (box, {origin, from}) => {
      this.edited = origin !== 'setValue';
      this.changed(origin, from);
      clearTimeout(this.timer);
      this.timer = setTimeout(() => this.judge(), JUDGE_AFTER);
    });
    new ResizeObserver(() => this.box.refresh()).observe(place);
    this.verdict = document.getElementById('verdict');
    this.explained = document.getElementById('explained');
    this.meaning = document.getElementById('meaning');
    this.meaning.addEventListener('toggle', () => this.explain());
  }
  // Whether the text was edited since it was opened or saved: then whoever leaves the page is asked.
  get edited() { return window.onbeforeunload !== null; }
  set edited(edited) { window.onbeforeunload = edited ? event => event.preventDefault() : null; }
  get text() { return this.whole === null ? this.box.getValue() : this.whole; }
  set text(text) {
    const part = partOf(text);
    this.whole = part === text ? null : text;
    this.clear();
    this.say('', '');
    delete document.documentElement.dataset.judged;
    this.box.setValue(part);
    this.box.clearHistory();
    this.box.scrollTo(0, 0);
    this.lock(this.locked);
    clearTimeout(this.timer);
    this.judge();
  }
  // Whether nothing can be edited.
  lock(locked) {
    this.locked = locked;
    this.box.setOption('readOnly', locked || this.whole !== null);
  }
  say(look, text) {
    this.verdict.className = look;
    if (this.verdict.textContent !== text) this.verdict.textContent = text;
  }

  // Asks the program, with the text as it stands when it is free.
  async judge() {
    if (!this.run) return;
    if (this.judging) { this.again = true; return; }
    this.judging = true;
    do {
      this.again = false;
      const text = this.text, late = setTimeout(() => { this.clear(); this.say('', 'the program reads the text'); }, SAY_AFTER);
      const {status, note} = await this.run(['asm', '--explain'], toBytes(text));
      clearTimeout(late);
      if (!this.again && text === this.text) this.show(status, note, text);
    } while (this.again);
    this.judging = false;
  }
  show(status, note, text) {
    this.clear();
    document.documentElement.dataset.judged = status;
    const part = this.whole === null ? '' : `; the editor shows the first ${number(this.box.lineCount())} lines of ${number(text.length)} letters, to be read`;
    if (!status) {
      const counts = {node: 0, link: 0, flow: 0};
      for (const [statement] of statementsOf(text)) if (statement in counts) counts[statement] += 1;
      this.say('good', `a scenario: ${Object.entries(counts).map(([name, count]) => many(count, name)).join(', ')}${part}`);
      return;
    }
    const {head, rest, code, line, span} = readNote(note || '', text);
    this.say('bad', `${head || 'the program could not judge the text'}${part}`);
    this.explained.textContent = rest.join('\n');
    this.code = code;
    this.meaning.hidden = !code || code === 'I1';
    this.meaning.firstElementChild.textContent = `what ${code} means`;
    if (this.meaning.open) this.explain();
    if (!line || line > this.box.lineCount()) return;
    const mark = document.createElement('span');
    mark.className = 'fault';
    mark.textContent = '\u25cf';
    mark.title = rest[rest.length - 1] || head;
    this.box.setGutterMarker(line - 1, 'faults', mark);
    this.box.addLineClass(line - 1, 'background', 'faulty');
    this.faulty = line - 1;
    if (span) this.marks.push(this.box.markText({line: line - 1, ch: span[0]}, {line: line - 1, ch: span[1]}, {className: 'wrong'}));
  }
  clear() {
    this.box.clearGutter('faults');
    if (this.faulty !== undefined) this.box.removeLineClass(this.faulty, 'background', 'faulty');
    this.marks.forEach(mark => mark.clear());
    this.marks = [];
    this.explained.textContent = '';
    this.meaning.hidden = true;
  }
  async explain() {
    if (!this.meaning.open || !this.code || !this.run) return;
    const {bytes} = await this.run(['explain', this.code], new Uint8Array(0));
    this.meaning.lastElementChild.textContent = new TextDecoder('latin1').decode(bytes);
  }
}
