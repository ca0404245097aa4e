'use strict';
// What a line at the prompt can go on with, as the program's own `help` says: the Tab key takes it as far as it is one, and a
// click takes one of several. Where there is nothing to take, the key leads on as everywhere.

class Completion {
  constructor(line, ask, facts) {
    Object.assign(this, {line, ask, facts, names: null});
    this.place = document.createElement('div');
    this.place.className = 'goes-on';
    this.place.setAttribute('role', 'status');
    this.place.setAttribute('aria-label', 'what the line can go on with');
    line.setAttribute('aria-autocomplete', 'list');
    line.addEventListener('focus', () => this.learn());
    line.addEventListener('input', () => { this.learn(); this.draw(); });
    line.addEventListener('keydown', event => {
      if (event.key !== 'Tab' || event.shiftKey || event.ctrlKey || event.altKey) return;
      if (this.names ? this.take() : line.value.trim()) event.preventDefault();
      // Of what the program is still asked for, as much as fits then.
      if (!this.names && line.value.trim()) this.learn().then(() => this.take());
    });
  }
  // Asks the program once for its names, for those of conditions and kinds, and for what can be displayed.
  learn() { return this.learned || (this.learned = this.askAll()); }
  async askAll() {
    const first = text => text.split('\n').filter(line => /^[a-z]/.test(line)).map(line => line.split(/[ :]/)[0]);
    const help = await this.ask('help'), conditions = first(await this.ask('help break')).slice(1, -1);
    const kinds = (await this.ask('help kinds')).split('\n').slice(1).filter(line => /^[a-z]+ [FL]\b/.test(line)).map(line => line.split(' ')[0]);
    const line = name => help.split('\n').find(one => one.startsWith(`${name} `)) || '';
    const displayed = new Map();
    for (const row of (await this.ask('help display')).split('\n')) {
      const [, word, place, several] = /^([a-z]+) ([FL])  +(?:a value of [a-z]+ [FL]: (.*))?/.exec(row) || [];
      if (word) for (const one of several ? several.split(/, | or /) : [word]) displayed.set(one, place === 'F' ? 'flow' : 'link');
    }
    Object.assign(this, {conditions, kinds, displayed, names: [...first(help), 'time'], topics: line('help').split(/a command, /)[1].split(/, | or /),
      parts: [...line('state').matchAll(/(\w+) [NLF]\b/g)].map(([, part]) => part)});
    this.draw();
  }
  // The names that there are of a sort, each with its number.
  called(sort) { return this.facts[`${sort}s`].map(({name}, k) => [name, `${sort} ${k}`]); }
  // What the last word can be: [word, what it is called] each.
  ones() {
    if (!this.names) return [];
    const words = this.line.value.split(' '), last = words.pop(), before = words.filter(Boolean);
    const name = before.length ? this.names.find(one => one.startsWith(before[0])) : null, [behind] = before.slice(-1);
    let ones = [];
    if (!before.length) ones = this.line.value.trim() ? this.names : [];
    else if (name === 'help' && before.length === 1) ones = [...this.names, ...this.topics];
    else if (['why', 'time'].includes(name) && before.length === 1) ones = this.called('flow');
    else if (name === 'display' && before.length === 1) ones = [...this.displayed.keys()];
    else if (name === 'display' && before.length === 2 && this.displayed.has(behind)) ones = this.called(this.displayed.get(behind));
    else if (name === 'state' && before.length === 1) ones = this.parts;
    else if (name === 'state' || name === 'break') {
      if (before.length > 1 && ['node', 'link', 'flow'].includes(behind)) ones = this.called(behind);
      else if (before.length > 1 && behind === 'kind') ones = this.kinds;
      else if (name === 'break' && behind === 'stall') ones = this.called('flow');
      else if (name === 'break' && behind !== 'byte') ones = this.conditions.filter(one => !before.slice(1).includes(one));
    }
    return ones.map(one => [one].flat()).filter(([word]) => word.startsWith(last) && word !== last);
  }
  draw() {
    this.place.textContent = '';
    for (const [word, called] of this.ones().slice(0, 24)) {
      const button = document.createElement('button');
      button.type = 'button';
      button.tabIndex = -1;
      Object.assign(button, {textContent: called ? `${word} (${called})` : word, title: `writes ${word}`});
      button.addEventListener('click', () => { this.put(word, true); this.line.focus(); });
      this.place.append(button, ' ');
    }
  }
  put(word, whole) {
    const words = this.line.value.split(' ');
    words[words.length - 1] = whole ? `${word} ` : word;
    this.line.value = words.join(' ');
    this.draw();
  }
  // Takes what all that fits have in common; answers whether the line has grown.
  take() {
    const ones = this.ones().map(([word]) => word), last = this.line.value.split(' ').pop();
    if (!ones.length || !this.line.value.trim()) return false;
    let common = ones[0];
    while (!ones.every(word => word.startsWith(common))) common = common.slice(0, -1);
    if (common === last && ones.length > 1) return false;
    this.put(common, ones.length === 1);
    return true;
  }
}
