'use strict';
// Quiet hints behind the numbers of a scenario, and units that are typed: 18ms becomes 18000000 once the cursor leaves it, and as a
// queue's capacity 0.5BDP the packets that this is.

// The places of a statement's numbers that have units, and the reader of what is typed there.
const TIME = [timeOf, waitText], RATE = [rateOf, rateText], SIZE = [sizeOf, bytes => `${number(bytes)} bytes`];
const UNITS_OF = {sim: {1: TIME}, link: {4: RATE, 5: TIME, 8: TIME, 9: TIME, 10: SIZE}, flow: {4: SIZE, 6: TIME, 7: SIZE, 8: TIME}};
const SMALLEST = 1000;                  // a number below it needs no hint
const WHOLE_NUMBER = /^\d{1,18}$/;

// The bytes of the greatest packet that a text's flows send, and the number of segments and bytes of a flow.
function greatestPacketOf(text) {
  let most = 0;
  for (const [, mss] of text.matchAll(/^ *flow +\S+ +\S+ +\S+ +(\d{1,5})(?= )/gm)) most = Math.max(most, +mss);
  return most ? HEADERS + most : 0;
}
// What a line's numbers mean, where the greatest packet has so many bytes.
function hintOf(line, packet) {
  const ones = words(line), units = UNITS_OF[ones[0]], said = [];
  if (!units) return '';
  const isNumber = k => WHOLE_NUMBER.test(ones[k] || '');
  for (let k = 1; k < ones.length; k++) {
    if (ones[0] === 'link' && k === 7 && isNumber(7) && packet && +ones[4] > 0)
      said.push(`${many(+ones[7], 'packet')} = ${waitText(Math.ceil(+ones[7] * packet * 8e9 / ones[4]))}`);
    else if (ones[0] === 'flow' && k === 5 && isNumber(4) && isNumber(5)) said.push(`${many(+ones[5], 'segment')} = ${bytesText(ones[4] * ones[5])}`);
    else if (units[k] && isNumber(k) && +ones[k] >= SMALLEST && units[k] !== SIZE) said.push(units[k][1](+ones[k]));
    else if (ones[0] === 'flow' && k === 7 && isNumber(7)) said.push(`window ${bytesText(+ones[7])}`);
  }
  return said.join(', ');
}
function bytesText(bytes) {
  const [scale, unit] = [[1e9, 'GB'], [1e6, 'MB'], [1e3, 'kB']].find(([least]) => bytes >= least) || [1, 'bytes'];
  return `${+(bytes / scale).toPrecision(4)} ${unit}`;
}
// The packets of a capacity that is typed as products, in a text (which a function gives) that is whole but for it; null where it is not,
// as then no round trip is known.
function productTyped(text, name, word) {
  const capacity = Products.of(word);
  if (!capacity) return null;
  try {
    const {links, flows, ways} = factsOf(text().replace(word, '1'), '');
    return String(Object.assign(new NetText({capacity: [1, Infinity]}), {links, flows}).product(links.findIndex(link => link.name === name), ways, {capacity}));
  } catch (wrong) {
    if (!(wrong instanceof TypeError || wrong instanceof RangeError)) throw wrong;
    return null;
  }
}
// The numbers that a line of a text has with units, where each is read: [begin, end, number].
function unitsTyped(line, text) {
  const found = [], statement = line.split('#', 1)[0];
  let k = -1, kind = '', name = '';
  for (const {0: word, index} of statement.matchAll(/[^ ]+/g)) {
    if (!++k) kind = word; else if (k === 1) name = word;
    const product = kind === 'link' && k === 7 && productTyped(text, name, word);
    if (product) found.push([index, index + word.length, product]);
    const reader = UNITS_OF[kind] && UNITS_OF[kind][k];
    if (!reader || WHOLE_NUMBER.test(word) || !/^\d/.test(word)) continue;
    try {
      found.push([index, index + word.length, String(reader[0](word))]);
    } catch (wrong) {
      if (!(wrong instanceof Wrong)) throw wrong;
    }
  }
  return found;
}

class Hints {
  // Of a box of CodeMirror.
  constructor(box) {
    Object.assign(this, {box, packet: 0, at: 0});
    box.on('renderLine', (_, line, element) => {
      const hint = hintOf(line.text, this.packet);
      if (hint) element.dataset.hint = hint;
    });
    box.on('changes', (_, changes) => {
      this.learn();
      for (const {from, text, origin} of changes) if (origin === 'paste') for (let k = 0; k < text.length; k++) this.settle(from.line + k, -1);
    });
    box.on('cursorActivity', () => {
      const {line, ch} = box.getCursor(), left = this.at;
      this.at = line;
      if (left !== line) this.settle(left, -1);
      this.settle(line, ch);
    });
    box.on('blur', () => this.settle(this.at, -1));
  }
  // A text's flows say how long its packets are.
  learn() {
    const packet = greatestPacketOf(this.box.getValue());
    if (packet === this.packet) return;
    this.packet = packet;
    this.box.refresh();
  }
  // Writes a line's numbers without their units, but for the word at the cursor.
  settle(line, ch) {
    const {box} = this, text = box.getLine(line);
    if (text === undefined || box.getOption('readOnly')) return;
    for (const [begin, end, plain] of unitsTyped(text, () => box.getValue()).reverse())
      if (ch < begin || ch > end) box.replaceRange(plain, {line, ch: begin}, {line, ch: end}, '+units');
  }
}
