'use strict';
// What is shared: a fragment behind the page's address, which has the scenario packed, the view and the position.

const MOST_SHARED = 16777216;           // bytes of a text, as the program takes at most
const MOST_IN_ADDRESS = 8192;           // letters of the page's own address
const ON_A_DISK = 'This page lies on a disk, so its address means nothing elsewhere. Send this fragment alone: who has the page opens it, puts the ' +
  'fragment behind the page\u2019s address, as tcpsim.html#.., and presses Enter.';
const ON_A_SERVER = 'Who opens this address sees the scenario, the view and the position.';

async function packedText(text) {
  const stream = new Blob([text]).stream().pipeThrough(new CompressionStream('deflate-raw'));
  const bytes = new Uint8Array(await new Response(stream).arrayBuffer());
  let letters = '';
  for (let k = 0; k < bytes.length; k += 8192) letters += String.fromCharCode(...bytes.subarray(k, k + 8192));
  return btoa(letters).replace(/\+/g, '-').replace(/\//g, '_').replace(/=+$/, '');
}
async function unpackedText(word) {
  const parts = [];
  let size = 0;
  try {
    const bytes = Uint8Array.from(atob(word.replace(/-/g, '+').replace(/_/g, '/')), letter => letter.charCodeAt(0));
    const reader = new Blob([bytes]).stream().pipeThrough(new DecompressionStream('deflate-raw')).getReader();
    for (let next = await reader.read(); !next.done; next = await reader.read()) {
      size += next.value.length;
      if (size > MOST_SHARED) throw new RangeError();
      parts.push(next.value);
    }
  } catch (wrong) {
    throw new Wrong(wrong instanceof RangeError && size > MOST_SHARED ? 'the fragment has a text of more than 16 MiB' :
      'the fragment behind the address is not whole: no scenario can be read from it');
  }
  return new Blob(parts).text();
}

const NO_SHELF = 'none';                // what is shared of a shelf from which a lesson's sliders were taken
// The fragment of {text, name, lesson, view, event, time, shelf, second}; and what a fragment has, null where it is none of these. Texts are
// those of `examples` by their names, or packed. A lesson alone, as #lesson=3, has no text. `second`, {name, text}, is the run beside.
async function fragmentOf({text, name, lesson, view, event, time, shelf, second}, examples = {}) {
  const given = {lesson, name, view, event, time, shelf}, plain = (one, title) => one === undefined || examples[title] === one;
  if (!plain(text, name)) given.scenario = await packedText(text);
  if (second) given.beside = second.name;
  if (second && !plain(second.text, second.name)) given.second = await packedText(second.text);
  return `#${new URLSearchParams(Object.entries(given).filter(([, value]) => value))}`;
}
// `kept` is the text where the fragment has none that is packed.
async function readFragment(fragment, examples = {}, kept = null) {
  const given = new URLSearchParams(fragment.slice(1)), named = name => (given.get(name) || 'scenario').slice(0, 80);
  const whole = name => /^\d{1,18}$/.test(given.get(name) || '') ? +given.get(name) : null;
  const textOf = async (packed, name) => given.has(packed) ? unpackedText(given.get(packed)) : Object.hasOwn(examples, named(name)) ? examples[named(name)] : null;
  const text = kept === null ? await textOf('scenario', 'name') : kept, lesson = whole('lesson');
  if (text === null && !lesson) return null;
  const beside = given.has('beside') ? await textOf('second', 'beside') : null;
  return {text, name: named('name'), lesson, view: TABS.some(([name]) => name === given.get('view')) ? given.get('view') : 'net', event: whole('event'), time: whole('time'), shelf: given.get('shelf'),
    second: beside === null ? null : {name: named('beside'), text: beside}, runs: given.has('view') || given.has('event')};
}

// The text that the session keeps of a fragment, for when the page is loaded anew.
const DRAFT = 'tcpsim';
function keepDraft(fragments, text) {
  try {
    sessionStorage.setItem(DRAFT, JSON.stringify({fragments, text}));
  } catch {         // no room, or no right to it
    try { sessionStorage.removeItem(DRAFT); } catch { /* the same */ }
  }
}
function draftOf(fragment) {
  try {
    const kept = JSON.parse(sessionStorage.getItem(DRAFT));
    return kept && kept.fragments && kept.fragments.includes(fragment) && typeof kept.text === 'string' ? kept.text : null;
  } catch { return null; }
}

class Share {
  // `state` answers what is shared.
  constructor(dialog, state) {
    Object.assign(this, {dialog, state});
    byId('share-copy').addEventListener('click', () => this.copy());
    byId('share-close').addEventListener('click', () => dialog.close());
  }
  async open() {
    const fragment = await fragmentOf(this.state()), served = /^https?:$/.test(location.protocol);
    byId('share-text').value = served ? location.href.split('#')[0] + fragment : fragment;
    byId('share-how').textContent = served ? ON_A_SERVER : ON_A_DISK;
    byId('share-said').textContent = `${number(byId('share-text').value.length)} letters`;
    this.dialog.showModal();
    byId('share-text').scrollTop = 0;
    byId('share-copy').focus();
  }
  async copy() {
    const box = byId('share-text');
    let done = false;
    try {
      await navigator.clipboard.writeText(box.value);
      done = true;
    } catch {       // no right to the clipboard: the older way
      box.select();
      done = document.execCommand('copy');
    }
    box.select();
    byId('share-said').textContent = done ? 'copied' : 'It is marked: copy it by Ctrl-C.';
  }
}
