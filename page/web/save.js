'use strict';
// The dialog of what can be saved: text, image, trace, figures, and a picture of each panel that is shown.

const PICTURES = [['net', 'the net'], ...Object.entries(PANELS).map(([name, {says}]) => [name, says]), ['both-windows', 'windows of both runs'], ['both-lengths', 'queues of both runs']];

class Save {
  constructor(dialog, simulator) {
    Object.assign(this, {dialog, simulator});
    const on = (id, does) => byId(id).addEventListener('click', does), name = ending => `${nameOfFile(simulator.title)}${ending}`;
    on('save', () => {
      this.give(name('.txt'), [simulator.editor.text], 'text/plain');
      simulator.editor.edited = false;
    });
    on('save-image', async () => {
      const {status, note, bytes} = await simulator.engine.run(['asm'], toBytes(simulator.editor.text));
      if (status) this.say(note.trim()); else this.give(name('.tcb'), [bytes], 'application/octet-stream');
    });
    on('save-trace', () => {
      const {record} = simulator.page, whole = record.facts.whole;
      this.give(name(whole ? '.trace' : '.part.trace'), record.lines.pieces, 'text/plain');
      if (!whole) this.say(`${byId('save-said').textContent}; it ends after event ${number(record.last)}, as the run was not read to its end`);
    });
    on('save-figures', () => this.give(name('.csv'), [simulator.run.csv], 'text/csv'));
    on('save-svg', () => this.picture('svg'));
    on('save-png', () => this.picture('png'));
    on('save-close', () => dialog.close());
  }
  say(text) { byId('save-said').textContent = text; }
  open() {
    this.say('');
    const select = byId('save-panel'), kept = select.value;
    select.textContent = '';
    for (const [id, title] of PICTURES) if (byId(id) && byId(id).getBoundingClientRect().width) select.append(new Option(title, id));
    if (byId(kept)) select.value = kept;
    byId('save-svg').disabled = byId('save-png').disabled = !select.options.length;
    byId('save-pictures').hidden = !select.options.length;
    this.dialog.showModal();
  }
  async picture(kind) {
    const id = byId('save-panel').value, [, title] = PICTURES.find(([one]) => one === id), name = `${nameOfFile(this.simulator.title)}_${title.replace(/\W+/g, '_')}`;
    const text = pictureOf(byId(id), `${this.simulator.title}: ${title}`);
    if (kind === 'svg') this.give(`${name}.svg`, [text], 'image/svg+xml'); else this.give(`${name}.png`, [await pngOf(text)], 'image/png');
  }
  give(name, parts, type) {
    const link = document.createElement('a');
    link.href = URL.createObjectURL(new Blob(parts, {type}));
    link.download = name;
    link.click();
    setTimeout(() => URL.revokeObjectURL(link.href), 1000);
    this.say(`${name} is saved where the browser keeps downloads`);
  }
}
