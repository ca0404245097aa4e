'use strict';
// The dialog of templates: a shape, its fields, and the text that they make.

const SHAPES = {dumbbell: ['dumbbell: flows over one bottleneck', ['flows', 'rate', 'rtt']],
  chain: ['chain: flows over a row of routers', ['hops', 'flows', 'rate', 'delay']],
  'parking-lot': ['parking lot: a flow over every hop, and others over one', ['hops', 'cross', 'rate', 'delay']],
  asymmetric: ['access line: downloads, and uploads against them', ['down', 'up', 'flows', 'uploads', 'rtt', 'up_queue']]};
const OF_ALL = ['queue', 'segments', 'variant', 'iw', 'start', 'end'];
const LABELS = {rtt: 'round trips', cross: 'flows over each hop', down: 'rate down', up: 'rate up', flows: 'flows', delay: 'delays of the hops',
  up_queue: 'queue on the way up', segments: 'segments of each flow', variant: 'variants', iw: 'initial windows', start: 'starts', end: 'end of the run'};
const RATES = ['rate', 'down', 'up'], TIMES = ['rtt', 'delay', 'start', 'end'];

class TemplateForm {
  // `facts` has the package's ranges and what it says of its options; `made` is given a text and its name.
  constructor(dialog, facts, made) {
    Object.assign(this, {dialog, facts, made});
    this.shape = dialog.querySelector('select');
    this.fields = dialog.querySelector('.fields');
    this.wrong = dialog.querySelector('[role=alert]');
    for (const [name, [title]] of Object.entries(SHAPES)) this.shape.append(new Option(title, name));
    this.shape.addEventListener('change', () => this.draw());
    dialog.querySelector('form').addEventListener('submit', event => { event.preventDefault(); this.make(); });
    dialog.querySelector('.leave').addEventListener('click', () => dialog.close());
    this.draw();
  }
  names() { return [...SHAPES[this.shape.value][1], ...OF_ALL]; }
  // The words of a field that are meant where it is empty.
  usual(name) {
    const value = usualOf(this.shape.value)[name];
    const word = one => RATES.includes(name) ? spelledRate(one) : TIMES.includes(name) ? spelledTime(one) : String(one);
    return value === null ? 'as the other' : [value].flat().map(word).join(',');
  }
  draw() {
    const kept = this.given();
    this.fields.textContent = '';
    this.wrong.textContent = '';
    for (const name of this.names()) {
      const label = document.createElement('label'), input = document.createElement('input'), hint = document.createElement('small');
      input.name = name;
      input.value = kept[name] || '';
      input.placeholder = this.usual(name);
      input.autocomplete = 'off';
      input.spellcheck = false;
      hint.id = `hint-${name}`;
      hint.textContent = this.facts.help[name];
      input.setAttribute('aria-describedby', hint.id);
      input.title = hint.textContent;
      label.append(LABELS[name] || name, input);
      this.fields.append(label, hint);
    }
  }
  // The words of the fields that are not empty, in their order.
  given() {
    const inputs = [...this.fields.querySelectorAll('input')].filter(input => input.value.trim());
    return Object.fromEntries(inputs.map(input => [input.name, input.value.trim()]));
  }
  make() {
    for (const input of this.fields.querySelectorAll('input')) input.removeAttribute('aria-invalid');
    try {
      this.made(templateText(this.shape.value, this.given(), this.facts.ranges), this.shape.value === 'asymmetric' ? 'access_line' : this.shape.value);
    } catch (wrong) {
      if (!(wrong instanceof Wrong)) throw wrong;
      const field = wrong.field && this.fields.querySelector(`[name=${wrong.field}]`);
      this.wrong.textContent = `${wrong.field ? `${LABELS[wrong.field] || wrong.field}: ` : ''}${wrong.message}`;
      if (field) { field.setAttribute('aria-invalid', 'true'); field.focus(); }
      return;
    }
    this.dialog.close();
  }
}
