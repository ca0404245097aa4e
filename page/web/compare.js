'use strict';
// Two runs under one clock: their nets in a frame each, their curves in panels that both share, and the figures that differ.

const SOLID = '', DASHED = '7 4', MOST_WHOLE = 2;
const HEAD = 36, MOST_OF_FRAME = 320;       // pixels of a frame above its net, and of a frame outside of a lecture
const OTHER_QUEUE = 'queue';

// CoDel for a link, by docs/SCENARIOS.md: RFC 8289's target and interval, or more where a packet and a half take longer than that.
function codelFor(facts, l) {
  const greatest = HEADER_BYTES + Math.max(...facts.flows.map(({mss}) => mss)), target = Math.max(5, Math.ceil(1.5 * greatest * 8e3 / facts.links[l].rate));
  return `codel:${target}ms:${Math.max(100, 10 * target)}ms`;
}

// The other queue at a link, with as many places: CoDel for drop-tail, or the other way round.
function otherQueue(facts, l) {
  const {queue, limit} = facts.links[l];
  return queue === 'codel' ? `droptail:${limit}` : `${codelFor(facts, l)}:${limit}`;
}

// The text with another queue at a link; `word` is one of tcpsim-net's, as codel:5ms:100ms. Throws Wrong.
function withQueue(text, facts, link, word, ranges) {
  const net = Object.assign(new NetText(ranges), {links: facts.links, flows: facts.flows}), queue = queueOf(ranges, word);
  const product = queue.isProduct ? net.product(link, facts.ways, queue) : 1;
  return text.split('\n').map(line => {
    const [, statement, comment] = /^([^#]*)(.*)$/.exec(line), [kind, name, ...rest] = words(statement);
    if (kind !== 'link' || name !== facts.links[link].name) return line;
    return ['link', name, ...rest.slice(0, 4), queue.words(net.greatestPacket(), product)].join(' ') + (comment && `  ${comment}`);
  }).join('\n');
}

// The rows of two tables of figures that differ: {of, figure, unit, values}, the greatest relative difference first. A part that one run
// alone has differs too.
function differing(tables, facts) {
  const rows = new Map();
  tables.forEach((csv, k) => readFigures(csv).forEach(({what, number, figure, unit, value}) => {
    const names = what === 'run' ? [] : facts[k][`${what}s`], name = what === 'run' ? 'the run' : `${what} ${names[number].name}`;
    const key = `${name} ${figure} ${unit}`;
    if (!rows.has(key)) rows.set(key, {of: name, figure, unit, values: ['', '']});
    rows.get(key).values[k] = value;
  }));
  return {all: rows.size, ones: [...rows.values()].filter(({values: [one, two]}) => one !== two).sort((a, b) => relativeOf(b.values) - relativeOf(a.values))};
}
// The difference of two values as a part of the greater, 1 where a number lacks.
function relativeOf([one, two]) { return /^-?\d+$/.test(one) && /^-?\d+$/.test(two) ? Math.abs(two - one) / Math.max(Math.abs(one), Math.abs(two)) : 1; }
// What the second is beside the first, where both are numbers.
function changeOf([one, two], unit) {
  if (!/^-?\d+$/.test(one) || !/^-?\d+$/.test(two)) return '';
  const by = two - one;
  return `${by > 0 ? '+' : '\u2212'}${inUnits(String(Math.abs(by)), unit)}${+one ? ` (${by > 0 ? '+' : '\u2212'}${+(100 * Math.abs(by) / one).toPrecision(3)} %)` : ''}`;
}

class Compare {
  // `texts` answers what can be compared, [value, name, text] each; `ranges` are the package's; `lecture` hears keys in the frames too.
  constructor(place, engine, texts, ranges, most, lecture) {
    Object.assign(this, {place, engine, texts, ranges, most, lecture, at: name => byId(`both-${name}`)});
    this.form = byId('compare-form');
    this.form.addEventListener('submit', event => { event.preventDefault(); this.start(); });
    for (const id of ['first', 'second', 'link']) byId(`compare-${id}`).addEventListener('change', () => this.offer());
  }
  say(text, isBad = true) { Object.assign(byId('compare-said'), {textContent: text, className: isBad ? 'bad' : ''}); }
  // The texts that there are, for the second first what belongs beside the scenario, and the links of the first.
  offer() {
    const texts = this.texts(), {partner} = this.lecture.simulator, beside = partner ? `example ${partner}` : OTHER_QUEUE;
    if (this.isAnother) for (const id of ['first', 'second', 'word']) byId(`compare-${id}`).value = '';
    this.isAnother = false;
    const others = [...texts, [OTHER_QUEUE, 'the first, with another queue']].sort(([one], [two]) => (two === beside) - (one === beside) || (two === OTHER_QUEUE) - (one === OTHER_QUEUE));
    for (const id of ['first', 'second']) {
      const select = byId(`compare-${id}`), kept = select.value || (id === 'first' ? 'editor' : beside);
      select.replaceChildren(...(id === 'first' ? texts : others).map(([value, name]) => new Option(name, value)));
      if ([...select.options].some(option => option.value === kept)) select.value = kept;
      select.title = `the scenario that runs in the ${{first: 'upper net, with solid curves', second: 'lower net, with dashed curves'}[id]}: ${select.selectedOptions[0].textContent}`;
    }
    byId('compare-queue').hidden = byId('compare-second').value !== OTHER_QUEUE;
    const link = byId('compare-link'), kept = link.value;
    link.textContent = '';
    let facts;
    try {
      facts = factsOf(this.textOf('first'), '');
    } catch { return; }         // a text that the program refuses
    facts.links.forEach(({name}, l) => link.append(new Option(name, l)));
    if (kept && link.options[kept]) link.value = kept;
    if (facts.links.length && facts.flows.length) byId('compare-word').placeholder = otherQueue(facts, +link.value);
  }
  // Chooses the scenario as it is and what belongs beside it, else the same with another queue at the link that is given.
  suggest(l) {
    const {partner} = this.lecture.simulator, link = byId('compare-link');
    this.choose(partner ? `example ${partner}` : OTHER_QUEUE);
    if (partner || !link.options[l]) return;
    link.value = l;
    byId('compare-word').value = '';
    this.offer();
  }
  // The scenario as it is, and another.
  choose(second) {
    this.offer();
    byId('compare-first').value = 'editor';
    byId('compare-second').value = second;
    this.offer();
  }
  // What is shared of two runs that are shown, where one is of this text: the other, and the moment.
  beside(text) {
    if (!this.shows(text)) return null;
    const {text: other, title} = this.runs.find(run => run.text !== text) || this.runs[1];
    return {second: {name: title, text: other}, time: Math.round(this.clock.time)};
  }
  // Whether one of the two that are shown is of this text.
  shows(text) { return !!this.clock && this.runs.some(run => run.text === text); }
  textOf(id) { return this.texts().find(([value]) => value === byId(`compare-${id}`).value)[2]; }
  nameOf(id) {
    const {value, textContent} = byId(`compare-${id}`).selectedOptions[0];
    return value.startsWith('example ') ? value.slice(8) : textContent;
  }

  // ---- running both

  async start() {
    this.end();
    const token = this.token = {};
    this.say('running both', false);
    this.lecture.simulator.say('');
    try {
      const first = await this.runOf(this.textOf('first'), this.nameOf('first')), runs = [first];
      if (this.token !== token) return;
      runs.push(await this.second(first));
      if (this.token !== token) return;
      await this.show(runs);
      if (this.token === token) this.say('');
    } catch (wrong) {
      if (!(wrong instanceof Wrong)) throw wrong;
      if (this.token === token) this.say(wrong.message);
    }
    document.documentElement.dataset.compared = +(document.documentElement.dataset.compared || 0) + 1;
  }
  second(first) {
    if (byId('compare-second').value !== OTHER_QUEUE) return this.runOf(this.textOf('second'), this.nameOf('second'));
    const word = byId('compare-word').value.trim() || byId('compare-word').placeholder, link = +byId('compare-link').value;
    return this.runOf(withQueue(first.text, first.record.facts, link, word, this.ranges), `${first.record.facts.links[link].name} with ${word}`);
  }
  // A run of a text: {text, record, csv}.
  async runOf(text, title) {
    const refuse = ({why, note, status}) => {
      throw new Wrong(`${title}: ${{long: `more than ${number(this.most)} events, which are too many to compare`}[why] || why ||
        (note || '').trim().split('\n')[0] || `it ended with status ${status}`}`);
    };
    const figures = await this.engine.run(['figures'], toBytes(text));
    if (figures.why || figures.status) refuse(figures);
    const record = new Record(factsOf(text, title.replace(/_/g, ' '))), run = this.engine.start(['run'], toBytes(text), {most: this.most, read: true});
    await fill(record, run.pieces);
    const ended = await run.ended;
    if (ended.why || ended.status) refuse(ended);
    return {text, title, record, csv: new TextDecoder().decode(figures.bytes)};
  }

  // ---- showing both

  // Part by part, and not seen before all is there; a newer run ends it.
  async show(runs) {
    const {token, place} = this, wanted = () => this.token === token;
    place.classList.add('building');
    place.append(byId('both-view').content.cloneNode(true));
    const frames = this.frames = [...place.querySelectorAll('iframe')];
    const pages = await Promise.all(frames.map((frame, k) => this.pageIn(frame, runs[k].record, wanted)));
    if (wanted() && await inParts(this.parts(runs, pages), wanted)) place.classList.remove('building');
  }
  *parts(runs, pages) {
    const {frames} = this;
    this.runs = runs;
    this.records = runs.map(({record}) => record);
    for (const frame of frames) frame.contentWindow.addEventListener('keydown', event => this.lecture.key(event), true);
    this.lecture.addKeys(this.at('keys'));
    const windows = [window, ...frames.map(frame => frame.contentWindow)];
    const within = event => event.view !== window || this.place.contains(event.target) || event.target === document.body && !this.place.closest('[hidden]');
    yield this.drawFigures(runs);
    this.charts = [];
    this.clock = new Clock(pages, {at: this.at, windows, told: time => { this.charts.forEach(chart => chart.mark(time)); this.lecture.simulator.note(); },
      listens: event => within(event) && !['SELECT', 'TEXTAREA'].includes(event.target.tagName)});
    this.sayParting(this.records, this.token);
    yield* this.laying();
    this.sized = new ResizeObserver(() => this.lay());
    this.sized.observe(this.at('charts'));
    // A frame's net has its new size later than the page around it.
    frames.forEach((frame, k) => new frame.contentWindow.ResizeObserver(() => this.lay()).observe(pages[k].net.svg.node()));
  }
  lay() {
    clearTimeout(this.timer);
    this.timer = setTimeout(() => this.layNow(), LAY_AFTER);
  }
  // Lays all out in the room that there is now; what was begun before ends.
  layNow() {
    const mine = this.laid = {}, {clock} = this;
    return inParts(this.laying(), () => this.laid === mine && this.clock === clock);
  }
  *laying() {
    const nets = this.place.querySelector('.nets');
    if (!this.clock || !nets.clientWidth) return;
    const {pages} = this.clock;
    for (const [k, page] of pages.entries()) {
      const {classList} = this.frames[k].contentDocument.documentElement;
      if (classList.contains('slide') === isSlide()) continue;
      classList.toggle('slide', isSlide());
      yield page.makeNet(this.folds(page.record));
    }
    // A lecture's nets lie below each other, or beside, as their letters are larger.
    const {width, height} = nets.getBoundingClientRect();
    const pixels = (wide, tall) => Math.min(...pages.map(({net}) => net.pixelsIn(wide, tall - HEAD)));
    // Each has the height that it needs for letters that can be read, as far as both are seen then.
    nets.style.minHeight = isSlide() ? '' : `${2 * Math.min(MOST_OF_FRAME, HEAD + d3.max(pages, ({net}) => net.needs[1]))}px`;
    nets.classList.toggle('beside', isSlide() && pixels(width / 2, height) > pixels(width, height / 2));
    for (const page of pages) yield page.lay();
    this.at('head').textContent = this.lecture.heading;
    for (const _ of this.drawingCharts()) yield;
    this.clock.go(this.clock.time);
  }
  // In half of the room the ends of a net of several flows are stubs.
  folds({facts: {flows, nodes}}) { return flows.length > MOST_WHOLE || (isNarrow() || isSlide()) && nodes.some(({kind}) => kind === 'router'); }
  // A page of the replay in a frame, which has style and scripts of this one.
  pageIn(frame, record, wanted) {
    const script = id => `<script>${byId(id).textContent}</` + 'script>';
    return new Promise(done => {
      frame.title = record.facts.title;
      frame.addEventListener('load', async () => {
        const {contentDocument: inside, contentWindow: own} = frame;
        inside.querySelector('h1').textContent = record.facts.title;
        const page = new own.Page(record);
        page.panels.name([]);
        await inParts(page.parts(this.folds(record) || undefined), wanted);
        done(page);
      }, {once: true});
      frame.srcdoc = `<!DOCTYPE html><html lang="en" class="within overlaid${isSlide() ? ' slide' : ''}"><meta charset="utf-8"><title>a run</title><style>${byId('replay-style').textContent}` +
        `</style><body>${byId('view').innerHTML}${script('d3-script')}${script('replay-script')}`;
    });
  }
  // The names of both runs' flows or links, and which have a box ticked.
  ticked(id, names, count, line) {
    const place = this.at(id), kept = [...place.querySelectorAll('input')].map(box => [box.value, box.checked]), was = new Map(kept);
    place.textContent = '';
    return names.filter((name, k) => {
      const label = document.createElement('label'), box = document.createElement('input'), text = document.createElement('span');
      Object.assign(box, {type: 'checkbox', value: name, checked: was.has(name) ? was.get(name) : k < count});
      box.addEventListener('change', () => this.drawCharts());
      text.textContent = name;
      label.title = `shows or hides ${id === 'flows' ? 'flow' : 'link'} ${name} in the panel`;
      text.style.borderBottom = `3px ${line(name)}`;
      label.append(box, text);
      place.append(label);
      return box.checked;
    });
  }
  drawCharts() { for (const _ of this.drawingCharts()); }
  *drawingCharts() {
    const {records} = this, time = this.clock ? this.clock.time : 0, begin = Math.min(...records.map(it => it.times[0]));
    const span = {times: [begin, Math.max(...records.map(it => it.times[it.count]))], count: 1, facts: {whole: true, end: Math.max(...records.map(({facts}) => facts.end))}};
    const names = (what, order = record => d3.range(record.facts[what].length)) => [...new Set(records.flatMap(record => order(record).map(k => record.facts[what][k].name)))];
    const flows = names('flows'), every = names('links'), ofFlow = name => colourOf(flows.indexOf(name)), ofLink = name => linkColourOf(every.indexOf(name));
    const links = names('links', record => d3.range(record.facts.links.length).sort((a, b) => record.longest[b] - record.longest[a] || a - b));
    const draw = (svg, title, what, chosen, colour, curve) => {
      const node = this.at(svg), before = node.parentNode.querySelector('.present');
      d3.select(node).selectAll('*').remove();
      if (before) before.remove();
      const chart = new Chart(d3.select(node), span, [title, title.split(':')[0]], at => this.clock.jump(at));
      chart.show([{series: chosen.flatMap(name => records.flatMap((record, k) => {
        const i = record.facts[what].findIndex(one => one.name === name);
        return i < 0 ? [] : [{curve: curve(record, i), colour: colour(name), dash: [SOLID, DASHED][k], name: `${name}, ${record.facts.title}`}];
      }))}]);
      chart.mark(time);
      return chart;
    };
    const said = 'solid the first run, dashed the second';
    this.charts[0] = draw('windows', `cwnd in bytes: ${said}`, 'flows', this.ticked('flows', flows, 2, name => `solid ${ofFlow(name)}`), ofFlow, (record, f) => record.curve(record.ofFlow(f, CWND)));
    yield;
    this.charts[1] = draw('lengths', `packets that wait: ${said}`, 'links', this.ticked('links', links, 1, name => linkLineOf(every.indexOf(name))), ofLink, (record, l) => record.queueCurve(l));
  }
  // Where the runs part, and a button that goes there in both nets.
  async sayParting([one, two], token) {
    const found = await partingOf(one, two), event = found.ours || found.theirs;
    if (this.token !== token) return;
    this.at('parting').textContent = partingText(one, two, found);
    this.at('there').hidden = !event;
    this.at('there').addEventListener('click', () => this.clock.jump(event.time));
  }
  drawFigures(runs) {
    const {ones, all} = differing(runs.map(run => run.csv), runs.map(run => run.record.facts)), table = document.createElement('table');
    table.createCaption().textContent = ones.length ? `${number(ones.length)} of ${number(all)} figures differ` : `all ${number(all)} figures are the same`;
    const head = table.createTHead().insertRow();
    for (const word of ['of', 'figure', ...runs.map(run => run.record.facts.title), 'difference']) addCell(head, 'th', word).scope = 'col';
    const body = table.createTBody();
    for (const {of, figure, unit, values} of ones) {
      const row = body.insertRow();
      addCell(row, 'th', of).scope = 'row';
      Object.assign(addCell(row, 'td', UNITS_IN_CELLS.includes(unit) || unit === figure ? inWords(figure) : `${inWords(figure)} (${unit})`), {className: 'word', title: [figure, titleOf(figure)].filter(Boolean).join('; ')});
      for (const value of values) addCell(row, 'td', value ? inUnits(value, unit) : 'has none').title = value && value !== '-' ? `${number(value)} ${unit}` : 'there is none';
      addCell(row, 'td', changeOf(values, unit));
    }
    this.at('figures').append(table);
  }
  // Leaves both runs.
  end() {
    this.token = null;
    if (this.clock) this.clock.leave();
    if (this.sized) this.sized.disconnect();
    for (const page of this.clock ? this.clock.pages : []) page.end();
    this.clock = this.sized = null;
    this.place.textContent = '';
    this.place.classList.remove('building');
  }
}
