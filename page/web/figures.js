'use strict';
// A run's figures: first what people ask, goodput, share, utilization and waits; below them the program's own table, with names and units.

// The rows of the program's table: {what, number, figure, unit, value}.
function readFigures(csv) {
  return csv.trim().split('\n').slice(1).map(line => {
    const [what, number, figure, unit, value] = line.split(',');
    return {what, number, figure, unit, value};
  });
}
const LITTLE = 0.1, FEW = 4;            // of what the busiest link is used; so many links that carried little are shown
const UNITS_IN_CELLS = ['ns', 'packet-ns'];
// A value, of times in the unit that suits it.
function inUnits(value, unit) {
  if (value === '-') return '-';
  if (unit === 'ns') return +value >= 1e9 ? `${+(value / 1e9).toPrecision(7)} s` : +value ? `${+(value / 1e6).toPrecision(6)} ms` : '0 s';
  if (unit === 'packet-ns') return `${+(value / 1e9).toPrecision(6)} packet-s`;
  return number(value);
}
function addCell(row, tag, text) {
  const cell = document.createElement(tag);
  cell.textContent = text;
  row.append(cell);
  return cell;
}
// A bar that is filled to a part of it, from 0 to 1.
function barOf(part) {
  const bar = document.createElement('span');
  bar.className = 'bar';
  bar.style.setProperty('--part', `${100 * Math.min(1, part || 0)}%`);
  return bar;
}
const OF_BARS = 'bars: parts of the greatest in the column', OF_ALL_BARS = 'bars: parts of 100 %';
// A table with these heads, [text, tooltip] or a text each; each row has [text, tooltip, size] or a text for each cell. A size is a bar too:
// a part of 100 % where it is one, else beside the greatest of its column, where there is another to be compared.
function tableOf(heads, rows) {
  const around = document.createElement('div'), table = document.createElement('table'), head = table.createTHead().insertRow(), body = table.createTBody();
  around.className = 'table';
  around.append(table);
  const columns = heads.map((_, k) => rows.map(cells => [cells[k]].flat()).filter(([, , size]) => size !== undefined)), isPart = columns.map(ones => ones.some(([text]) => / %( of|$)/.test(text)));
  const most = columns.map((ones, k) => (isPart[k] ? 1 : ones.length > 1 && Math.max(...ones.map(([, , size]) => size))));
  heads.map(one => [one].flat()).forEach(([text, title], k) => Object.assign(addCell(head, 'th', text), {scope: 'col', title: [title, isPart[k] ? OF_ALL_BARS : most[k] ? OF_BARS : ''].filter(Boolean).join('; ')}));
  for (const cells of rows) {
    const row = body.insertRow();
    cells.map(cell => [cell].flat()).forEach(([text, title, size], k) => {
      const cell = addCell(row, k ? 'td' : 'th', text);
      if (!k) cell.scope = 'row';
      if (title) cell.title = title;
      if (size !== undefined && most[k]) cell.append(barOf(size / most[k]));
    });
  }
  return around;
}

// The least of these numbers that so many in a hundred do not exceed, as in samples.py; null of none. They are in order.
const percentile = (ranked, percent) => ranked.length ? ranked[Math.max(0, Math.ceil(percent * ranked.length / 100) - 1)] : null;

// What people ask of a run, of the program's table and of the trace, where that was kept: `record` or null.
class Overview {
  constructor(csv, facts, record) {
    const values = new Map(readFigures(csv).map(({what, number, figure, value}) => [`${what} ${number} ${figure}`, value === '-' ? null : +value]));
    Object.assign(this, {facts, record: record && record.facts.whole ? record : null, of: (what, number, figure) => values.get(`${what} ${number} ${figure}`), sums: []});
    const flows = d3.range(facts.flows.length);
    this.completed = flows.map(f => this.of('flow', f, 'completed'));
    this.begin = d3.min(facts.flows, ({start}) => start);
    this.end = Math.max(this.completed.includes(null) ? facts.end : this.of('run', '', 'end'), this.begin + 1);
    this.goodputs = flows.map(f => {
      const {start} = facts.flows[f], until = this.completed[f] === null ? this.end : this.completed[f];
      return start < until ? this.of('flow', f, 'delivered') * 8e9 / (until - start) : null;
    });
    this.used = facts.links.map((_, l) => this.of('link', l, 'busy') / (this.end - this.begin));
    this.compared = comparedFlows(facts, this.goodputs, this.completed);
  }
  dropped(l) { return d3.sum(['lost', 'full'], reason => this.of('link', l, `dropped as ${reason}`)) + this.of('link', l, 'dropped by CoDel'); }
  // The links that carried little beside the busiest and dropped nothing, and that are no bottleneck; none where these are few.
  carriedLittle() {
    const most = Math.max(...this.used), bottlenecks = this.facts.flows.map((_, f) => this.bottleneck(f));
    const found = d3.range(this.used.length).filter(l => this.used[l] < LITTLE * most && !this.dropped(l) && !bottlenecks.includes(l));
    return found.length > FEW ? found : [];
  }
  // The link of a flow's way that was busiest, the first where equal.
  bottleneck(f) { return this.facts.ways[f][0].reduce((best, l) => this.used[l] > this.used[best] ? l : best); }
  // The part that a flow has of the bytes that its bottleneck sent; null where no trace was kept.
  share(f) {
    const {record} = this;
    if (!record) return null;
    const l = this.bottleneck(f), track = record.tracks[l];
    if (!this.sums[l]) {
      this.sums[l] = this.facts.flows.map(() => 0);
      for (let k = 0, entry; k < track.gone; k++) this.sums[l][track.flow[entry = track.entryOf(k)]] += track.size(entry);
    }
    return this.sums[l][f] / (d3.sum(this.sums[l]) || 1);
  }
  // The segments of a flow that were dropped; null where no trace was kept.
  lost(f) { return this.record && this.record.drops.filter(({flow, sort}) => flow === f && sort === DATA).length; }
  // How many round trips a flow had, the least and the median: of the trace, else of those that its sender timed.
  trips(f) {
    if (!this.record) return ['round trips', 'least round trip', 'median round trip'].map(figure => this.of('flow', f, figure));
    const ranked = this.record.timers[f].trips.all.slice().sort();
    return [ranked.length, ...[0, 50].map(percent => percentile(ranked, percent))];
  }
  // The median and the 99th percentile of the waits in a link's queue: of the trace, else of the table.
  waits(l) {
    if (!this.record) return ['median', '99th percentile of'].map(which => this.of('link', l, `${which} delay in the queue`));
    const track = this.record.tracks[l], ranked = Float64Array.from({length: track.gone}, (_, k) => track.begun(k) - track.entered(track.entryOf(k))).sort();
    return [50, 99].map(percent => percentile(ranked, percent));
  }
  words() {
    const {facts, used, begin, end} = this, index = jain(this.compared[0].map(f => this.goodputs[f])), most = used.indexOf(Math.max(...used));
    return [`Bottleneck: ${facts.links[most].name}, ${percent(used[most])} utilized in ${seconds(end - begin, 3)}.`,
      `Jain's index of goodput: ${index === null ? '-' : index.toFixed(4)}, ${ofFlows(this.compared)}.`,
      ...tooShort(facts, begin, end, this.compared[0], portionsOf(this.record, begin, end))];
  }
  // Shares have bars where all are of one link; of round trips that were timed each says of how many.
  flowRows() {
    const isOne = new Set(this.facts.flows.map((_, f) => this.bottleneck(f))).size < 2;
    return this.facts.flows.map(({name}, f) => {
      const goodput = this.goodputs[f], share = this.share(f), lost = this.lost(f), sent = this.of('flow', f, 'sent'), done = this.completed[f];
      const [timed, ...trips] = this.trips(f);
      return [name, goodput === null ? '-' : [rateText(+goodput.toPrecision(4)), `${number(Math.round(goodput))} bit/s`, goodput],
        [`${share === null ? '-' : percent(share)} of ${this.facts.links[this.bottleneck(f)].name}`, 'of the bytes that this link sent, the busiest on its way', share === null || !isOne ? undefined : share],
        lost === null ? '-' : [percent(lost / (sent || 1)), `${number(lost)} of ${number(sent)} segments`, lost / (sent || 1)], [number(this.of('flow', f, 'timeouts')), '', this.of('flow', f, 'timeouts')],
        `${number(timed)}${this.record ? '' : ` of ${many(sent, 'segment')}`}`, ...trips.map(trip => trip === null ? '-' : [`${waitText(trip)}${this.record ? '' : ` of ${number(timed)}`}`, `${number(trip)} ns, of ${number(timed)}${this.record ? '' : ' that were timed'}`, trip]), done === null ? '-' : [seconds(done, 3), `${number(done)} ns`, done]];
    });
  }
  linkRows(links) {
    return links.map(l => {
      const waits = this.waits(l).map(value => value === null ? '-' : [value ? waitText(value) : '0', `${number(value)} ns`, value]);
      const dropped = this.dropped(l), gone = dropped + this.of('link', l, 'sent packets');
      return [this.facts.links[l].name, [percent(this.used[l]), `${number(this.of('link', l, 'busy'))} ns busy`, Math.min(1, this.used[l])], ...waits,
        ...[this.of('link', l, 'greatest queue'), dropped].map(packets => [number(packets), '', packets]),
        [percent(dropped / (gone || 1)), `of ${number(gone)} packets that it sent or dropped`, dropped / (gone || 1)]];
    });
  }
}
const percent = part => `${(100 * part).toFixed(1)} %`;
const IN_CLASSES = 'the program counts in classes, and this is the bound of one: at most 1/32 above';
// A figure of the program's table in a reader's words.
const inWords = figure => figure.replace(/^(?:(least|median|greatest)|(\d+)th percentile of) (round trip|delay in the queue)s?$/, (_, which, part, what) => `${what === 'round trip' ? what : 'wait'}, ${which || `${part} %`}`)
  .replace(/^greatest queue$/, 'most waiting').replace(/^dropped as (lost|full)$/, (_, reason) => LOOKS.drops[reason]).replace(/^completed$/, 'complete at').replace(/^waited$/, 'packets waiting, times how long');
// What a figure of the program's table is, where a trace has it otherwise.
const titleOf = figure => [/round trip/.test(figure) && 'of those that the sender timed, one segment at a time', /^median|percentile/.test(figure) && IN_CLASSES].filter(Boolean).join('; ');
// What heads a column of such bounds.
const atMost = text => `${text}, at most`;
const flowHeads = kept => ['flow', ['goodput from its start', 'bytes in order at the receiver, a second, from the flow\u2019s own start to its completion or the end'],
  ['share of the whole run', 'of the bytes that its bottleneck, the busiest link on its way, sent from the run\u2019s begin to its end, with headers and what was sent again'], ['loss', 'the part of its segments that was dropped'], ['time\u00adouts', 'how often its retransmission timer ended'],
  ...(kept ? [['RTTs', 'how many round trips: of each segment that was sent once and is acknowledged by its own number'], ['least RTT', 'the least of these'], ['median RTT', 'of these']] :
    [['RTTs timed', 'how many round trips its sender timed, of how many segments that it sent: one segment at a time, and none that was sent again (RFC 6298 section 3). So the longer they are, the fewer are timed'],
      ['least timed RTT', 'the least of these'], [atMost('median of timed RTTs'), `of these, not of all segments; ${IN_CLASSES}`]]), ['complete at', 'when all its bytes were acknowledged']];
const linkHeads = kept => ['link', ['utilization', 'the part of the time in which it sends'], ...[['median wait', 'in its queue'], ['99 % wait', 'the 99th percentile of the wait in its queue']]
  .map(([text, title]) => kept ? [text, title] : [atMost(text), `${title}; ${IN_CLASSES}`]), ['most waiting', 'packets in its queue at most'], ['dropped', 'packets'],
  ['loss', 'the part of the packets that it sent or dropped; those that still wait at the end are not among them']];

function headOf(text) {
  const head = document.createElement('h2');
  head.textContent = text;
  return head;
}
function folded(words, ...parts) {
  const made = document.createElement('details'), summary = document.createElement('summary');
  Object.assign(summary, {textContent: words, title: 'shows or folds these tables'});
  made.append(summary, ...parts);
  return made;
}
function drawFigures(place, csv, facts, record) {
  const seen = new Overview(csv, facts, record), heads = linkHeads(seen.record), idle = seen.carriedLittle(), busy = d3.range(facts.links.length).filter(l => !idle.includes(l));
  const said = document.createElement('ul');
  said.className = 'says';
  said.append(...seen.words().map(words => Object.assign(document.createElement('li'), {textContent: words})));
  place.replaceChildren(said, headOf('Flows'), tableOf(flowHeads(seen.record), seen.flowRows()), headOf('Links'), tableOf(heads, seen.linkRows(busy)),
    ...(idle.length ? [folded(`${many(idle.length, 'link')} carried less than a tenth of the busiest, and dropped nothing`, tableOf(heads, seen.linkRows(idle)))] : []),
    folded('all figures, as the program counts them', ...wholeTables(csv, facts)));
}
// The program's table, whole: of flows, of links and of the run.
function wholeTables(csv, facts) {
  const rows = readFigures(csv);
  return [['flow', 'Flows', facts.flows.map(flow => flow.name)], ['link', 'Links', facts.links.map(link => link.name)], ['run', 'The run', ['the run']]].flatMap(([what, title, names]) => {
    const values = new Map();
    for (const {what: of, number: n, figure, unit, value} of rows) {
      if (of !== what) continue;
      const kind = `${figure}|${unit}`;
      if (!values.has(kind)) values.set(kind, []);
      values.get(kind)[+n] = [inUnits(value, unit), value === '-' ? 'there is none' : `${number(value)} ${unit}`];
    }
    return [headOf(title), tableOf(['figure', ...names], [...values].map(([kind, cells]) => {
      const [figure, unit] = kind.split('|');
      return [[UNITS_IN_CELLS.includes(unit) || unit === figure ? figure : `${figure} (${unit})`, titleOf(figure)], ...cells];
    }))];
  });
}
