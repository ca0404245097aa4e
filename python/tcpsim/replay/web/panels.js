'use strict';
// What the panels below the net show of a run: each is a row of PANELS, which makes the lanes of a chart of the flows or links that
// are ticked. Titles and words of keys are those of tcpsim-plot, by looks.py.

const BEFORE = '5 4';                    // the dash of curves that were before
const LITTLE_OF_LONGEST = 0.1;          // a queue that is shorter than this part of the longest is not ticked at first
const LEAST_WIDE = 226, LEAST_TALL = 140;     // pixels of a panel, with the space beside it
const MOST_TICKED = {flows: 4, links: 2}, MOST_NAMES = 5;
const lineStyle = k => ['solid', 'dashed', 'dotted', 'double'][k % 4];
const dashOf = k => DASHES[k % 4];
// What is below a name: of links with one colour each has another.
const lineOf = f => `${lineStyle(f)} ${colourOf(f)}`, linkLineOf = l => `${lineStyle(Math.floor(l / LOOKS.links))} ${linkColourOf(l)}`;

// ---- what a run has of its flows

const flowName = (record, f) => record.facts.flows[f].name;
// The packets of a flow that left a link's end up to the run's last event, in order, by what each is given.
function arrivals(record, link, flow, sort) {
  const track = record.tracks[link], end = record.times[record.count], found = {times: [], values: []};
  for (let k = 0, entry; k < track.gone; k++) {
    if (track.flow[entry = track.entryOf(k)] !== flow || track.sort[entry] !== sort || track.arrives(k) > end) continue;
    found.times.push(track.arrives(k)); found.values.push(track.number(entry));
  }
  return found;
}
// What is acknowledged of a flow, by the acknowledgements that its sender has.
function acknowledged(record, f) {
  const {times, values} = arrivals(record, record.facts.ways[f][1].slice(-1)[0], f, ACK), found = {times: [record.times[0]], values: [0]};
  values.forEach((value, k) => {
    if (value <= found.values[found.values.length - 1]) return;
    found.times.push(times[k]); found.values.push(value);
  });
  return found;
}
// The segments that a flow's sender gave to its link, and those of them that it sent again.
function sent(record, f) {
  const link = record.facts.ways[f][0][0], track = record.tracks[link], all = {times: [], values: []}, again = [];
  track.flow.forEach((flow, entry) => {
    if (flow !== f || track.sort[entry] !== DATA) return;
    all.times.push(track.entered(entry)); all.values.push(track.number(entry));
    if (track.again[entry]) again.push({kind: 'again', time: track.entered(entry), value: track.number(entry), name: `segment ${number(track.number(entry))} is sent again`});
  });
  return {all, again};
}
const whoseOf = (record, f) => ({name: flowName(record, f), mark: markOf(record.facts, f), colour: colourOf(f)});
function dropMarks(record, of, at = () => undefined) {
  return record.drops.filter(of).map(drop => ({kind: SIGNS[drop.reason] ? drop.reason : 'full', time: drop.time, value: at(drop), flow: drop.flow, colour: colourOf(drop.flow), link: record.facts.links[drop.link].name,
    name: `${sortName(drop.sort)} ${number(drop.number)} of ${flowName(record, drop.flow)}, at link ${record.facts.links[drop.link].name}: ${LOOKS.drops[drop.reason] || drop.reason}`}));
}
// What a link drops, in a row for each flow.
function dropsAt(record, l, of = () => true) {
  const rows = record.facts.flows.map((_, f) => whoseOf(record, f));
  return dropMarks(record, drop => drop.link === l && of(drop)).sort((one, two) => one.flow - two.flow).map(mark => ({...mark, link: '', whose: rows[mark.flow]}));
}
function timeoutMarks(record, f) {
  return record.timeouts.filter(event => +record.line(event).split(' ')[6] === f).map(event => ({kind: 'timeout', time: record.timeOf(event),
    name: `${flowName(record, f)}: the retransmission timer ends`}));
}
// Spans in which a flow is in recovery, or stalls; in a panel of several flows they say whose they are.
function spansOf(record, f, place = {}) {
  const {times, values} = record.curve(record.ofFlow(f, RECOVERY)), end = record.times[record.count], name = flowName(record, f);
  const recoveries = Array.from(times).flatMap((from, k) => values[k] ? [{kind: 'recovery', from, to: k + 1 < times.length ? times[k + 1] : end, name: `${name}: recovery`, ...place}] : []);
  return [...record.stalls.filter(({flow}) => flow === f).map(({from, to}) => ({kind: 'stall', from, to, name: `${name}: no new acknowledgement for ${seconds(to - from)}`, ...place})), ...recoveries];
}
// When each packet that entered a queue left it: for its link, or dropped at the head.
function leavings(record, l) {
  const track = record.tracks[l], left = new Float64Array(track.flow.length).fill(Infinity), heads = record.drops.filter(({link, reason}) => link === l && !['full', 'lost'].includes(reason));
  for (let k = 0; k < track.gone; k++) left[track.entryOf(k)] = track.begun(k);
  for (let entry = 0, k = 0; k < heads.length && entry < left.length; entry++) if (left[entry] === Infinity) left[entry] = heads[k++].time;
  return left;
}
// How many packets of each flow wait in a queue, stacked: of each column of the picture the moment at which most wait.
function stacked(record, l, x) {
  const track = record.tracks[l], left = leavings(record, l), now = record.facts.flows.map(() => 0), areas = now.map(() => []), end = record.times[record.count];
  const [begin, last] = x.domain(), [from, right] = x.range(), across = (right - from) / (last - begin), to = Math.min(right, Math.ceil(x(end)));
  let waiting = 0, column = Math.floor(from), peak = -1, counts = null;
  const keep = () => { if (waiting > peak) { peak = waiting; counts = now.slice(); } };
  const close = next => {
    keep();
    for (const until = Math.min(next, to); column < until; column++) {
      let low = 0;
      counts.forEach((count, f) => { if (count) areas[f].push([column, low, low += count]); });
      if (peak !== waiting) { peak = waiting; counts = now.slice(); }
    }
    peak = -1;
  };
  for (let entry = 0, out = 0, comes = track.many ? track.entered(0) : Infinity; out < track.many;) {
    // At the same moment one leaves before another enters, but for one that does not wait.
    const enters = entry === out || comes < left[out], time = enters ? comes : left[out];
    if (time > end) break;
    const next = Math.floor(from + (time - begin) * across);
    if (next !== column) close(next);
    if (!enters) keep();
    now[track.flow[enters ? entry++ : out++]] += enters ? 1 : -1; waiting += enters ? 1 : -1;
    if (enters) comes = entry < track.many ? track.entered(entry) : Infinity;
  }
  close(to);
  return areas;
}

// ---- the panels

// The key's words of what lanes have, of drops with how many there are; and which ssthresh has no room on the axis.
const KEYS = [...Object.entries(LOOKS.marks), ...Object.entries(LOOKS.drops), ['before', 'before the last change']];
function keyOf(lanes, {facts}) {
  const there = new Map(), scales = scalesOf(lanes), above = new Set(), levels = new Set();
  lanes.forEach(({series, bands = [], marks = []}, k) => {
    for (const {kind} of [...bands, ...marks]) there.set(kind, (there.get(kind) || 0) + 1);
    for (const {thin, before, other, curve, level} of series)
      if (level <= scales[k]) levels.add(waitText(level)); else if (before) there.set('before'); else if (thin && curve && !other && greatestOf(curve.values) > scales[k]) above.add(valueText(greatestOf(curve.values)));
  });
  const flows = new Set(lanes.flatMap(({series}) => series.filter(({flow}) => flow !== undefined).map(({flow}) => flow)));
  return [...KEYS.filter(([kind]) => there.has(kind)).map(([kind, words]) => [kind, LOOKS.drops[kind] ? `${number(there.get(kind))} ${words}` : words]), ...(above.size ? [['above', `ssthresh ${[...above].join(', ')}`]] : []), ...(levels.size ? [['level', `target ${[...levels].join(', ')}`]] : []), ...[...flows].sort((a, b) => b - a).map(f => ['flow', facts.flows[f].name, colourOf(f)])];
}
const windowOf = (record, f) => [[CWND, 'cwnd'], [SSTHRESH, 'ssthresh']].map(([what, name]) => ({curve: record.curve(record.ofFlow(f, what)),
  colour: colourOf(f), thin: what === SSTHRESH, dash: dashOf(f), name: `${name} of ${flowName(record, f)}`}));
// A flow's timeouts and losses; these say their link where there are several.
function lossesOf(record, f, place = {}, at = undefined) {
  const drops = dropMarks(record, ({flow, sort}) => flow === f && sort === DATA, at), isOne = new Set(drops.map(({link}) => link)).size < 2;
  return [...timeoutMarks(record, f), ...drops.map(mark => ({...mark, link: isOne ? '' : mark.link}))].map(mark => ({...mark, ...place}));
}
// What flows have, of several each in a row of its own.
const inRows = (record, flows, of) => flows.flatMap(f => of(record, f, flows.length > 1 ? {whose: whoseOf(record, f)} : {}));
const PANELS = {
  windows: {says: 'windows', of: 'flows', titles: [`${LOOKS.panels.window}: cwnd (thick), ssthresh (thin), bytes`, 'cwnd (thick), ssthresh (thin), bytes', 'cwnd thick, ssthresh thin'],
    lanes: (record, flows) => flows.length > 2 ? flows.map(f => ({name: flowName(record, f), colour: colourOf(f), series: windowOf(record, f), bands: spansOf(record, f), marks: lossesOf(record, f)})) :
      [{series: flows.flatMap(f => windowOf(record, f)), bands: inRows(record, flows, spansOf), marks: inRows(record, flows, lossesOf)}]},
  lengths: {says: 'queues', of: 'links', titles: [LOOKS.panels.queue, 'packets that wait'],
    lane: (record, l, x) => ({name: record.facts.links[l].name, colour: linkColourOf(l), marks: dropsAt(record, l), series: [
      ...stacked(record, l, x).map((area, f) => ({area, most: 0, flow: f, colour: colourOf(f), name: `packets of ${flowName(record, f)} in the queue of ${record.facts.links[l].name}`})).filter(({area}) => area.length),
      {curve: record.queueCurve(l), colour: linkColourOf(l), behind: true, name: `queue of ${record.facts.links[l].name}`}]})},
  delays: {says: 'delay', of: 'links', hides: 'flows', whole: false, text: ns => ns ? waitText(ns) : '0', titles: [LOOKS.panels.delay, 'delay in the queue', 'delay'], lane: (record, l, x, flows) => {
    const track = record.tracks[l], of = record.facts.flows.map(() => ({times: [], values: []})), shown = new Set(flows);
    for (let k = 0; k < track.gone; k++) { const entry = track.entryOf(k), one = of[track.flow[entry]]; one.times.push(track.entered(entry)); one.values.push(track.begun(k) - track.entered(entry)); }
    const {facts: {links, targets}} = record, target = targets[l] ? [{level: targets[l], thin: true, name: `CoDel's target at ${links[l].name}: ${waitText(targets[l])}`}] : [];
    return {name: links[l].name, colour: linkColourOf(l), marks: dropsAt(record, l, ({flow}) => shown.has(flow)), series: [...of.map((dots, f) => ({dots, curve: dots, flow: f, colour: colourOf(f),
      name: `delay of packets of ${flowName(record, f)} at ${links[l].name}`})).filter(({dots, flow}) => dots.times.length && shown.has(flow)), ...target]};
  }},
  sequence: {says: 'sequence numbers', of: 'flows', titles: [`${LOOKS.panels.sequence}: sent (dots), acknowledged (line), bytes`, `${LOOKS.panels.sequence}, bytes`], lane: (record, f) => {
    const {all, again} = sent(record, f), name = flowName(record, f);
    return {name, colour: colourOf(f), bands: spansOf(record, f), marks: [...again, ...lossesOf(record, f, {}, drop => drop.number)],
      series: [{dots: all, curve: all, most: Math.max(0, greatestOf(all.values)) + record.facts.flows[f].mss, colour: colourOf(f), name: `segments of ${name}`}, {curve: acknowledged(record, f), colour: 'var(--quiet)', thin: true, name: `acknowledged of ${name}`}]};
  }},
  progress: {says: 'progress', of: 'flows', titles: [LOOKS.panels.progress, 'bytes acknowledged'], lanes: (record, flows) => [{series: flows.map(f => ({
    curve: acknowledged(record, f), colour: colourOf(f), dash: dashOf(f), name: `bytes of ${flowName(record, f)} that are acknowledged`}))}]},
};

// The lanes of a panel of these flows or links, one after another where each is about one of them.
function* lanesOf({lanes, lane}, record, ones, ...more) {
  if (lanes) return lanes(record, ones, ...more);
  const made = [];
  for (const one of ones) { made.push(lane(record, one, ...more)); yield; }
  return made;
}

// The panels of a page: which are shown, which flows and links are ticked, and their charts.
// The curves of a run that is no more, as far as the axis of time goes.
function dashed(series, x) {
  const end = x.domain()[1], upTo = ({times, values}) => { const k = d3.bisectRight(times, end); return {times: times.slice(0, k), values: values.slice(0, k)}; };
  return series.filter(({dots, area, thin}) => !dots && !area && !thin)
    .map(one => ({...one, curve: upTo(one.curve), dash: BEFORE, thin: true, before: true, behind: false, name: `${one.name}, before`}));
}

class Panels {
  // `go` is given a moment that is clicked.
  constructor(record, go) {
    Object.assign(this, {record, go, shown: ['windows', 'lengths'], charts: {}, first: {}, kept: {}});
    this.bar = document.getElementById('panel-bar');
    this.place = document.getElementById('charts');
    this.boxes = {};
    for (const [name, {says}] of Object.entries(PANELS)) {
      const button = document.createElement('button'), box = this.boxes[name] = document.createElement('div'), svg = document.createElementNS('http://www.w3.org/2000/svg', 'svg');
      Object.assign(button, {textContent: says, title: `shows or hides the panel: ${PANELS[name].titles[0]}`});
      button.dataset.panel = box.dataset.panel = name;
      button.addEventListener('click', event => { this.toggle(name); event.currentTarget.blur(); });
      document.getElementById('panels').append(button);
      svg.id = name;
      svg.setAttribute('role', 'img');
      svg.setAttribute('aria-label', PANELS[name].titles[0]);
      box.append(svg);
      this.place.append(box);
    }
    this.makeTicks();
  }
  // Boxes for flows, and for links, of which those whose queues grew longest come first.
  makeTicks() {
    const {record} = this, {facts, longest} = record, order = d3.range(facts.links.length).sort((a, b) => longest[b] - longest[a] || a - b), most = longest[order[0]];
    const markName = (flow, f) => markOf(facts, f) === flow.name ? flow.name : `${markOf(facts, f)} ${flow.name}`;
    this.ticked = {
      flows: this.ticksOf('flows', facts.flows.map((flow, f) => [f, markName(flow, f), lineOf(f)]), (f, k) => k < MOST_TICKED.flows),
      links: this.ticksOf('links', order.map(l => [l, facts.links[l].name, linkLineOf(l)]), (l, k) => k < MOST_TICKED.links && (!k || longest[l] >= LITTLE_OF_LONGEST * most))};
  }
  ticksOf(id, ones, ticked) {
    const boxes = ones.map(([k, name, line], place) => {
      const label = document.createElement('label'), box = document.createElement('input'), text = document.createElement('span');
      Object.assign(box, {type: 'checkbox', checked: ticked(k, place)});
      box.dataset.index = k;
      box.addEventListener('change', () => this.draw(id));
      Object.assign(text, {textContent: name, className: 'dash'});
      label.title = `shows or hides ${id === 'flows' ? 'flow' : 'link'} ${name} in the panels; pressed twice, the name comes before the others`;
      text.style.borderBottom = `3px ${line}`;
      text.addEventListener('dblclick', () => { this.first[id] = k; this.draw(id); });
      label.append(box, text);
      label.hidden = place >= MOST_NAMES;
      document.getElementById(id).append(label);
      return box;
    });
    if (ones.length > MOST_NAMES) this.foldNames(document.getElementById(id), ones.length - MOST_NAMES);
    return () => {
      const all = boxes.filter(box => box.checked).map(box => +box.dataset.index), first = this.first[id];
      return all.includes(first) ? [first, ...all.filter(one => one !== first)] : all;
    };
  }
  // A button for the names that are not shown at first.
  foldNames(place, count) {
    const button = document.createElement('button');
    Object.assign(button, {textContent: `${count} more`, title: 'shows the boxes of all'});
    button.addEventListener('click', () => { place.querySelectorAll('label').forEach(label => { label.hidden = false; }); button.remove(); });
    place.append(button);
  }
  // Shows these panels, each a name, or a name with those of the flows or links that it is about, which are ticked then; the first of them
  // comes before the others.
  choose(panels) { this.name(panels); this.make(); }
  name(panels) {
    this.shown = panels.map(panel => {
      const [name, ...ones] = [panel].flat(), {of} = PANELS[name];
      if (ones.length) {
        document.querySelectorAll(`#${of} input`).forEach(box => { box.checked = ones.includes(this.record.facts[of][+box.dataset.index].name); });
        this.first[of] = this.record.facts[of].findIndex(one => one.name === ones[0]);
      }
      return name;
    });
  }
  // One more panel, before the others, the last of which go where there is no room; or one less.
  toggle(name) {
    const others = this.seen.filter(one => one !== name);
    if (others.length === this.seen.length) this.choose([name, ...others]); else if (others.length) this.choose(others);
  }
  // Which panels have room, and the buttons and boxes of these, whose rows take room from the net.
  layBar() {
    for (const box of Object.values(this.boxes)) box.hidden = false;        // on a phone each makes its room
    const {clientWidth, clientHeight} = this.place, columns = Math.max(1, Math.floor((clientWidth + 8) / LEAST_WIDE));
    this.seen = this.shown.slice(0, clientHeight ? columns * Math.max(1, Math.floor(clientHeight / LEAST_TALL)) : this.shown.length);
    for (const button of document.querySelectorAll('#panels button')) button.setAttribute('aria-pressed', this.seen.includes(button.dataset.panel));
    this.bar.dataset.of = [...new Set(this.seen.flatMap(name => [PANELS[name].of, PANELS[name].hides]).filter(Boolean))].join(' ');
  }
  // Makes the charts that are shown, in the room that there is, one after another.
  make() { for (const _ of this.parts()); }
  *parts() {
    this.layBar();
    const {seen} = this;
    for (const [name, box] of Object.entries(this.boxes)) {
      box.hidden = !seen.includes(name);
      const before = box.querySelector('.present');
      if (before) before.remove();
      d3.select(box.firstChild).selectAll('*').remove();
    }
    this.charts = {};
    for (const name of seen) {
      this.charts[name] = new Chart(d3.select(this.boxes[name].firstChild), this.record, PANELS[name].titles, this.go, PANELS[name]);
      yield yield* this.drawing(name);
    }
  }
  // Another run of the same net: the curves of the one before lie behind, dashed.
  replace(record) {
    Object.assign(this, {before: this.record, record});
    for (const chart of Object.values(this.charts)) chart.replace(record);
    this.draw();
  }
  // Draws the panels anew, or those that the boxes of flows, or of links, are about.
  draw(boxes) {
    for (const name of Object.keys(this.charts)) {
      const {of, hides} = PANELS[name];
      if (!boxes || boxes === of || boxes === hides) for (const _ of this.drawing(name));
    }
  }
  *drawing(name) {
    const chart = this.charts[name], {of, hides} = PANELS[name], ticked = [this.ticked[of](), chart.x, hides && this.ticked[hides]()], now = String([ticked[0], '', ticked[2]]);
    const {record, ones, series} = this.kept[name] || {}, kept = this.kept[name] = {record: this.record, ones: now};
    const lanes = yield* lanesOf(PANELS[name], this.record, ...ticked);
    kept.series = lanes.map(lane => [...lane.series]);
    // What was drawn last is most often what lies behind.
    const behind = !this.before ? [] : record === this.before && ones === now && series ? series : (yield* lanesOf(PANELS[name], this.before, ...ticked)).map(lane => lane.series);
    yield;
    if (this.kept[name] !== kept) return;       // it was drawn anew meanwhile
    behind.forEach((before, k) => lanes[k].series.unshift(...dashed(before, chart.x)));
    chart.show(lanes, keyOf(lanes, this.record));
    if (this.time !== undefined) chart.mark(this.time);
  }
  resize() { for (const chart of Object.values(this.charts)) chart.resize(); }
  mark(time) {
    this.time = time;
    for (const chart of Object.values(this.charts)) chart.mark(time);
  }
}
