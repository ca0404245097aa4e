'use strict';
// Where everything of the net stands. Nodes stand in columns by their distance from the senders, links are
// level where they can be: a node is as tall as its links need. A link with its way back is a track. From
// above a track has its name, the queue of the link to the right, the two lines on which packets move, the
// queue of the link to the left, and a line for what was dropped; no two tracks in a column share these.

const MORE_NAME = 14;                   // what each further line of a name adds to a track's height
const LINE_TALL = 12, EDGE_OF_ROW = 3;       // LINE_TALL: of a line of words
// What things take, in units of the drawing: `row` is a track's height, `beside` leads from a track's middle to each of its lines,
// `upper`, `lower` to its queues, `name` and `dropped` to its name and what was dropped, `reach` of a stub to the ends of its counts;
// `kinds` says whether a node has its kind.
const ON_PAGE = {edge: 8, round: 12, row: 109, beside: 9, least: 245, mostName: 240, end: 36, beyond: 24, router: 46, node: 58, kinds: true, counts: 'beside',
  stub: {tall: 22, length: 36, upper: -33, lower: 17, row: 34, reach: [33, 31], node: 30}, upper: -39, lower: 20, name: -42, dropped: 48, reason: 16, offNode: 14, kindSize: 12, down: -2.5, mark: 9, between: 1};
// No letter is smaller than another, and what holds a flow's mark is as wide as that. On a slide, or where a page's net has no room,
// links are shorter; where it is long, their ends keep their words above each other.
const ON_SLIDE = {...ON_PAGE, round: 8, least: 150, mostName: 170, mark: 11, between: 3,
  stub: {...ON_PAGE.stub, upper: -30, lower: 16, row: 32, reach: [27, 29]}};
const ON_LONG_SLIDE = {...ON_SLIDE, edge: 2, stub: {...ON_SLIDE.stub, node: 26, length: 26}, row: 142, least: 84, router: 28, node: 30, end: 22,
  kinds: false, counts: 'apart', name: -56, dropped: 65};
const SLIDE_LETTERS = 24, PAGE_LETTERS = 12, LETTERS = 12;       // the least that letters are on a slide and on a page, in pixels, and in units
const NAME_SIZE = 15, MOST_NAME_SIZE = 21, LEAST_NAME = 12;        // of nodes: units, units, and pixels of the screen
const LEAST_ROWS = 1.15;                // one flow alone is drawn as large as this many rows would be
// A stub is an end of the net, at one router, with no room for its queues and names.
// Where there are more rows than so many ends are stubs.
const MOST_ROWS = 5;

// The sizes for packets that carry these marks.
function sizesFor(sizes, marks) {
  const {mark: least, between} = sizes, wide = Math.max(least, Math.ceil(d3.max(marks, mark => textWidth(mark, `bold ${LETTERS}px sans-serif`)) || 0));
  return {...sizes, box: {wide: wide + between, tall: 14, step: wide + between + 1}, bar: {at: 15.2, tall: 4}, square: [wide + 5, 16],
    disc: Math.max(8, wide / 2 + 2), ring: Math.max(8, wide / 2 + 2.5) + 3.5};
}

// A name's words in lines no wider than this, where it can be.
function inLines(words, most, font) {
  const lines = [];
  // A number keeps its unit.
  for (const word of words.join(' ').match(/[\d.,]+ [^\d\s]+|\S+/g)) {
    const longer = lines.length ? `${lines[lines.length - 1]} ${word}` : word;
    if (lines.length && textWidth(longer, font) <= most) lines[lines.length - 1] = longer;
    else lines.push(word);
  }
  return lines;
}

// What words take. An element that were asked for it would have the browser lay out the page.
function measured(text, font) {
  const canvas = measured.canvas || (measured.canvas = document.createElement('canvas').getContext('2d'));
  canvas.font = font;
  return canvas.measureText(text);
}
function textWidth(text, font) { return measured(text, font).width; }

// The column of each node: one more than that of the node before it on a flow's way of data, or behind it
// on a way of acknowledgements. A link that would lead back to an earlier node counts for nothing.
function columnsOf(facts) {
  const next = facts.nodes.map(() => new Set());
  const reaches = (from, to) => from === to || [...next[from]].some(n => reaches(n, to));
  const add = (from, to) => { if (!next[from].has(to) && !reaches(to, from)) next[from].add(to); };
  for (const [way] of facts.ways) for (const l of way) add(facts.links[l].from, facts.links[l].to);
  for (const [, way] of facts.ways) for (const l of way) add(facts.links[l].to, facts.links[l].from);
  const column = facts.nodes.map(() => 0);
  for (let round = 0; round < facts.nodes.length; round++) {
    let moved = false;
    next.forEach((after, node) => after.forEach(n => {
      if (column[n] < column[node] + 1) { column[n] = column[node] + 1; moved = true; }
    }));
    if (!moved) break;
  }
  const used = new Set(facts.flows.flatMap(f => [f.sender, f.receiver]).concat(
    facts.ways.flat(2).flatMap(l => [facts.links[l].from, facts.links[l].to])));
  facts.nodes.forEach((node, n) => { if (!used.has(n)) column[n] = 1; });
  return column;
}

// Each link with the first one that leads back. `right` is the link that leads to a later column.
function tracksOf(facts, column) {
  const tracks = [], taken = new Set();
  facts.links.forEach((link, l) => {
    if (taken.has(l)) return;
    const back = facts.links.findIndex((other, m) => m > l && !taken.has(m) && other.from === link.to && other.to === link.from);
    if (back >= 0) taken.add(back);
    const leads = column[link.from] < column[link.to] || column[link.from] === column[link.to] && link.from < link.to;
    const [a, b] = leads ? [link.from, link.to] : [link.to, link.from];
    tracks.push({a, b, links: back < 0 ? [l] : [l, back], right: leads ? l : back, left: leads ? back : l,
      inside: column[a] === column[b]});
  });
  return tracks;
}

// A track's name: its links, their rates and delays, once where both directions are alike.
function nameOf(facts, track) {
  const [link, back] = track.links.map(l => facts.links[l]), of = l => `${rateText(l.rate)}, ${milliseconds(l.delay)}`;
  if (!back) return [`${link.name}:`, of(link)];
  if (link.rate === back.rate && link.delay === back.delay) return [`${link.name}, ${back.name}:`, of(link)];
  return [`${link.name}: ${of(link)};`, `${back.name}: ${of(back)}`];
}

// Values in their order, at least `apart(k)` after the one before and within bounds, as near as can be to
// those that are wished: neighbours that come too close share their mean.
function spaced(wishes, apart, low, high) {
  const offsets = [];
  wishes.forEach((_, k) => offsets.push(k ? offsets[k - 1] + apart(k) : 0));
  const pools = [];
  wishes.forEach((wish, k) => {
    let pool = {sum: wish - offsets[k], count: 1};
    while (pools.length && pools[pools.length - 1].sum / pools[pools.length - 1].count > pool.sum / pool.count) {
      const before = pools.pop();
      pool = {sum: pool.sum + before.sum, count: pool.count + before.count};
    }
    pools.push(pool);
  });
  const most = high - offsets[offsets.length - 1];
  return pools.flatMap(pool => Array(pool.count).fill(Math.min(most, Math.max(low, pool.sum / pool.count))))
    .map((value, k) => value + offsets[k]);
}

class Layout {
  // `leastLength` says what the words beside a track need of its length.
  constructor(facts, panelWide, panelTall, leastLength, stubs, sizes) {
    this.facts = facts; this.stubs = stubs; this.sizes = sizes;
    this.leastLength = leastLength;
    this.column = columnsOf(facts);
    this.tracks = tracksOf(facts, this.column);
    const alone = n => this.tracks.filter(t => t.a === n || t.b === n).length === 1;
    const end = (n, other) => facts.nodes[n].kind !== 'router' && facts.nodes[other].kind === 'router' && alone(n);
    for (const t of this.tracks) {
      t.stub = stubs && !t.inside && (end(t.a, t.b) || end(t.b, t.a));
      // A stub stands beside its router, however far that is from where the first senders are.
      if (t.stub && facts.nodes[t.a].kind !== 'router') this.column[t.a] = this.column[t.b] - 1;
      if (t.stub && facts.nodes[t.b].kind !== 'router') this.column[t.b] = this.column[t.a] + 1;
    }
    this.count = Math.max(...this.column) + 1;
    this.nameTracks();
    this.stubTall = sizes.stub.row / this.row;
    for (const t of this.tracks) t.weight = t.stub ? this.stubTall : 1;
    this.makeItems();
    this.sort();
    this.spread();
    this.findPorts();
    this.scale(panelWide, panelTall);
    this.place();
  }

  // What stands in a column: its nodes, and the tracks that pass it. `height` is in tracks.
  makeItems() {
    const {facts, tracks, column} = this;
    this.columns = Array.from({length: this.count}, () => []);
    this.ofNode = facts.nodes.map((_, n) => {
      const beside = side => d3.sum(tracks.filter(t => !t.inside && t[side] === n), t => t.weight);
      const stub = tracks.some(t => t.stub && (t.a === n || t.b === n)) && facts.nodes[n].kind !== 'router';
      const item = {node: n, stub, height: Math.max(stub ? this.stubTall : 1, beside('a'), beside('b')), near: [], y: 0};
      this.columns[column[n]].push(item);
      return item;
    });
    tracks.filter(t => !t.inside).forEach(t => {
      let before = this.ofNode[t.a];
      t.passes = [];
      for (let c = column[t.a] + 1; c <= column[t.b]; c++) {
        const item = c === column[t.b] ? this.ofNode[t.b] : {track: t, height: t.weight, near: [], y: 0};
        if (c < column[t.b]) { this.columns[c].push(item); t.passes.push(item); }
        before.near.push(item); item.near.push(before);
        before = item;
      }
    });
    const order = item => {
      const ends = item.track ? [item.track.a, item.track.b] : [item.node];
      const flows = ends.map(n => facts.flows.findIndex(f => f.sender === n || f.receiver === n)).filter(f => f >= 0);
      return flows.length ? flows[0] : facts.flows.length / 2 - 0.5;
    };
    this.columns.forEach(items => items.forEach(item => { item.order = order(item); }));
    this.rows = Math.max(...this.columns.map(items => items.reduce((sum, item) => sum + item.height, 0)));
  }

  stack(items) {
    let y = (this.rows - items.reduce((sum, item) => sum + item.height, 0)) / 2;
    for (const item of items) { item.y = y + item.height / 2; y += item.height; }
  }

  // In a column what is joined to higher neighbours comes first.
  sort() {
    this.columns.forEach(items => { items.sort((one, two) => one.order - two.order); this.stack(items); });
    for (let round = 0; round < 6; round++)
      this.columns.forEach(items => {
        for (const item of items) item.mean = item.near.length ? d3.mean(item.near, other => other.y) : item.y;
        items.sort((one, two) => one.mean - two.mean || one.order - two.order);
        this.stack(items);
      });
  }

  // Each item as near to the middle of its neighbours as the others in its column let it.
  spread() {
    const settle = items => {
      if (!items.length) return;
      const wishes = items.map(item => item.near.length ? d3.mean(item.near, other => other.y) : item.y);
      spaced(wishes, k => (items[k - 1].height + items[k].height) / 2, items[0].height / 2,
        this.rows - items[items.length - 1].height / 2).forEach((y, k) => { items[k].y = y; });
    };
    for (let round = 0; round < 12; round++) {
      this.columns.forEach(settle);
      [...this.columns].reverse().forEach(settle);
    }
  }

  // The height at which each track meets its two nodes: level where both can have it so.
  findPorts() {
    const {tracks, ofNode} = this, sides = new Map();
    const level = tracks.filter(t => !t.inside);
    for (const t of level) for (const side of ['a', 'b']) {
      const key = `${side}${t[side]}`;
      if (!sides.has(key)) sides.set(key, []);
      sides.get(key).push(t);
    }
    const next = (t, side) => side === 'a' ? t.passes[0] || ofNode[t.b] : t.passes[t.passes.length - 1] || ofNode[t.a];
    for (const [key, ones] of sides) {
      const side = key[0], item = ofNode[+key.slice(1)];
      ones.sort((one, two) => next(one, side).y - next(two, side).y || one.links[0] - two.links[0]);
      let y = item.y - d3.sum(ones, t => t.weight) / 2;
      for (const t of ones) { t[side + 'Slot'] = y + t.weight / 2; y += t.weight; }
    }
    const alone = n => ofNode[n].near.length === 1;
    for (const t of level) t.wish = alone(t.a) ? t.aSlot : alone(t.b) ? t.bSlot : (t.aSlot + t.bSlot) / 2;
    for (const [key, ones] of sides)
      spaced(ones.map(t => t.wish), k => (ones[k - 1].weight + ones[k].weight) / 2, -1e9, 1e9).forEach((y, k) => { ones[k][key[0] + 'Y'] = y; });
    this.columns.forEach(items => this.keepApart(items, sides));
  }

  // The span of a node over its ports, or of a track that passes, with the room beside them, in tracks.
  span(item, sides) {
    if (item.track) return [item.y - item.height / 2, item.y + item.height / 2];
    const ports = ['a', 'b'].flatMap(side => (sides.get(side + item.node) || []).map(t => [t[side + 'Y'], t.weight / 2]));
    return ports.length ? [d3.min(ports, ([y, half]) => y - half), d3.max(ports, ([y, half]) => y + half)] :
      [item.y - item.height / 2, item.y + item.height / 2];
  }

  // A node that its ports would stretch into another, or into a track that passes, keeps to its own place.
  keepApart(items, sides) {
    for (let k = 0; k < items.length; k++) {
      const [top, bottom] = this.span(items[k], sides);
      const above = k ? this.span(items[k - 1], sides)[1] : -1e9;
      const below = k + 1 < items.length ? this.span(items[k + 1], sides)[0] : 1e9;
      if (items[k].node !== undefined && (top - above < -1e-6 || below - bottom < -1e-6))
        for (const side of ['a', 'b'])
          for (const t of sides.get(side + items[k].node) || []) t[side + 'Y'] = t[side + 'Slot'];
    }
  }

  // Names in lines, and how tall a row is and how long a link at least, as their words need.
  nameTracks() {
    const {facts, tracks, sizes} = this, name = '12px sans-serif';
    let lines = 1;
    this.least = sizes.least;
    for (const t of tracks) {
      if (t.stub) { t.name = []; continue; }
      const words = nameOf(facts, t), whole = textWidth(words.join(' '), name);
      t.name = whole <= sizes.mostName ? [words.join(' ')] : sizes.kinds ? words : inLines(words, sizes.mostName, name);
      lines = Math.max(lines, t.name.length);
      this.least = Math.max(this.least, this.leastLength(t), 16 + d3.max(t.name, line => textWidth(line, name)));
    }
    this.row = sizes.row + (lines - 1) * MORE_NAME;
  }

  // As large as the panel lets it be.
  scale(panelWide, panelTall) {
    const {least: length} = this;
    this.nameSize = NAME_SIZE;
    this.needs = this.fit(panelWide, panelTall, length);
    // Names of a net that is drawn small are larger beside all else.
    const least = LEAST_NAME / (this.wide ? panelWide / this.wide : 1);
    if (least > NAME_SIZE) {
      this.nameSize = Math.min(MOST_NAME_SIZE, least);
      this.fit(panelWide, panelTall, length);
    }
  }

  // The widths of nodes and columns, the gaps between these, and how large all is drawn, as `wide` and `tall` say. Answers the width and
  // height that it takes to be drawn in its own size.
  fit(panelWide, panelTall, length) {
    const {facts, tracks, column, sizes} = this;
    this.nodeWide = facts.nodes.map((node, n) => {
      const {stub} = this.ofNode[n], wide = stub ? sizes.stub.node : node.kind === 'router' ? sizes.router : sizes.node;
      return Math.max(wide, 14 + textWidth(node.name, `bold ${this.nameSize}px sans-serif`),
        stub || !sizes.kinds ? 0 : 10 + textWidth(node.kind, `${sizes.kindSize}px sans-serif`));
    });
    this.columnWide = d3.range(this.count).map(c => d3.max(this.nodeWide.filter((_, n) => column[n] === c)) || 0);
    // Between two columns with stubs alone there is less room than where a queue stands.
    const gaps = d3.range(Math.max(0, this.count - 1)).map(c =>
      tracks.every(t => t.stub || !(column[t.a] <= c && column[t.b] > c)) ? sizes.stub.length : length);
    const least = d3.sum(this.columnWide) + d3.sum(gaps) + 2 * sizes.edge;
    const [top, bottom] = this.reach();
    const high = Math.max(LEAST_ROWS * this.row, bottom - top), scale = Math.min(panelTall / high, panelWide / least);
    this.wide = panelWide / scale; this.tall = panelTall / scale;
    const more = this.wide - least, share = d3.sum(gaps, gap => gap === length ? 1 : 0) || gaps.length;
    this.gaps = gaps.map(gap => gap + (gap === length || share === gaps.length ? more / share : 0));
    this.pixels = scale;
    return [Math.ceil(least), Math.ceil(high)];
  }

  // From where to where all reaches, with the counts at stubs, from the top of the rows.
  reach() {
    const {row, sizes} = this, {reach} = sizes.stub, stubs = this.tracks.filter(t => t.stub);
    const at = stubs.flatMap(t => [t.aY, t.bY]).map(y => y * row + sizes.down);
    return [Math.min(0, ...at.map(y => y - reach[0])), Math.max(this.rows * row, ...at.map(y => y + reach[1]))];
  }
  place() {
    const {sizes} = this, [top, bottom] = this.reach(), above = (this.tall - bottom - top) / 2 + sizes.down;
    this.placeAll(above);
    // Nodes at stubs that would be cut below stand higher, with all else.
    const cut = d3.max(this.places, it => it.bottom) + EDGE_OF_ROW - this.tall, free = d3.min(this.places, it => it.top) - EDGE_OF_ROW;
    if (cut > 0 && free > 0) this.placeAll(above - Math.min(cut, free));
  }
  placeAll(above) {
    const {facts, column, row, sizes} = this;
    // A track's middle is below that of its row, as its name is above it; a stub has none.
    const down = (y, stub) => above + y * row + 1 + (stub ? 0 : (row - sizes.row) / 2);
    let x = sizes.edge;
    const middle = this.columnWide.map((wide, c) => { const at = x + wide / 2; x += wide + (this.gaps[c] || 0); return at; });
    this.places = facts.nodes.map((node, n) => {
      const {stub} = this.ofNode[n], beyond = node.kind === 'router' ? sizes.beyond : (stub ? sizes.stub.tall : sizes.end) / 2;
      // A node keeps within the rows of its tracks, as those of stubs are not tall.
      const port = (t, side) => ({y: down(t[side + 'Y'], t.stub), beyond: Math.min(beyond, t.weight * row / 2 - EDGE_OF_ROW)});
      const ports = ['a', 'b'].flatMap(side => this.tracks.filter(t => !t.inside && t[side] === n).map(t => port(t, side)));
      if (!ports.length) ports.push({y: down(this.ofNode[n].y, stub), beyond});
      const top = d3.min(ports, it => it.y - it.beyond), bottom = d3.max(ports, it => it.y + it.beyond);
      const at = this.count > 1 ? middle[column[n]] : this.wide / 2;
      return {x: at, y: (top + bottom) / 2, top, bottom, wide: this.nodeWide[n], column: column[n], stub};
    });
    for (const t of this.tracks) this.placeTrack(t, down, middle);
  }

  // The points of a track's middle, from a to b.
  placeTrack(t, down, middle) {
    const a = this.places[t.a], b = this.places[t.b];
    if (t.inside) {
      const [upper, lower] = a.y < b.y ? [a, b] : [b, a];
      t.points = [[upper.x, upper.bottom], [lower.x, lower.top]];
      if (upper !== a) t.points.reverse();
      return;
    }
    const begin = a.x + a.wide / 2, end = b.x - b.wide / 2;
    const points = [[begin, down(t.aY, t.stub)]], level = Math.abs(t.aY - t.bY) < 1e-6;
    const clear = t.passes.every(item => Math.abs(item.y - t.aY) < 0.35);
    if (!level || !clear)
      t.passes.forEach((item, k) => {
        const c = this.column[t.a] + 1 + k, half = this.columnWide[c] / 2 + 12;
        points.push([middle[c] - half, down(item.y, t.stub)], [middle[c] + half, down(item.y, t.stub)]);
      });
    const last = points[points.length - 1];
    if (Math.abs(last[1] - down(t.bY, t.stub)) > 1e-3)
      points.push([Math.max(last[0] + 10, end - 60), last[1]], [end - 14, down(t.bY, t.stub)]);
    points.push([end, down(t.bY, t.stub)]);
    t.points = points;
  }
}
