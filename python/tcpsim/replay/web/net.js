'use strict';
// The net: links as two lines side by side, queues as rows of boxes at their ports, packets on their way,
// drops that fall. What is drawn says its numbers in data- attributes.

const NAMES_WIDE = [64, 94, 130];           // units of a name's line on a slide with a long net, whichever makes it larger
const DECK = 9, MOST_IN_A_DECK = 5;    // how far apart drops of one event lie
const CROSS = 'm-4-3l1-1 3 3 3-3 1 1-3 3 3 3-1 1-3-3-3 3-1-1 3-3z';       // a drop's mark, 8 units wide
// Of a queue: squares at least, and what it takes of its link besides these and its count, and besides its count alone.
const LEAST_BOXES = 4, QUEUE_ROOM = 16, APART_ROOM = 8;
const EDGE_OF_ROOM = 80;                // pixels that are shown beside a node to which the room scrolls
const MOST_BOXES = 30, MOST_ON_A_LINK = 240, MOST_FALLING = 4, FALLS_FOR = 0.2;      // of the time for which a drop is seen
// Packets carry their flow's mark besides its colour.
const colourOf = flow => `var(--flow-${flow % LOOKS.flows})`, inkOf = flow => `var(--on-flow-${flow % LOOKS.flows})`;
const linkColourOf = link => `var(--link-${link % LOOKS.links})`;

// What a packet carries: its flow's name, where all names are that short; else a letter a flow, or a number.
const MOST_LETTERS = 2, ALPHABET = 'ABCDEFGHIJKLMNOPQRSTUVWXYZabcdefghijklmnopqrstuvwxyz';
function markOf(facts, flow) {
  if (!facts.marks) {
    const short = facts.flows.every(({name}) => name.length <= MOST_LETTERS);
    facts.marks = facts.flows.map(({name}, f) => short ? name : ALPHABET[f] || String(f));
  }
  return facts.marks[flow];
}
function reasonOf(facts, drop, count) {
  const {name} = facts.flows[drop.flow];
  return `\u2715 ${drop.reason}: ${name} ${number(drop.number)}${count > 1 ? ` +${count - 1}` : ''}`;
}
function waitingWord(p) { return `${p.flow}:${p.sort === DATA ? 'd' : 'a'}:${p.number}@${p.entered}`; }

function isSlide() { return document.documentElement.classList.contains('slide'); }
// Whether a net has smaller letters than those of a slide, or of a page.
function isSmall(layout) { return LETTERS * layout.pixels < (isSlide() ? SLIDE_LETTERS : PAGE_LETTERS) - 1e-6; }

class Net {
  // `fold` says whether ends are stubs; where it is not given they are in a net of many, and where its letters were small.
  constructor(svg, record, show, fold) {
    this.show = show;
    svg.selectAll('*').remove();
    this.take(record);
    const room = this.room = svg.node().parentNode;
    room.classList.remove('larger');
    svg.style('width', null).style('height', null);
    const {clientWidth, clientHeight} = room, layoutOf = stubs => this.layoutIn(clientWidth || 1264, clientHeight || 340, stubs);
    let layout = layoutOf(false);
    this.canFold = layout.rows > MOST_ROWS || isSmall(layout);
    if (fold === undefined ? this.canFold : fold) layout = layoutOf(true);
    this.folded = layout.stubs;
    layout = this.readable(layout, svg);
    Object.assign(this, {places: layout.places, tracks: layout.tracks, row: layout.row, nameSize: layout.nameSize, sizes: layout.sizes, pixels: layout.pixels, needs: layout.needs});
    this.svg = svg.attr('viewBox', `0 0 ${layout.wide} ${layout.tall}`);
    this.world = this.svg.append('g').attr('class', 'world');
    if (this.larger) this.svg.on('.zoom', null); else this.svg.call(d3.behavior.zoom().scaleExtent([0.5, 40]).on('zoom', () =>
      this.world.attr('transform', `translate(${d3.event.translate}) scale(${d3.event.scale})`)))
      .on('dblclick.zoom', null);
    this.lines = [];
    for (const track of this.tracks) for (const l of track.links) this.lines[l] = this.lineOf(track, l);
    this.drawLinks(); this.drawNodes();
    this.moving = this.world.append('g').attr('class', 'moving').node();
    this.falling = this.world.append('g').attr('class', 'falling').node();
    this.fallen = new Map();      // drops that have an element
    this.drawn = new Map();       // packets under way that have an element
  }

  // What of a run says where all stands.
  take(record) {
    this.record = record; this.facts = record.facts;
    this.reasonWide = this.widestReason();
    this.countsWide = this.facts.links.map((_, l) => this.widestCount(l));
    const {nodes, links, flows, ways} = this.facts;
    return this.stands = JSON.stringify([nodes, links.map(({name, from, to, rate, delay}) => [name, from, to, rate, delay]),
      flows.map(({name, sender, receiver}) => [name, sender, receiver]), ways, this.reasonWide, this.countsWide]);
  }
  // Another run takes this one's place, whose room is the same; answers whether it can, as all stands where it stood.
  replace(record) {
    const {stands, facts: {links}} = this;
    if (this.take(record) !== stands || !this.isSeen) return false;
    this.moving.textContent = this.falling.textContent = '';
    this.fallen.clear(); this.drawn.clear(); this.follow(null);
    for (const track of this.tracks) for (const l of track.links) {
      if (this.facts.links[l].limit === links[l].limit) { this.queues[l].replace(record); continue; }
      this.queues[l].group.remove();
      this.lines[l] = this.lineOf(track, l);
      this.drawQueue(l);
    }
    for (const {sender} of this.facts.flows) this.nodes[sender].dataset.una = '';
    return true;
  }
  // Where all stands in a panel of this size, with its ends as stubs or whole.
  layoutIn(panelWide, panelTall, stubs) {
    const {facts, reasonWide, countsWide} = this, made = sizes => new Layout(facts, panelWide, panelTall, track => Math.max(
      sizes.kinds ? reasonWide + 2 * sizes.reason : 0, ...track.links.map(l => countsWide[l] && countsWide[l] + this.besideCount(sizes))), stubs, sizes);
    const marks = facts.flows.map((_, f) => markOf(facts, f)), first = made(sizesFor(isSlide() ? ON_SLIDE : ON_PAGE, marks));
    if (!isSmall(first)) return first;
    const others = [ON_SLIDE, ...NAMES_WIDE.map(mostName => ({...ON_LONG_SLIDE, mostName}))].map(sizes => made(sizesFor(sizes, marks)));
    return [first, ...others].reduce((best, one) => one.pixels > best.pixels ? one : best);
  }
  // A layout whose letters would be smaller than a page's is made anew as large as they need it: then the net is larger than its room.
  readable(layout, svg) {
    const {room, facts} = this;
    this.isSeen = room.clientWidth > 0;
    this.larger = this.isSeen && LETTERS * layout.pixels < PAGE_LETTERS - 1e-6;
    if (!this.larger) return layout;
    const [wide, tall] = layout.needs, {sizes, leastLength, stubs} = layout;
    // A scroll bar takes its room from the other way.
    room.classList.add('larger');
    svg.style('width', `${wide}px`).style('height', `${tall}px`);
    const made = [Math.max(wide, room.clientWidth), Math.max(tall, room.clientHeight)];
    svg.style('width', `${made[0]}px`).style('height', `${made[1]}px`);
    return new Layout(facts, ...made, leastLength, stubs, sizes);
  }
  // Scrolls to a node where it is not in sight.
  reveal(n) {
    if (!this.larger || !this.nodes[n]) return;
    const {room} = this, node = this.nodes[n].getBoundingClientRect(), seen = room.getBoundingClientRect(), by = (low, high, from, to) => low < from ? low - from - EDGE_OF_ROOM : high > to ? high - to + EDGE_OF_ROOM : 0;
    room.scrollBy(by(node.left, node.right, seen.left, seen.right), by(node.top, node.bottom, seen.top, seen.bottom));
  }
  // How large it would be drawn in such a panel.
  pixelsIn(panelWide, panelTall) { return this.layoutIn(panelWide, panelTall, this.folded).pixels; }

  // The width of the longest words of a drop.
  widestReason() {
    const letters = drop => drop.reason.length + this.facts.flows[drop.flow].name.length + String(drop.number).length;
    let longest = 0, ones = [];
    for (const drop of this.record.drops) {
      const length = letters(drop);
      if (length > longest) { longest = length; ones = []; }
      if (length === longest && ones.length < 99) ones.push(drop);
    }
    return d3.max(ones, drop => textWidth(reasonOf(this.facts, drop, 99), 'bold 12px sans-serif')) || 0;
  }

  // The width of a queue's longest count; none where nothing ever waits.
  widestCount(l) {
    const longest = this.record.longest[l];
    return longest ? textWidth(countText(longest, this.facts.links[l].limit, 9.99e8), 'bold 12px sans-serif') : 0;
  }
  // What a queue takes of its link besides its count.
  besideCount({counts, box}) { return counts === 'beside' ? QUEUE_ROOM + LEAST_BOXES * box.step : APART_ROOM; }

  // A link's line: the way of its packets, where its queue begins and where its boxes go, and where its drops lie.
  lineOf(track, l) {
    const {sizes} = this, right = track.right === l, aside = right ? sizes.beside : -sizes.beside, [x, y] = track.inside ? [aside, 0] : [0, -aside];
    const points = track.points.map(([px, py]) => [px + x, py + y]);
    if (!right) points.reverse();
    const begin = [...points[0]], end = [...points[points.length - 1]];
    const off = (point, other) => {
      const length = Math.hypot(other[0] - point[0], other[1] - point[1]) || 1;
      const part = Math.min(sizes.offNode, length / 3) / length;
      return [point[0] + (other[0] - point[0]) * part, point[1] + (other[1] - point[1]) * part];
    };
    points[0] = off(points[0], points[1]);
    points[points.length - 1] = off(points[points.length - 1], points[points.length - 2]);
    const lengths = points.map(([px, py], k) => k ? Math.hypot(px - points[k - 1][0], py - points[k - 1][1]) : 0);
    const level = right ? track.points[1] : track.points[track.points.length - 2];
    const room = track.inside ? 110 : Math.abs(begin[0] - level[0]);
    const {limit} = this.facts.links[l], widest = textWidth(countText(limit, limit, 9.99e8), 'bold 12px sans-serif');
    const count = sizes.counts === 'beside' ? widest : 0;
    const line = {room, whole: [begin, ...points, end], points, lengths, length: d3.sum(lengths), sign: track.inside || right ? 1 : -1,
      most: track.stub ? 0 : Math.max(LEAST_BOXES, Math.min(MOST_BOXES, Math.floor((room - QUEUE_ROOM - count) / sizes.box.step)))};
    if (track.inside) {
      const down = end[1] > begin[1];
      const beside = track.points[0][0] + 20;
      return Object.assign(line, {queue: [beside, begin[1] + (down ? 4 : -16)],
        lies: [beside + 4, begin[1] + (down ? 24 : -24)]});
    }
    const middle = begin[1] - y;
    if (track.stub)
      return Object.assign(line, {queue: [begin[0] + 4 * line.sign, middle + (right ? sizes.stub.upper : sizes.stub.lower)],
        lies: [begin[0] + 12 * line.sign, middle + 12]});
    return Object.assign(line, {queue: [begin[0] + 4 * line.sign, middle + (right ? sizes.upper : sizes.lower)],
      lies: [begin[0] + 12 * line.sign, middle + sizes.dropped], up: right});
  }

  // The point at a part of a link's way.
  pointAt(l, part) {
    const {points, lengths, length} = this.lines[l];
    let rest = part * length, k = 1;
    while (k < points.length - 1 && rest > lengths[k]) rest -= lengths[k++];
    const share = lengths[k] ? Math.min(1, rest / lengths[k]) : 0, [x, y] = points[k - 1], [u, v] = points[k];
    return [x + (u - x) * share, y + (v - y) * share];
  }

  drawLinks() {
    const groups = this.world.selectAll('g.link').data(this.facts.links).enter().append('g').attr('class', 'link')
      .attr('data-link', (_, l) => l).attr('data-way', (_, l) => this.lines[l].points.map(point => point.join(',')).join(' '));
    groups.append('polyline').attr('points', (_, l) => this.lines[l].whole.map(point => point.join(',')).join(' '));
    this.groups = groups[0];
    for (const track of this.tracks) {
      const [from, to] = track.points, group = d3.select(this.groups[track.links[0]]);
      const [x, y] = track.inside ? [from[0] + 20, (from[1] + to[1]) / 2 + 4] : [(from[0] + to[0]) / 2, from[1] + this.sizes.name];
      track.name.forEach((line, k) => group.append('text').attr('class', 'rate').attr('x', x)
        .attr('y', y - (track.name.length - 1 - k) * MORE_NAME)
        .attr('text-anchor', track.inside ? 'start' : 'middle').text(line));
    }
    this.queues = [];
    this.facts.links.forEach((_, l) => this.drawQueue(l));
  }
  drawQueue(l) { this.queues[l] = new QueueView(this.groups[l], this.record, l, this.lines[l], this.record.longest[l] > 0, this.show, this.sizes); }

  drawNodes() {
    const groups = this.world.selectAll('g.node').data(this.facts.nodes).enter().append('g')
      .attr('class', node => `node ${node.kind}`).attr('data-node', (_, n) => n).attr('tabindex', 0).attr('role', 'button')
      .attr('aria-label', node => `${node.kind} ${node.name}`)
      .attr('transform', (_, n) => `translate(${this.places[n].x},${this.places[n].y})`)
      .on('click', (_, n) => this.show({node: n}))
      .on('keydown', (_, n) => { if (d3.event.key === 'Enter') this.show({node: n}); });
    groups.append('rect').attr('x', (_, n) => -this.places[n].wide / 2).attr('width', (_, n) => this.places[n].wide)
      .attr('y', (_, n) => this.places[n].top - this.places[n].y).attr('height', (_, n) => this.places[n].bottom - this.places[n].top)
      .attr('rx', node => node.kind === 'router' ? this.sizes.round : 4);
    groups.append('text').attr('class', 'name').attr('y', -1.5).style('font-size', `${this.nameSize}px`).text(node => node.name);
    const hasKind = (_, n) => this.sizes.kinds && !this.places[n].stub;
    groups.filter(hasKind).append('text').attr('class', 'kind').attr('y', 2 + this.sizes.kindSize).text(node => node.kind);
    groups.filter((node, n) => !hasKind(node, n)).select('.name').attr('y', this.nameSize / 3);
    this.nodes = groups[0];
    this.nodes.forEach((node, n) => {
      const flow = this.record.endOf[n];
      if (flow >= 0) d3.select(node).select('rect').style('stroke', colourOf(flow));
    });
  }

  // Draws the present state at a moment; `fall` is how long a drop is seen to fall, in simulated time.
  draw(time, fall) {
    this.world.attr('data-time', time);
    this.facts.links.forEach((link, l) => {
      const now = this.record.link(l), group = this.groups[l];
      if (group.dataset.offered !== String(now.offered)) group.dataset.offered = now.offered;
      if (group.dataset.sent !== String(now.sent)) group.dataset.sent = now.sent;
      this.queues[l].draw();
      this.drawUnderWay(l, time);
    });
    for (const [key, packet] of this.drawn) if (packet.seen !== this.stamp) { packet.element.remove(); this.drawn.delete(key); }
    this.stamp = (this.stamp || 0) + 1;
    this.drawEnds();
    this.drawDrops(time, fall);
  }

  drawUnderWay(l, time) {
    const now = this.record.link(l), track = this.record.tracks[l];
    const many = now.endUnderWay - now.firstUnderWay, step = Math.ceil(many / MOST_ON_A_LINK) || 1;
    if (this.groups[l].dataset.underWay !== String(many)) this.groups[l].dataset.underWay = many;
    for (let k = now.firstUnderWay; k < now.endUnderWay; k += 1) {
      if (step > 1 && k % step) continue;
      const key = l * 4294967296 + k;
      let packet = this.drawn.get(key);
      if (!packet) { packet = this.newPacket(l, k); this.drawn.set(key, packet); }
      packet.seen = this.stamp;
      const part = Math.min(1, Math.max(0, (time - track.begun(k)) / (track.arrives(k) - track.begun(k))));
      const [x, y] = this.pointAt(l, part);
      packet.element.setAttribute('transform', `translate(${x.toFixed(2)},${y.toFixed(2)})`);
      packet.element.setAttribute('data-place', part.toFixed(6));
    }
  }

  // Marks the packet that a span of a critical path is about, or the node that waits.
  follow(span) {
    if (this.followed) { this.followed.classList.remove('on-path'); this.followed = null; }
    if (!span) return;
    const {link, entry, k, node} = span;
    if (node !== undefined) this.followed = this.nodes[node];
    else this.followed = (this.drawn.get(link * 4294967296 + k) || {}).element || this.queues[link].elementOf(entry);
    this.followed.classList.add('on-path');
  }
  newPacket(l, k) {
    const track = this.record.tracks[l], packet = this.record.packet(l, track.entryOf(k));
    const element = this.shape(packet);
    Object.assign(element.dataset, {link: l, flow: packet.flow, sort: packet.sort === DATA ? 'data' : 'ack',
      number: packet.number, count: k + track.sentBefore + 1, begun: track.begun(k), arrives: track.arrives(k),
      again: packet.again ? 1 : 0});
    element.addEventListener('click', () => this.show({packet, link: l, sent: k}));
    this.moving.appendChild(element);
    return {element, seen: this.stamp};
  }

  // A segment is a square, an acknowledgement a disc; what was sent again has a ring.
  shape(packet) {
    const make = (name, facts, under) => {
      const made = document.createElementNS('http://www.w3.org/2000/svg', name);
      for (const key in facts) made.setAttribute(key, facts[key]);
      if (under) under.appendChild(made);
      return made;
    };
    const group = make('g', {class: `packet ${packet.sort === DATA ? 'data' : 'ack'}`}), fill = colourOf(packet.flow);
    make('title', {}, group).textContent = packetName(this.facts, packet) + (packet.again ? ', sent again' : '');
    const {square: [wide, tall], disc, ring} = this.sizes;
    if (packet.again) make('circle', {r: ring, class: 'ring'}, group);
    if (packet.sort === DATA) make('rect', {x: -wide / 2, y: -tall / 2, width: wide, height: tall, fill}, group);
    else make('circle', {r: disc, fill, class: 'disc'}, group);
    const text = make('text', {dy: '.35em'}, group);
    text.textContent = markOf(this.facts, packet.flow);
    text.style.fill = inkOf(packet.flow);
    return group;
  }

  drawEnds() {
    this.facts.flows.forEach((flow, f) => {
      const now = this.record.flow(f), sender = this.nodes[flow.sender].dataset, receiver = this.nodes[flow.receiver].dataset;
      if (sender.una === String(now.una) && sender.nxt === String(now.nxt) && sender.cwnd === String(now.cwnd) &&
          sender.ssthresh === String(now.ssthresh) && receiver.next === String(now.next) && sender.dups === String(now.dups)) return;
      Object.assign(sender, {flow: f, una: now.una, nxt: now.nxt, high: now.high, cwnd: now.cwnd,
        ssthresh: now.ssthresh, recovery: now.recovery, dups: now.dups});
      Object.assign(receiver, {flow: f, next: now.next});
    });
  }

  // The drops of the present event and of those shortly before it, each crossed out, with its reason.
  drawDrops(time, fall) {
    const drops = this.record.drops, at = this.record.at;
    let k = d3.bisector(drop => drop.event).right(drops, at) - 1, last = null;
    const seen = new Map();
    for (; k >= 0 && (drops[k].event === at || (time - drops[k].time < fall && seen.size < MOST_FALLING)); k--) seen.set(k, drops[k]);
    for (const [key, element] of this.fallen) if (!seen.has(key)) { element.remove(); this.fallen.delete(key); }
    if (!seen.size) return;
    const alike = d3.nest().key(drop => `${drop.event} ${drop.link}`).map([...seen.values()], d3.map), newest = new Map();
    for (const key of [...seen.keys()].reverse()) {
      const drop = seen.get(key), {lies, sign} = this.lines[drop.link];
      const group = alike.get(`${drop.event} ${drop.link}`);
      const rank = group.length - 1 - group.indexOf(drop);
      if (!this.fallen.has(key)) this.fallen.set(key, this.falling.appendChild(this.dropShape(drop, rank, group.length, sign)));
      const age = fall > 0 ? Math.min(1, (time - drop.time) / fall) : 1, part = Math.min(1, age / FALLS_FOR);
      const rest = lies[0] + sign * DECK * Math.min(rank, MOST_IN_A_DECK), mouth = this.queues[drop.link].mouth(drop.reason);
      const element = this.fallen.get(key), x = mouth + (rest - mouth) * part;      // below the link, whose words and packets it does not cover
      element.setAttribute('transform', `translate(${x.toFixed(1)},${lies[1].toFixed(1)})`);
      newest.set(drop.link, drop.event);
      element.style.opacity = drop.event === at ? 1 : Math.min(1, 2 - 2 * age);
      element.lies = part === 1;
    }
    // Only the newest of a link have their words, and where they lie, so that words do not cross others.
    for (const [key, element] of this.fallen)
      element.classList.toggle('silent', !element.lies || seen.get(key).event !== newest.get(seen.get(key).link));
  }
  // A drop's words; where there is no room for all of them, why it was dropped alone.
  reasonAt(drop, count) {
    const words = reasonOf(this.facts, drop, count), {room} = this.lines[drop.link], deck = DECK * Math.min(count - 1, MOST_IN_A_DECK);
    return this.sizes.counts === 'beside' || 2 * this.sizes.reason + deck + textWidth(words, 'bold 12px sans-serif') <= room ? words :
      `\u2715 ${drop.reason}${count > 1 ? ` +${count - 1}` : ''}`;
  }
  // Drops of one event at one link lie as a deck; the last has the words of all.
  dropShape(drop, rank, count, sign) {
    const group = this.shape(drop), [wide, tall] = this.sizes.square;
    group.setAttribute('class', 'drop');
    d3.select(group).append('path').attr('class', 'cross').attr('d', `M${-sign * wide / 2} ${-tall / 2}${CROSS}`);
    Object.assign(group.dataset, {link: drop.link, flow: drop.flow, number: drop.number, reason: drop.reason,
      event: drop.event, count});
    if (rank === count - 1)
      d3.select(group).append('text').attr('class', 'reason').attr('x', this.sizes.reason * sign).attr('y', 4)
        .attr('text-anchor', sign > 0 ? 'start' : 'end').text(this.reasonAt(drop, count));
    group.addEventListener('click', () => this.show({event: drop.event}));
    return group;
  }
}
