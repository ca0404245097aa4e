'use strict';
// A net that a template builds, and its text: python/tcpsim/scenario/net.py in the page. Rates are bit/s, times ns, sizes bytes.

const MOST_NODES = 256, MOST_LINKS = 1024, MOST_FLOWS = 128, MOST_ROUTER_LINKS = 16;

class NetText {
  constructor(ranges) { Object.assign(this, {ranges, nodes: [], links: [], flows: [], around: []}); }

  node(kind, name) {
    this.around.push([]);
    return this.nodes.push({name, kind}) - 1;
  }
  link(source, to, rate, delay, queue, name, note = '') {
    this.links.push({name, source, to, rate, delay, queue, note});
    this.around[source].push(this.links.length - 1);
  }
  // A link each way, named by its ends; `delays` are those there and back.
  joined(a, b, rate, delays, queue) {
    [[a, b], [b, a]].forEach(([source, to], k) =>
      this.link(source, to, rate, delays[k], queue, this.nodes[source].name + this.nodes[to].name));
  }

  // ---- ways

  // For each node the first link of a way of fewest hops to `goal` through routers.
  nextLinks(goal) {
    const into = this.nodes.map(() => []), found = new Map([[goal, null]]), queue = [goal];
    this.links.forEach((link, l) => into[link.to].push(l));
    for (let at = queue.shift(); at !== undefined; at = queue.shift())
      for (const l of into[at]) {
        const {source} = this.links[l];
        if (found.has(source)) continue;
        found.set(source, l);
        if (this.nodes[source].kind === 'router') queue.push(source);
      }
    return found;
  }
  way(start, goal) {
    const hops = this.nextLinks(goal), way = [];
    for (let at = start; at !== goal; at = this.links[hops.get(at)].to) way.push(hops.get(at));
    return way;
  }
  ways() { return this.flows.map(flow => [this.way(flow.sender, flow.receiver), this.way(flow.receiver, flow.sender)]); }
  // [router, destination, link] of all flows' ways, rising.
  routes() {
    const routes = new Map();
    this.flows.forEach(flow => [[flow.sender, flow.receiver], [flow.receiver, flow.sender]].forEach(([start, goal]) =>
      this.way(start, goal).slice(1).forEach(l => { const route = [this.links[l].source, goal, l]; routes.set(String(route), route); })));
    return [...routes.values()].sort((one, two) => one[0] - two[0] || one[1] - two[1] || one[2] - two[2]);
  }

  // Refuses a net of more than the program takes.
  check() {
    const ports = Math.max(0, ...this.nodes.map((node, n) => node.kind === 'router' ? this.around[n].length : 0));
    for (const [count, most, what] of [[this.nodes.length, MOST_NODES, 'nodes'], [this.links.length, MOST_LINKS, 'links'],
      [this.flows.length, MOST_FLOWS, 'flows'], [ports, MOST_ROUTER_LINKS, 'links that leave one router']])
      if (count > most) throw new Wrong(`this net would have ${count} ${what}, and ${most} is the most`);
    for (const link of this.links) within(this.ranges, 'delay', link.delay);
  }

  // ---- queues

  greatestPacket() { return Math.max(...this.flows.map(flow => flow.mss)) + HEADERS; }
  // The mean round trip, of delays alone, of the flows whose data goes over a link, or else of those whose acknowledgements do.
  roundTrip(l, ways) {
    for (const sort of [0, 1]) {
      const trips = ways.filter(both => both[sort].includes(l)).map(both => d3.sum(both.flat(), k => this.links[k].delay));
      if (trips.length) return Math.floor(d3.sum(trips) / trips.length);
    }
    return 0;
  }
  // How many flows have their data go over a link, or where none has, their acknowledgements. Mice, which have one segment in flight,
  // are not counted.
  flowsOver(l, ways) {
    const many = ways.filter((_, f) => this.flows[f].rwnd >= 2 * this.flows[f].mss);
    return [0, 1].map(sort => many.filter(both => both[sort].includes(l)).length).find(Boolean) || 0;
  }
  // The packets of a link's queue that is so many bandwidth-delay products.
  product(l, ways, {capacity} = this.links[l].queue) {
    const {rate, name} = this.links[l], packets = capacity.packets(rate, this.roundTrip(l, ways), this.greatestPacket(), this.flowsOver(l, ways));
    return within(this.ranges, 'capacity', packets, `the bandwidth-delay product of link ${name}, ${number(packets)} packets,`);
  }
  // Gives each newreno flow a window of 1.25 times what its way holds; answers lines of a comment that say so.
  boundWindows() {
    const bounded = this.flows.filter(flow => flow.variant === 'newreno'), ways = this.ways();
    if (!bounded.length) return [];
    this.flows.forEach((flow, f) => {
      if (flow.variant !== 'newreno') return;
      const there = ways[f][0], slowest = there.reduce((best, l) => this.links[l].rate < this.links[best].rate ? l : best);
      const {rate, queue} = this.links[slowest], room = queue.isProduct ? this.product(slowest, ways) : queue.capacity;
      flow.rwnd = this.boundedWindow(flow, rate, d3.sum(ways[f].flat(), l => this.links[l].delay), room);
      flow.note += ', a window of 1.25 x (BDP + queue)';
    });
    return ['Receivers\' windows of newreno flows are 1.25 x (bandwidth-delay product + queue), as no --rwnd was given: with an open',
      'window NewReno sends far more than the way holds in a long recovery, and times out again and again (docs/MODEL.md, 3).'];
  }
  boundedWindow(flow, rate, trip, room) {
    const part = BigInt(flow.mss + HEADERS) * BITS_NS, held = BigInt(rate) * BigInt(trip) + BigInt(room) * part;
    const up = (of, by) => Number((of + by - 1n) / by);
    return Math.min(Math.max(up(5n * held, 4n * part), up(held, part) + 2) * flow.mss, this.ranges.rwnd[1]);
  }

  // ---- the text

  text(end, head) {
    const ways = this.ways(), names = this.nodes.map(node => node.name), note = words => words ? `  # ${words}` : '';
    const products = this.links.map((link, l) => link.queue.isProduct ? this.product(l, ways) : 1);
    const lines = [...head.map(line => `# ${line}`), `sim ${end}`, '# Nodes.', ...this.nodes.map(node => `node ${node.name} ${node.kind}`),
      '# Links: name, from, to, rate in bit/s, delay in ns, queue.'];
    this.links.forEach((link, l) => lines.push(`link ${link.name} ${names[link.source]} ${names[link.to]} ${link.rate} ${link.delay} ` +
      link.queue.words(this.greatestPacket(), products[l]) + note(link.note)));
    lines.push('# Flows: name, sender, receiver, bytes of a segment, segments, start in ns, receiver\'s window in bytes, delay of ' +
      'acknowledgements in ns.');
    for (const flow of this.flows) {
      const plain = flow.variant === 'reno' && flow.first === 3, words = plain ? '' : ` ${flow.variant} iw${flow.first}`;
      lines.push(`flow ${flow.name} ${names[flow.sender]} ${names[flow.receiver]} ${flow.mss} ${flow.segments} ${flow.start} ${flow.rwnd} ` +
        `${flow.delack}${words}${note(flow.note)}`);
    }
    const routes = this.routes();
    if (routes.length) lines.push('# Routes: at this router, what is for this end goes over this link.');
    for (const [router, to, l] of routes) lines.push(`route ${names[router]} ${names[to]} ${this.links[l].name}`);
    return lines.map(line => `${line}\n`).join('');
  }
}
