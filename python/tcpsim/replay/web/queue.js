'use strict';
// A queue beside its link's beginning: squares for the packets at its head and its tail, the head next to the node; below
// them a bar of its capacity, filled in the flows' colours; how many wait of how many, and how long the last of them waits.

const OF_THE_HEAD = 0.4;                // this part of the squares is the head's where not all have room

// Nanoseconds as words of three digits.
function waitText(ns) {
  const [scale, unit] = [[1e9, 's'], [1e6, 'ms'], [1e3, 'µs']].find(([least]) => ns >= least) || [1, 'ns'];
  return `${+(ns / scale).toPrecision(3)} ${unit}`;
}
function countText(length, limit, ns) {
  return `${number(length)}/${number(limit)}${length ? ` ${waitText(ns)}` : ''}`;
}

class QueueView {
  // `line` has where the queue stands: its corner, its sign, how many squares have room (none of a stub).
  constructor(group, record, l, line, used, show, sizes) {
    const {box, bar} = sizes;
    Object.assign(this, {record, l, line, link: record.facts.links[l], boxes: [], bars: [], sums: [0], head: -1, tail: -1, used, sizes});
    const [x, y] = line.queue, queue = d3.select(group).append('g').attr('class', 'queue').attr('data-link', l)
      .attr('data-limit', this.link.limit).attr('data-most', line.most).attr('transform', `translate(${x},${y})`);
    queue.append('title').text(`the queue of ${this.link.name}, at most ${number(this.link.limit)} packets`);
    // A queue with a place for each square has a bar as long as its squares.
    this.wide = Math.max(0, box.step * Math.min(line.most, this.link.limit) - 1);
    this.frame = queue.append('rect').attr('class', 'capacity').attr('x', line.sign > 0 ? 0 : -this.wide).attr('y', bar.at)
      .attr('width', this.wide).attr('height', bar.tall).node();
    // Beside the squares, or above those of the link to the right and below those of the other.
    this.apart = sizes.counts === 'apart' && line.most > 0;
    this.text = queue.append('text').attr('class', 'count')
      .attr('y', !this.apart ? box.tall - 1.8 : line.up ? -3 : bar.at + bar.tall + LINE_TALL)
      .attr('text-anchor', line.sign > 0 ? 'start' : 'end').text('-').node();
    this.gap = queue.append('text').attr('class', 'gap').attr('y', box.tall - 3).text('\u2026').attr('display', 'none').node();
    this.group = queue.node();
    queue.attr('tabindex', used ? 0 : null).attr('role', 'button').attr('aria-label', `the queue of ${this.link.name}`);
    queue.on('click', () => show({link: l})).on('keydown', () => { if (d3.event.key === 'Enter') show({link: l}); });
  }
  // Another run takes this one's place.
  replace(record) {
    Object.assign(this, {record, link: record.facts.links[this.l], sums: [0], head: -1, tail: -1});
    for (const box of this.boxes) box.removeAttribute('data-packet');
  }
  // Where the k-th square stands, or what is `wide`, from the queue's corner.
  at(k, wide = this.sizes.box.wide) { return this.line.sign * this.sizes.box.step * k - (this.line.sign > 0 ? 0 : wide); }

  // The bytes that entered the queue before an entry.
  bytesBefore(entry) {
    const {record, l, sums} = this, track = record.tracks[l];
    for (let k = sums.length; k <= entry; k++) sums.push(sums[k - 1] + track.size(k - 1));
    return sums[entry];
  }
  draw() {
    const now = this.record.link(this.l);
    if (this.head === now.head && this.tail === now.tail) return;
    this.head = now.head; this.tail = now.tail;
    const {most} = this.line, all = now.length <= most, heads = all ? now.length : Math.ceil(OF_THE_HEAD * (most - 1));
    const entries = d3.range(all ? now.length : most).map(k => k < heads ? now.head + k : k === heads ? -1 : now.tail - most + k);
    this.entries = most ? entries : [];
    this.drawBoxes(this.entries);
    this.drawBar(now);
    const wait = 8e9 * (this.bytesBefore(now.tail) - this.bytesBefore(now.head)) / this.link.rate;
    Object.assign(this.group.dataset, {length: now.length, heads, wait: Math.round(wait)});
    this.text.firstChild.data = !this.line.most ? number(now.length) : countText(now.length, this.link.limit, wait);
    this.text.setAttribute('x', this.apart ? 0 : this.line.sign * (most ? this.wide + 5 : 2));
    this.text.setAttribute('class', now.length ? 'count' : this.used && most ? 'count idle' : 'count idle never');
    this.frame.setAttribute('class', this.used || now.length ? 'capacity' : 'capacity never');
  }
  // The squares of these entries; -1 is the gap between the head's and the tail's.
  drawBoxes(entries) {
    const words = [], {record, l} = this;
    this.gap.setAttribute('display', 'none');
    for (let k = 0; k < Math.max(entries.length, this.boxes.length); k++) {
      const box = this.boxAt(k);
      if (k >= entries.length || entries[k] < 0) {
        if (box.hasAttribute('data-packet')) { box.setAttribute('display', 'none'); box.removeAttribute('data-packet'); }
        if (entries[k] < 0) { this.gap.removeAttribute('display'); this.gap.setAttribute('x', this.at(k) + this.sizes.box.wide / 2); }
        continue;
      }
      const packet = record.packet(l, entries[k]), word = waitingWord(packet);
      words.push(word);
      if (box.dataset.packet === word) continue;
      const look = `box ${packet.sort === DATA ? 'data' : 'ack'}${packet.again ? ' again' : ''}`;
      if (box.flow !== packet.flow) {
        box.flow = packet.flow;
        box.firstChild.setAttribute('fill', colourOf(packet.flow));
        box.lastChild.textContent = markOf(record.facts, packet.flow);
        box.lastChild.style.fill = inkOf(packet.flow);
      }
      if (box.getAttribute('class') !== look) box.setAttribute('class', look);
      if (box.hasAttribute('display')) box.removeAttribute('display');
      box.dataset.packet = word;
    }
    this.group.dataset.shown = words.join(',');
  }
  // The square of an entry; of one that has none, the queue.
  elementOf(entry) { return this.boxes[(this.entries || []).indexOf(entry)] || this.group; }
  // The k-th square, with the mark of its packet's flow.
  boxAt(k) {
    const {wide, tall} = this.sizes.box;
    while (this.boxes.length <= k) {
      const box = d3.select(this.group).append('g').attr('class', 'box').attr('display', 'none')
        .attr('transform', `translate(${this.at(this.boxes.length)},0)`);
      box.append('rect').attr('width', wide).attr('height', tall);
      box.append('text').attr('x', wide / 2).attr('y', tall - 3).text('');
      this.boxes.push(box.node());
    }
    return this.boxes[k];
  }
  // The bar: as much of its capacity as is taken, each column in the colour of the flow whose packet waits there, the last of
  // those that share it, so that the tail is seen.
  drawBar(now) {
    const flow = this.record.tracks[this.l].flow, filled = now.length ? Math.max(1, this.wide * now.length / this.link.limit) : 0;
    const columns = Math.min(now.length, Math.ceil(filled)), runs = new Map(), {bar: {at, tall}} = this.sizes;
    for (let k = 0, begin = 0; k < columns && this.wide; k++) {
      const lastOf = column => flow[now.head + Math.floor((column + 1) * now.length / columns) - 1];
      const its = lastOf(k), next = k + 1 < columns ? lastOf(k + 1) : -1;
      if (next === its) continue;
      const from = begin * filled / columns, to = (k + 1) * filled / columns, x = this.line.sign > 0 ? from : -to;
      runs.set(its, `${runs.get(its) || ''}M${x.toFixed(2)} ${at}h${(to - from).toFixed(2)}v${tall}h${(from - to).toFixed(2)}z`);
      begin = k + 1;
    }
    for (const [f, way] of runs) {
      if (!this.bars[f])
        this.bars[f] = d3.select(this.group).insert('path', '.count').attr('class', 'bar').attr('data-flow', f)
          .attr('fill', colourOf(f)).node();
      this.bars[f].setAttribute('d', way);
    }
    this.bars.forEach((bar, f) => { if (!runs.has(f)) bar.setAttribute('d', ''); });
  }
  // Where what is dropped begins to fall: what found no room at the tail, all else at the head.
  mouth(reason) {
    const shown = Math.min(this.record.link(this.l).length, this.line.most);
    return this.line.queue[0] + this.at(reason === 'full' ? shown : 0, 0) + this.line.sign * this.sizes.box.wide / 2;
  }
}
