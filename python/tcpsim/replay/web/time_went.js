'use strict';
// The panel "where the time went": the critical path of a flow as a bar, its parts in the order of time, and below it each part, the
// greatest first. A click on either goes to the event with which that begins.

const FINEST = 400;                     // pieces of a bar that are told apart
const MOST_LOOKED_AT = 8;               // flows among which that is found which is shown first
// The look of a part: a wait has the colour of the flow behind whose packets it is.
const PART_LOOKS = {[SERIALIZATION]: 'sends', [PROPAGATION]: 'flies', [TIMER]: 'timer', [DELAY]: 'delays'};

class TimeWent {
  // `place` is an empty element; `go` is given the event to go to, and what is to be said of it.
  constructor(place, record, go) {
    Object.assign(this, {place, record, facts: record.facts, go, paths: new Map()});
    this.chosen = this.mostWaiting();
    const make = (name, facts = {}, ...parts) => {
      const made = Object.assign(document.createElement(name), facts);
      made.append(...parts);
      return made;
    };
    this.make = make;
    this.select = make('select', {ariaLabel: 'the flow whose time is shown', title: 'the flow whose time is shown'}, ...this.facts.flows.map(({name}, f) => new Option(name, f)));
    this.select.addEventListener('change', () => this.choose(+this.select.value));
    this.said = make('span', {className: 'said'});
    this.bar = make('div', {className: 'gantt'});
    this.parts = make('div', {className: 'parts'});
    this.present = make('div', {className: 'now'});
    place.classList.add('went');
    place.replaceChildren(make('p', {}, make('label', {}, 'where the time went of ', this.select), ' ', this.said), make('div', {className: 'line'}, this.bar, this.present), this.parts);
    // One who shows the record before goes with its listener.
    place.onclick = ({target}) => {
      const at = target.closest('[data-event]');
      if (at && place.contains(at)) this.go(+at.dataset.event, at.dataset.said || at.title);
    };
    this.choose(this.chosen);
  }
  path(f) {
    if (!this.paths.has(f)) this.paths.set(f, new CriticalPath(this.record, f));
    return this.paths.get(f);
  }
  // The flow that waits longest behind the packets of others, of the first few.
  mostWaiting() {
    const behindOthers = f => d3.sum(this.path(f).spans, ({part, begin, end}) => part.kind === QUEUE && part.behind !== this.facts.flows[f].name ? end - begin : 0);
    const waits = this.facts.flows.slice(0, MOST_LOOKED_AT).map((_, f) => behindOthers(f));
    return Math.max(0, waits.indexOf(d3.max(waits)));
  }
  choose(f) {
    this.chosen = f;
    this.select.value = f;
    const path = this.path(f), {name} = this.facts.flows[f], {make} = this;
    const parts = path.begin === null ? [] : path.parts(), share = ns => `${(100 * ns / path.time).toFixed(1)} %`;
    this.said.textContent = this.sentence(path, parts, share);
    this.pieces = path.begin === null ? [] : path.pieces(part => this.lookOf(part), path.time / FINEST);
    const described = ({part, ns, event, loss}) => `${partText(part, name)}: ${waitText(ns)}, first from event ${number(event)} on` +
      (loss ? `; ${packetName(this.facts, loss)} was dropped at ${this.facts.links[loss.link].name} (${loss.reason}), event ${number(loss.event)}` : '');
    this.bar.replaceChildren(...this.pieces.map(({look, begin, end, event}) => {
      const piece = make('i', {title: `${this.wordsOf(look)}: ${waitText(end - begin)} from ${seconds(begin)} on`});
      Object.assign(piece.dataset, {event, look});
      this.paint(piece, look);
      piece.style.width = `${100 * (end - begin) / path.time}%`;
      return piece;
    }));
    this.bar.setAttribute('role', 'img');
    this.bar.ariaLabel = `the parts of ${name}'s time in their order`;
    this.parts.replaceChildren(...parts.map(one => {
      const swatch = make('i'), button = make('button', {title: `goes there: ${described(one)}`}, swatch, make('b', {textContent: waitText(one.ns)}),
        make('span', {textContent: one.ns ? share(one.ns) : ''}), make('span', {textContent: partText(one.part, name)}));
      this.paint(swatch, this.lookOf(one.part));
      Object.assign(button.dataset, {event: one.event, ns: one.ns, said: described(one), part: partText(one.part, name)});
      return button;
    }));
    this.mark(this.time);
  }
  // How long it took, and of that the greatest part.
  sentence(path, parts, share) {
    const {name, start} = this.facts.flows[path.f];
    if (path.last === null && this.facts.base.flows[path.f].since === null) return `${name} starts at ${seconds(start)}, behind the last event`;
    if (path.begin === null) return 'these lines begin after its start: a page of the whole run tells it';
    if (!path.acknowledged) return `nothing is acknowledged of ${name} up to the last event`;
    const whole = path.isWhole ? '' : ` up to byte ${number(path.acknowledged)} of ${number(path.total)}`;
    return `${waitText(path.time)}${whole}: ${share(parts[0].ns)} of it ${parts[0].part.kind === QUEUE ? 'in the ' : ''}${partText(parts[0].part, name)}`;
  }
  lookOf({kind, behind}) { return PART_LOOKS[kind] || `of-${this.facts.flows.findIndex(({name}) => name === behind)}`; }
  wordsOf(look) {
    const kind = Object.keys(PART_LOOKS).find(one => PART_LOOKS[one] === look);
    return kind || `in queues, behind packets of ${this.facts.flows[look.slice(3)].name}`;
  }
  paint(element, look) {
    element.className = look.startsWith('of-') ? 'waits' : look;
    if (look.startsWith('of-')) element.style.background = colourOf(+look.slice(3));
  }
  // On a slide a part that the lower edge would cut is not shown.
  layParts() {
    const {bottom} = this.place.getBoundingClientRect();
    for (const part of this.parts.children) part.style.visibility = isSlide() && part.getBoundingClientRect().bottom > bottom ? 'hidden' : '';
  }
  // The next piece of the bar that begins after the present moment, or the last one before it.
  next(way, event) {
    const found = this.pieces.filter(piece => way * (piece.event - event) > 0);
    const piece = way > 0 ? found[0] : found[found.length - 1];
    if (piece) this.go(piece.event, `${this.wordsOf(piece.look)}: ${waitText(piece.end - piece.begin)}`);
    return Boolean(piece);
  }
  mark(time) {
    this.time = time;
    const path = this.path(this.chosen), part = (time - path.begin) / path.time, seen = path.begin !== null && part >= 0 && part <= 1;
    this.present.hidden = !seen;
    if (seen) this.present.style.left = `${100 * part}%`;
  }
  // Where in the net the path is at a moment.
  at(time) { return this.path(this.chosen).at(time); }
}
