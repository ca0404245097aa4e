'use strict';
// Borders between panes: a pointer or the arrow keys move them, and two presses put them back. The browser keeps where they are.

// Of each border: the property of simulator.css that it moves, in percent of what is around both panes, whether it goes up and down,
// from where to where, and its name.
const BORDERS = {
  'border-left': {of: 'columns', property: '--left', usual: 32, least: 18, most: 60, name: 'the border between text and run'},
  'border-lesson': {of: 'scenario-side', property: '--lesson', upright: true, usual: 44, least: 10, most: 80, name: 'the border between lesson and scenario'},
  'border-net': {of: 'run-side', property: '--net', upright: true, usual: 38, least: 15, most: 75, name: 'the border between net and panels'},
};
const KEPT_PANES = 'tcpsim panes', STEP_OF_BORDER = 2;

class Panes {
  // `told` is called where a border has moved.
  constructor(told) {
    Object.assign(this, {told, kept: {}});
    try { this.kept = JSON.parse(localStorage.getItem(KEPT_PANES)) || {}; } catch { /* no right to it */ }
    for (const [id, facts] of Object.entries(BORDERS)) this.make(byId(id), facts);
  }
  make(border, facts) {
    const {of, upright, usual, least, most, name} = facts, set = value => this.set(border, facts, value), now = () => +border.getAttribute('aria-valuenow');
    const facing = {role: 'separator', tabindex: 0, title: `${name}: drag it, or move it by the arrow keys; two presses put it back`, 'aria-label': name,
      'aria-orientation': upright ? 'horizontal' : 'vertical', 'aria-valuemin': least, 'aria-valuemax': most};
    for (const [key, value] of Object.entries(facing)) border.setAttribute(key, value);
    border.addEventListener('pointerdown', event => { border.setPointerCapture(event.pointerId); event.preventDefault(); border.focus(); });
    border.addEventListener('pointermove', event => {
      if (!border.hasPointerCapture(event.pointerId)) return;
      const {left, top, width, height} = byId(of).getBoundingClientRect();
      set(upright ? 100 * (event.clientY - top) / height : 100 * (event.clientX - left) / width);
    });
    border.addEventListener('dblclick', () => set(usual));
    border.addEventListener('keydown', event => {
      const by = {ArrowLeft: -1, ArrowUp: -1, ArrowRight: 1, ArrowDown: 1}[event.key];
      if (!by) return;
      set(now() + STEP_OF_BORDER * by);
      event.preventDefault();
      event.stopPropagation();
    });
    set(this.kept[facts.property] || usual);
  }
  set(border, {of, property, least, most}, wanted) {
    const value = Math.round(10 * Math.min(most, Math.max(least, wanted))) / 10;
    border.setAttribute('aria-valuenow', value);
    byId(of).style.setProperty(property, `${value}%`);
    this.kept[property] = value;
    try { localStorage.setItem(KEPT_PANES, JSON.stringify(this.kept)); } catch { /* no room, or no right to it */ }
    this.told();
  }
}
