'use strict';
// A picture of a panel, by itself: its SVG with the looks that the page's style gives it, and the names of its curves; or that as
// PNG, in twice the size.

const LOOKS_KEPT = ['fill', 'stroke', 'stroke-width', 'stroke-dasharray', 'opacity', 'font-family', 'font-size', 'font-weight', 'text-anchor',
  'visibility', 'display', 'paint-order'];
const LEGEND = 22, PNG_SCALE = 2;

function svgElement(name, facts, text) {
  const made = document.createElementNS('http://www.w3.org/2000/svg', name);
  for (const [key, value] of Object.entries(facts)) made.setAttribute(key, value);
  if (text) made.textContent = text;
  return made;
}
// Gives a copy the looks of what it is a copy of.
function keepLooks(from, to) {
  const style = getComputedStyle(from);
  for (const name of LOOKS_KEPT) to.style.setProperty(name, style.getPropertyValue(name));
  [...from.children].forEach((child, k) => keepLooks(child, to.children[k]));
}
// The ticked curves' names below a chart, each with its line.
function addLegend(copy, labels, wide, tall) {
  let x = 8;
  for (const label of labels) {
    const name = label.textContent.trim(), {borderBottomColor, borderBottomStyle} = getComputedStyle(label.querySelector('span'));
    const dash = {dashed: '6 3', dotted: '2 3', double: '8 2 2 2'}[borderBottomStyle] || 'none';
    copy.append(svgElement('line', {x1: x, x2: x + 22, y1: tall + 10, y2: tall + 10, stroke: borderBottomColor, 'stroke-width': 3, 'stroke-dasharray': dash}),
      svgElement('text', {x: x + 27, y: tall + 14, style: `font: 12px sans-serif; fill: ${getComputedStyle(label).color}`}, name));
    x += 42 + textWidth(name, '12px sans-serif');
    if (x > wide - 60) break;
  }
}
// The text of a panel's picture, of its size on the screen.
function pictureOf(svg, title) {
  const {width, height} = svg.getBoundingClientRect(), beside = svg.parentNode;
  const chart = beside.querySelector(':scope > .ticks') || PANELS[svg.id] && byId(PANELS[svg.id].of), paper = getComputedStyle(document.body).getPropertyValue('--paper');
  const copy = svg.cloneNode(true), room = chart ? LEGEND : 0;
  keepLooks(svg, copy);
  copy.querySelectorAll('.catch').forEach(element => element.remove());
  copy.removeAttribute('style');
  const outer = svgElement('svg', {xmlns: 'http://www.w3.org/2000/svg', width: Math.round(width), height: Math.round(height + room),
    viewBox: `0 0 ${width} ${height + room}`});
  outer.append(svgElement('title', {}, title), svgElement('rect', {width, height: height + room, fill: paper}));
  for (const [name, value] of Object.entries({x: 0, y: 0, width, height})) copy.setAttribute(name, value);
  outer.append(copy);
  const present = beside.querySelector(':scope > .present');
  if (present) {
    const at = present.getBoundingClientRect(), box = svg.getBoundingClientRect();
    outer.append(svgElement('rect', {x: at.x - box.x, y: at.y - box.y, width: at.width, height: at.height, fill: getComputedStyle(present).backgroundColor}));
  }
  if (chart) addLegend(outer, [...chart.querySelectorAll('label')].filter(label => label.querySelector('input').checked), width, height);
  return new XMLSerializer().serializeToString(outer);
}
async function pngOf(text) {
  const image = new Image(), place = URL.createObjectURL(new Blob([text], {type: 'image/svg+xml'}));
  try {
    image.src = place;
    await image.decode();
    const canvas = Object.assign(document.createElement('canvas'), {width: image.width * PNG_SCALE, height: image.height * PNG_SCALE});
    canvas.getContext('2d').drawImage(image, 0, 0, canvas.width, canvas.height);
    return await new Promise(done => canvas.toBlob(done, 'image/png'));
  } finally {
    URL.revokeObjectURL(place);
  }
}
