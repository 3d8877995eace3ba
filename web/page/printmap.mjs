// The map for paper: the same cells and headers as on the screen, drawn as SVG when the page is printed.

import { clear, el, svg } from './dom.mjs';
import { mapOf } from './geometry.mjs';
import { shade, signOf, textOn } from './shades.mjs';

const CELL = 20;
const HEADER = 16;
const LETTER = 7.5;

// Returns the header of an input along an axis: a box and a digit for every run of equal levels. `place` turns a run into a box.
function runs(doc, total, run, place) {
  const elements = [];
  for (let at = 0; at < total; at += run) {
    const level = Math.floor(at / run) % doc.m;
    const { x, y, width, height } = place(at * CELL, run * CELL);
    elements.push(svg('rect', { x, y, width, height, class: level % 2 ? 'odd' : 'even' }), text('level', x + width / 2, y + height / 2, level));
  }
  return elements;
}

// Returns text around a middle height.
function text(kind, x, y, words, more = {}) {
  return svg('text', { class: kind, x, y, dy: '0.35em', text: words, ...more });
}

// Returns the map of a document as an SVG element.
export function printedMap(doc) {
  const map = mapOf(doc);
  const { m, names, across, down } = doc;
  const wide = (input) => Math.max(HEADER, names[input].length * LETTER + 8);
  const columns = down.map(wide);
  const left = Math.max(columns.reduce((sum, width) => sum + width, 0), ...across.map(wide));
  const top = (across.length + 1) * HEADER;
  const starts = columns.map((_, k) => left - columns.slice(k).reduce((sum, width) => sum + width, 0));
  const heads = [
    ...across.flatMap((input, k) => [text('name', left - 5, (k + 0.5) * HEADER, names[input], { style: 'text-anchor:end' }),
      ...runs(doc, map.columns, m ** (across.length - 1 - k), (at, length) => ({ x: left + at, y: k * HEADER, width: length, height: HEADER }))]),
    ...down.flatMap((input, k) => [text('name', starts[k] + columns[k] / 2, top - HEADER / 2, names[input]),
      ...runs(doc, map.rows, m ** (down.length - 1 - k), (at, length) => ({ x: starts[k], y: top + at, width: columns[k], height: length }))]),
  ];
  const cells = Array.from(doc.cells, (ink, index) => {
    const [x, y] = [left + map.column(index) * CELL, top + map.row(index) * CELL];
    return [svg('rect', { class: 'cell', x, y, width: CELL, height: CELL, fill: shade(ink, m) }),
      text('digit', x + CELL / 2, y + CELL / 2, signOf(ink, m), { style: `fill:${textOn(ink, m)}` })];
  });
  const [width, height] = [left + map.columns * CELL + 1, top + map.rows * CELL + 1];
  return svg('svg', { class: 'printed-map', role: 'img', 'aria-label': 'The table', viewBox: `0 0 ${width} ${height}`, width, height }, heads, cells.flat());
}

// Returns a line about the table.
export function factsOf(doc) {
  const open = doc.cells.reduce((count, ink) => count + (ink === doc.m ? 1 : 0), 0);
  const words = `${doc.m} levels; inputs ${doc.names.join(', ')}; ${doc.cells.length.toLocaleString('en')} cells`;
  return open > 0 ? `${words}, ${open.toLocaleString('en')} open` : words;
}

// Fills the element when the page is printed, and empties it afterwards.
export function mount(root, model) {
  const show = () => clear(root).append(el('p', { class: 'facts', text: factsOf(model.doc) }), printedMap(model.doc));
  addEventListener('beforeprint', show);
  addEventListener('afterprint', () => clear(root));
  matchMedia('print').addEventListener('change', ({ matches }) => (matches ? show() : clear(root)));
}
