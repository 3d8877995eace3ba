// A net drawn in the page. Gates can be pointed at with the mouse and reached with the keyboard.

import { svg } from './dom.mjs';
import { CELL, HEADING, OUTPUT, PADDING, TITLE, layoutOf, middleOf } from './layout.mjs';
import { shade, textOn } from './shades.mjs';

// Wide trees are drawn smaller, down to this part of their size; then they scroll.
const LEAST_SCALE = 0.6;

const half = (number) => Math.floor(number / 2);

// Returns text around a middle height.
function text(kind, x, y, words, more = {}) {
  return svg('text', { class: kind, x, y, dy: '0.35em', text: words, ...more });
}

// Returns a box with round corners.
function box(kind, area, rx) {
  return svg('rect', { class: kind, x: area.x, y: area.y, width: area.width, height: area.height, rx });
}

// Returns the name of what a gate's side is wired to.
export function wireName(net, side) {
  return side.input !== undefined ? net.names[side.input] : `gate ${side.gate + 1}`;
}

// Returns an input: its box and name.
function inputElement(name, area, used) {
  const label = used ? name : `${name}, not used`;
  return svg('g', { class: 'net-input' }, svg('title', { text: label }), box(used ? 'input' : 'unused', area, 14),
    text('name', area.x + half(area.width), middleOf(area), name));
}

// Returns the digits of a gate's table, each of which can be pointed at.
function digitElements(net, gate, x, y, onpoint) {
  const { levels } = net;
  const digits = [];
  net.gates[gate].digits.forEach((digit, place) => {
    const [left, top] = [x + CELL * (place % levels), y + CELL * Math.floor(place / levels)];
    digits.push(svg('g', { class: 'digit-cell', onpointerenter: () => onpoint?.(gate, place) },
      svg('rect', { class: 'cell', x: left, y: top, width: CELL, height: CELL, fill: shade(digit, levels) }),
      text('digit', left + CELL / 2, top + CELL / 2, digit, { style: `fill:${textOn(digit, levels)}` })));
  });
  return digits;
}

// Returns the levels beside and above a gate's table.
function levelElements(levels, x, y) {
  const elements = [];
  for (let level = 0; level < levels; level += 1) {
    const along = CELL * level + CELL / 2;
    elements.push(text('level', x - HEADING / 2, y + along, level), text('level', x + along, y - HEADING / 2, level));
  }
  return elements;
}

// Returns a gate: its box, number, levels and digits.
function gateElement(net, gate, area, options) {
  const { changed = new Set(), fault = 0, onpoint, onleave } = options;
  const own = net.gates[gate];
  const sides = `${wireName(net, own.left)} and ${wireName(net, own.right)}`;
  const news = changed.has(gate + 1) ? ', new table' : fault === gate + 1 ? ', not possible here' : '';
  const [x, y] = [area.x + PADDING + HEADING, area.y + TITLE + HEADING];
  const kind = `net-gate${changed.has(gate + 1) ? ' changed' : ''}${fault === gate + 1 ? ' fault' : ''}`;
  const label = `gate ${gate + 1}: ${sides}, table ${Array.from(own.digits).join('')}${news}`;
  return svg('g', {
    class: kind, tabindex: onpoint ? 0 : undefined, role: 'img', 'aria-label': label, 'data-gate': gate + 1,
    onpointerenter: () => onpoint?.(gate, null), onpointerleave: () => onleave?.(), onfocus: () => onpoint?.(gate, null), onblur: () => onleave?.(),
  }, box('gate', area, 8), text('number', area.x + half(area.width), area.y + TITLE / 2, `gate ${gate + 1}`),
  levelElements(net.levels, x, y), digitElements(net, gate, x, y, onpoint));
}

// Returns a net's drawing as an element. Options: changed (a set of gate numbers from 1), fault (a gate number), onpoint(gate, digit), onleave().
export function treeElement(net, options = {}) {
  const layout = layoutOf(net);
  const { width, bottom: height, areas, unused } = layout;
  const last = areas.gates.at(-1);
  const [x, y] = [last.x + last.width, middleOf(last)];
  const label = `The tree: ${net.gates.length} gates over ${net.names.length} inputs`;
  const style = `min-width:${Math.round(width * LEAST_SCALE)}px`;
  return svg('svg', { class: 'tree', role: 'group', 'aria-label': label, viewBox: `0 0 ${width} ${height}`, width, height, style },
    layout.wires.flat().map((path) => svg('path', { class: 'wire', d: path })),
    svg('path', { class: 'wire', d: `M ${x} ${y} H ${x + OUTPUT / 2}` }),
    text('output', x + (OUTPUT * 3) / 4, y, 'ink'),
    net.names.map((name, input) => inputElement(name, areas.inputs[input], !unused.includes(input))),
    net.gates.map((_, gate) => gateElement(net, gate, areas.gates[gate], options)));
}
