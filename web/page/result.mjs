// The result of the table: its tree, the number of trees and a pager through them, or why there is none.

import { decidedCells, groupsOf, reachingCells } from './decided.mjs';
import { button, clear, el, segments } from './dom.mjs';
import { mount as mountOpen } from './open.mjs';
import { mount as mountPin } from './pin.mjs';
import { mount as mountRefused } from './refused.mjs';
import { shade, textOn } from './shades.mjs';
import { treeElement, wireName } from './tree.mjs';

const count = (number, one) => `${number.toLocaleString('en')} ${one}${number === 1 ? '' : 's'}`;

const HINT = 'Point at a gate, or reach it with Tab, to see its table and the cells it decides.';

const KINDS = [
  ['settled', 'Settled', 'The tree that fixed rules choose: equal tables give equal trees'],
  ['shallow', 'Shallow', 'A tree of fewest layers'],
  ['number', 'By number', 'Page through all trees'],
];

// Returns the headline and the line below it.
export function headline(result, doc) {
  const { state, net, layers, fewest } = result;
  if (state === 'working') return ['Working', 'Marking every group of inputs.'];
  if (state === 'open') return [`${count(result.open.length, 'cell')} open`, 'A tree needs a full table.'];
  if (state === 'none') return ['No tree', 'No tree of two-input gates has this table.'];
  if (state === 'stuck') return ['Not with this wiring', `The pinned wiring cannot have this table. Other wirings can: ${count(result.count, 'tree')}.`];
  const unused = net.unused().map((input) => doc.names[input]);
  const idle = unused.length > 0 ? ` Not needed: ${unused.join(', ')}.` : '';
  const least = fewest < layers ? ` The shallowest tree has ${fewest}.` : '';
  return [count(result.count, 'tree'), `${count(net.gates.length, 'gate')} in ${count(layers, 'layer')}.${least}${idle}`];
}

// Returns a number of cells among all of them.
const share = (some, all) => (some === all ? `${count(all, 'cell')}, all of them` : `${count(some, 'cell')} of ${all.toLocaleString('en')}`);

// Returns what is said of a gate that is pointed at.
function gateWords(net, gate, cells, digit) {
  const own = net.gates[gate];
  const [left, right] = [wireName(net, own.left), wireName(net, own.right)];
  if (digit === null) {
    const below = net.names.filter((_, input) => (groupsOf(net)[gate] >> input) & 1);
    const inputs = below.length > 2 ? ` (inputs ${below.join(', ')})` : '';
    return `Gate ${gate + 1} joins ${left} and ${right}${inputs}. It decides ${share(cells.length, net.levels ** net.names.length)}.`;
  }
  const [a, b] = [Math.floor(digit / net.levels), digit % net.levels];
  const here = `${count(cells.length, 'cell')} ${cells.length === 1 ? 'gets' : 'get'} here`;
  return `Gate ${gate + 1}: ${left} at ${a} and ${right} at ${b} give ${own.digits[digit]}. ${here}.`;
}

// Returns a gate's table, large: left's levels down, right's across. One digit can be marked.
function gateTable(net, gate, marked) {
  const { levels } = net;
  const range = Array.from({ length: levels }, (_, level) => level);
  const cell = (place) => {
    const digit = net.gates[gate].digits[place];
    return el('td', { text: digit, class: place === marked ? 'here' : undefined, style: `background:${shade(digit, levels)};color:${textOn(digit, levels)}` });
  };
  const { left, right } = net.gates[gate];
  return el('table', { class: 'gate-table' }, el('caption', { text: `${wireName(net, left)} down, ${wireName(net, right)} across` }),
    el('tr', {}, el('td'), range.map((level) => el('th', { scope: 'col', text: level }))),
    range.map((row) => el('tr', {}, el('th', { scope: 'row', text: row }), range.map((column) => cell(row * levels + column)))));
}

// Returns what happens when a gate is pointed at: its cells are marked in the map, its words shown below the tree.
function pointing(model, lib, detail) {
  const known = new Map();
  return {
    onpoint: (gate, digit) => {
      const { net } = model;
      if (!net) return;
      const key = `${net.sheet} ${gate} ${digit}`;
      if (known.size > 200) known.clear();
      if (!known.has(key)) known.set(key, digit === null ? decidedCells(lib, net, gate) : reachingCells(lib, net, gate, digit));
      const words = gateWords(net, gate, known.get(key), digit);
      clear(detail).append(gateTable(net, gate, digit), el('p', { text: words }));
      model.highlight(known.get(key), words);
      if (digit === null) model.say(words);
    },
    onleave: () => {
      clear(detail).append(el('p', { text: HINT }));
      model.highlight(null);
    },
  };
}

// Mounts the choice between settled, shallow and any number, with the pager.
function mountChoice(root, model) {
  const go = (number) => {
    const most = model.result.count - 1;
    if (Number.isInteger(number)) model.choose(Math.max(0, Math.min(most, number)));
    else draw();
  };
  const current = () => (typeof model.choice === 'number' ? model.choice : 0);
  const kinds = segments('Which tree', KINDS, 'settled', (kind) => model.choose(kind === 'number' ? 0 : kind));
  const number = el('input', { type: 'number', min: 0, value: 0, 'aria-label': 'Number of the tree', onchange: () => go(number.valueAsNumber) });
  const back = button('‹', () => go(current() - 1), { class: 'small', 'aria-label': 'Previous tree' });
  const next = button('›', () => go(current() + 1), { class: 'small', 'aria-label': 'Next tree' });
  const total = el('span', { class: 'note' });
  const pager = el('div', { class: 'row tight pager', role: 'group', 'aria-label': 'All trees' }, back, number, next, total);
  root.append(kinds.element, pager);
  const draw = () => {
    const { result, pinned, choice } = model;
    root.hidden = pinned !== null || result.count === 0;
    const most = result.count - 1;
    const at = current() <= most ? current() : 0;
    kinds.choose(typeof choice === 'number' ? 'number' : choice);
    pager.hidden = typeof choice !== 'number';
    number.max = most;
    number.value = at;
    total.textContent = most === 0 ? 'the only tree' : `of 0 to ${most.toLocaleString('en')}`;
    back.disabled = at <= 0;
    next.disabled = at >= most;
  };
  return draw;
}

// Mounts the panel.
export function mount(root, model, lib) {
  const title = el('h2', { class: 'headline', tabindex: -1 });
  const facts = el('p', { class: 'facts' });
  const bar = el('progress', { max: 1, 'aria-label': 'Marking', hidden: true });
  const choice = el('div', { class: 'row choice' });
  const pin = el('div', { class: 'pin' });
  const tree = el('div', { class: 'scroll tree-box' });
  const detail = el('div', { class: 'detail' });
  const refused = el('div', { class: 'reasons' });
  const open = el('div', { class: 'reasons' });
  root.append(el('div', { class: 'head', role: 'status' }, title, facts), bar, choice, pin, tree, detail, refused, open);
  const drawChoice = mountChoice(choice, model);
  mountPin(pin, model, lib);
  mountRefused(refused, model, lib);
  mountOpen(open, model, lib);
  const point = pointing(model, lib, detail);
  let shown = null;
  const draw = () => {
    const { result, doc } = model;
    const [headlineText, factsText] = headline(result, doc);
    title.textContent = headlineText;
    title.className = `headline ${result.state}`;
    facts.textContent = factsText;
    bar.hidden = result.state !== 'working';
    bar.value = result.progress ?? 0;
    drawChoice();
    const drawn = result.net ?? (result.state === 'stuck' || result.keep?.refusal ? result.keep?.wiring : null) ?? null;
    tree.classList.toggle('old', result.state === 'working');
    tree.hidden = drawn === null;
    detail.hidden = result.net === null;
    const options = { changed: new Set(result.keep?.changed ?? []), fault: result.keep?.refusal?.place ?? 0, ...point };
    const key = `${drawn?.sheet}|${[...options.changed]}|${options.fault}`;
    if (key === shown) return;
    shown = key;
    clear(detail).append(el('p', { text: HINT }));
    clear(tree);
    if (drawn) tree.append(treeElement(drawn, options));
  };
  model.on('result', draw);
  model.on('choice', draw);
  draw();
}
