// What is open in a table, and the fillings that have a tree when there are few.

import { wordsOf } from './document.mjs';
import { button, clear, el } from './dom.mjs';
import { fewItems, focusResult } from './refused.mjs';
import { fillingCount, fillings } from './trials.mjs';
import { slices } from './work.mjs';

// More fillings than this are not tried.
const MOST_FILLINGS = 4096;
const MOST_SHOWN = 200;

// Returns an open cell of the list; pointing at it marks it in the map.
function openItem(model, index) {
  const words = wordsOf(model.doc, index);
  const point = () => model.highlight([index], `${words} is open`);
  const leave = () => model.highlight(null);
  return el('li', { text: words, class: 'mono', tabindex: 0, onpointerenter: point, onpointerleave: leave, onfocus: point, onblur: leave });
}

// Returns the button that fills all open cells.
function fillButton(model, open, inks) {
  const { doc } = model;
  const fill = () => {
    const cells = doc.cells.slice();
    open.forEach((index, k) => {
      cells[index] = inks[k];
    });
    model.setCells(cells, 'filled');
    model.say('Filled the open cells.');
    focusResult();
  };
  const label = open.map((index, k) => `${wordsOf(doc, index)} gets ${inks[k]}`).join(', ');
  const point = () => model.highlight(open, label);
  const leave = () => model.highlight(null);
  return button(inks.join(' '), fill, {
    class: 'small change', title: label, 'aria-label': `Fill: ${label}`, onpointerenter: point, onpointerleave: leave, onfocus: point, onblur: leave,
  });
}

// Tries every filling in the background, and shows those that have a tree.
function drawFillings(root, model, lib, open) {
  const { doc } = model;
  const state = el('p', { class: 'note', role: 'status' });
  const list = el('div', { class: 'changes' });
  root.append(el('h3', { text: 'Fillings with a tree' }), state, list);
  if (fillingCount(doc, open) > MOST_FILLINGS) {
    state.textContent = `There are ${doc.m} to the power ${open.length} fillings, too many to try. Fill some cells, and the others are tried.`;
    return () => {};
  }
  let found = 0;
  const show = ({ tried, of, found: inks }) => {
    if (inks && found < MOST_SHOWN) list.append(fillButton(model, open, inks));
    if (inks) found += 1;
    if (inks || tried === of || tried % 64 === 0) state.textContent = fillingsWords(found, tried, of);
  };
  function* search() {
    for (const turn of fillings(lib, doc, open)) {
      show(turn);
      yield;
    }
  }
  return slices(search());
}

// Returns how the search for fillings goes.
export function fillingsWords(found, tried, of) {
  const some = `${found.toLocaleString('en')} of ${(tried < of ? tried : of).toLocaleString('en')} fillings ${found === 1 ? 'has' : 'have'} a tree`;
  if (tried < of) return `${some}, ${(of - tried).toLocaleString('en')} still to try.`;
  if (found === 0) return `None of the ${of.toLocaleString('en')} fillings has a tree.`;
  return `${some}. Click one to take it; the inks are in the order of the list above.`;
}

// Mounts the panel.
export function mount(root, model, lib) {
  let stop = () => {};
  let shown = null;
  const draw = () => {
    const { result, doc } = model;
    const current = result.state === 'open' && model.isCurrent(result);
    if (current && shown === doc.cells) return;
    stop();
    shown = current ? doc.cells : null;
    clear(root).hidden = !current;
    if (!current) return;
    root.append(el('h3', { text: 'Open cells' }), ...fewItems(result.open, (index) => openItem(model, index), 12));
    stop = drawFillings(root, model, lib, result.open);
  };
  model.on('result', draw);
  model.on('doc', draw);
  draw();
}
