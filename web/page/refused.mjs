// Why a table has no tree, and what would help: the inputs at fault, the ways to split them, more levels, and changes of one cell.

import { withLevels, wordsOf } from './document.mjs';
import { button, clear, el } from './dom.mjs';
import { listed } from './pin.mjs';
import { moreLevels, singleChanges, splits } from './trials.mjs';
import { slices } from './work.mjs';

// How many splits and changes are shown before `Show all`.
const FEW = 8;
const MOST_CHANGES = 200;

const namesOf = (doc, group) => doc.names.filter((_, input) => (group >> input) & 1);

// Returns a list of its first few items, made by `item`, with a button that adds the others.
export function fewItems(things, item, few = FEW) {
  const list = el('ul', { class: 'plain' }, things.slice(0, few).map(item));
  if (things.length <= few) return [list];
  const more = button(`Show all ${things.length.toLocaleString('en')}`, () => {
    list.append(...things.slice(few).map(item));
    more.remove();
  }, { class: 'small' });
  return [list, more];
}

// Returns one way to split the group, as a row of the table.
function splitRow(doc, { parts, classes }) {
  const part = (k) => el('span', { class: classes[k] > doc.m ? 'part too-many' : 'part' }, el('b', { text: namesOf(doc, parts[k]).join(' ') }),
    ` ${classes[k]} level${classes[k] === 1 ? '' : 's'}`);
  return el('li', { class: 'split' }, part(0), part(1));
}

// Shows the ways to split the group at fault.
function drawSplits(root, model, lib, group) {
  const { doc } = model;
  return slices(splits(lib, doc, group), (ways) => {
    root.append(...fewItems(ways, (way) => splitRow(doc, way)));
  });
}

// Offers more levels, if the library makes a tree of the same rule with them.
function drawLevels(root, model, lib) {
  const { doc } = model;
  return slices(moreLevels(lib, doc), (m) => {
    if (m === null) return;
    const use = () => {
      model.replace(withLevels(doc, m), 'levels');
      focusResult();
    };
    root.append(el('h3', { text: 'More levels' }), el('p', { class: 'row' }, button(`Use ${m} levels`, use),
      el('span', { class: 'note', text: `The same rule with ${m} levels has a tree; an input above ${doc.m - 1} then acts as ${doc.m - 1}.` })));
  });
}

// Puts the focus on the headline, after the button that had it is gone.
export function focusResult() {
  document.querySelector('.headline')?.focus();
}

// Returns the button that makes one change.
function changeButton(model, { index, ink }) {
  const { doc } = model;
  const words = `${wordsOf(doc, index)}: ${doc.cells[index]} → ${ink}`;
  const apply = () => {
    model.paint([index], ink);
    model.say(`Changed ${wordsOf(doc, index)} to ink ${ink}.`);
    focusResult();
  };
  const point = () => model.highlight([index], words);
  return button(words, apply, {
    class: 'small change', 'aria-label': `Change ${wordsOf(doc, index)} from ${doc.cells[index]} to ${ink}`,
    onpointerenter: point, onfocus: point, onpointerleave: () => model.highlight(null), onblur: () => model.highlight(null),
  });
}

// Tries all changes of one cell in the background, and shows those that give a tree as they are found.
function drawChanges(root, model, lib) {
  const state = el('p', { class: 'note' });
  const list = el('div', { class: 'changes' });
  root.append(el('h3', { text: 'Change one cell' }), state, list);
  let found = 0;
  const show = ({ tried, of, found: change }) => {
    if (change && found < MOST_CHANGES) list.append(changeButton(model, change));
    if (change) found += 1;
    if (change || tried === of || tried % 64 === 0) state.textContent = changesWords(found, tried, of);
  };
  function* search() {
    for (const turn of singleChanges(lib, model.doc)) {
      show(turn);
      yield;
    }
  }
  return slices(search());
}

// Returns how the search for changes goes.
export function changesWords(found, tried, of) {
  const some = found === 1 ? '1 change gives a tree' : `${found.toLocaleString('en')} changes give a tree`;
  if (tried < of) return `${some} so far. Tried ${tried.toLocaleString('en')} of ${of.toLocaleString('en')}.`;
  return found === 0 ? `None of the ${of.toLocaleString('en')} changes of one cell gives a tree.` : `${some}. Click one to make it; you can undo it.`;
}

// Mounts the panel.
export function mount(root, model, lib) {
  let stops = [];
  let shown = null;
  const draw = () => {
    const { result, doc } = model;
    const current = result.state === 'none' && model.isCurrent(result);
    if (current && shown === doc.cells) return;
    stops.forEach((stop) => stop());
    stops = [];
    shown = current ? doc.cells : null;
    clear(root).hidden = !current;
    if (!current) return;
    const group = result.refusal.place;
    const names = namesOf(doc, group);
    const why = `A wire carries ${doc.m} levels. However these inputs are split in two, one part needs more:`;
    const [ways, levels, changes] = [el('div', { class: 'stack' }), el('div'), el('div', { class: 'stack' })];
    root.append(el('h3', { text: `At fault: ${listed(names)}` }), el('p', { text: why }), ways, levels, changes);
    stops = [drawSplits(ways, model, lib, group), drawLevels(levels, model, lib), drawChanges(changes, model, lib)];
  };
  model.on('result', draw);
  model.on('doc', draw);
  draw();
}
