// The Compare panel: other shades, one or two nets against the table and against each other, and arrival times.

import { isExplanation } from '../src/sitgurp.mjs';
import { mountArrivals } from './arrivals.mjs';
import { assignmentText } from './changes.mjs';
import { button, clear, el } from './dom.mjs';
import { later, recall, remember } from './memory.mjs';
import { bytesOf, unreadable } from './reading.mjs';
import { mountRenaming } from './renaming.mjs';
import { treeElement } from './tree.mjs';
import { checked, same, shallower } from './verdicts.mjs';

// How long after a stroke the nets are checked again, in milliseconds.
const REST = 80;
// How small a tree may be drawn beside another.
const SMALLEST = 0.45;
const INTRODUCTION = 'A net made by hand is checked against the table, and the first row that differs is marked in the map. '
  + 'With two nets: do they have the same table, and which is shallower?';

// Shows a verdict: green for yes, red for no, with a sign that does not need colour.
function show(element, { good, words }) {
  element.className = good ? 'verdict good' : 'verdict bad';
  element.textContent = `${good ? '✓' : '✗'} ${words}`;
}

// Draws a net small, but not so small that nothing can be read.
function smallTree(net) {
  const drawn = treeElement(net);
  drawn.style.minWidth = `${Math.round(Number(drawn.getAttribute('width')) * SMALLEST)}px`;
  return drawn;
}

// Makes the box of a net: its sheet, where it comes from, what the library says about it, and its tree.
function netBox(letter, model, lib, changed) {
  const name = `Net ${letter}`;
  const box = { name, net: null, index: null };
  const verdict = el('p', { id: `verdict-${letter}`, role: 'status' });
  const words = el('pre', { class: 'bad words' });
  const tree = el('div', { class: 'scroll tree-small' });
  const text = el('textarea', { class: 'mono', rows: 7, wrap: 'off', spellcheck: 'false', autocomplete: 'off', 'aria-label': `${name}: net sheet`,
    'aria-describedby': `verdict-${letter}`, placeholder: 'Paste or drop a net sheet here', oninput: () => read() });
  const file = el('input', { type: 'file', 'aria-label': `Open a file as net ${letter}`, class: 'visually-hidden', tabindex: '-1',
    onchange: () => take(file.files[0]) });

  // Puts a file's text in the box.
  async function take(chosen) {
    const bytes = chosen && (await bytesOf(chosen));
    if (bytes) box.put(new TextDecoder().decode(bytes));
    else if (chosen) model.complain(unreadable(chosen));
    file.value = '';
  }

  // Reads the sheet. One that is refused gets the library's words, with line and caret.
  function read() {
    const typed = text.value === '' || text.value.endsWith('\n') ? text.value : `${text.value}\n`;
    const answer = typed.trim() === '' ? null : lib.readNet(typed, `net-${letter.toLowerCase()}`);
    const refused = isExplanation(answer);
    box.net = refused ? null : answer;
    words.textContent = refused ? answer.toString() : '';
    words.hidden = !refused;
    text.setAttribute('aria-invalid', refused);
    clear(tree).append(...(box.net ? [smallTree(box.net)] : []));
    changed();
  }

  // Replaces the sheet.
  box.put = (sheet) => {
    text.value = sheet;
    read();
  };
  // Returns the sheet as it was typed.
  box.text = () => text.value;

  // Checks the net against the painted table.
  box.check = () => {
    const answer = box.net && checked(lib, box.net, model.table);
    box.index = answer?.index ?? null;
    verdict.hidden = !answer;
    if (answer) show(verdict, answer);
    for (const control of [use, pin]) control.disabled = box.net === null;
  };

  const use = button('Paint its table', () => model.open(box.net.sheet, `net ${letter}`),
    { class: 'small', title: 'The table on the map becomes the table of this net, and its wiring is pinned' });
  const pin = button('Pin its wiring', () => model.pin(box.net.sheet), { class: 'small', title: 'Gates are refilled while you paint' });
  const takeTree = button('Take the tree', () => model.result.net && box.put(model.result.net.sheet),
    { class: 'small', title: 'Copies the tree that is shown' });
  const actions = el('div', { class: 'row tight' }, takeTree, button('Open a file', () => file.click(), { class: 'small' }), file, use, pin);
  box.element = el('section', { class: 'card stack', 'aria-label': name }, el('h4', { text: name }), text, actions, verdict, words, tree);
  box.element.addEventListener('dragover', (event) => event.preventDefault());
  box.element.addEventListener('drop', (event) => {
    if (event.dataTransfer.files.length === 0) return;
    event.preventDefault();
    event.stopPropagation();
    take(event.dataTransfer.files[0]);
  });
  words.hidden = true;
  return box;
}

// Builds the two boxes and what is said about the pair.
function mountNets(root, model, lib) {
  const pair = el('div', { class: 'stack', role: 'status' });
  const boxes = [];
  let marked = null;
  // Remembers the sheets and checks them again.
  const changed = () => {
    remember('nets', boxes.map((box) => box.text()));
    check();
  };

  // Checks both nets against the table and against each other, and marks the rows that differ in the map.
  function check() {
    if (boxes.length < 2 || model.tab !== 'compare') return;
    for (const box of boxes) box.check();
    const [first, second] = boxes.map((box) => box.net);
    clear(pair);
    if (first && second) {
      const verdict = el('p');
      const depth = el('p', { text: shallower(lib, first, second) });
      show(verdict, same(lib, first, second));
      pair.append(verdict, depth);
    }
    mark();
  }

  // Marks the first row at which each net differs from the table.
  function mark() {
    const differing = boxes.filter((box) => box.index !== null);
    unmark();
    if (differing.length === 0) return;
    const { names } = model.doc;
    const words = differing.map((box) => `${box.name} differs at ${assignmentText(names, model.table.assignment(box.index))}`).join('; ');
    marked = words;
    model.highlight(differing.map((box) => box.index), words);
  }

  // Takes the marks of this panel away, and no others.
  function unmark() {
    if (marked !== null && model.marked?.what === marked) model.highlight(null);
    marked = null;
  }

  boxes.push(...['A', 'B'].map((letter) => netBox(letter, model, lib, changed)));
  root.append(
    el('h3', { text: 'Nets' }),
    el('p', { class: 'note', text: INTRODUCTION }),
    el('div', { class: 'cols nets' }, boxes.map((box) => box.element)),
    pair,
  );
  const saved = recall('nets');
  boxes.forEach((box, i) => {
    if (typeof saved?.[i] === 'string') box.put(saved[i]);
  });
  model.on('doc', later(check, REST));
  model.on('tab', (name) => {
    if (name === 'compare') check();
    else unmark();
  });
  for (const box of boxes) box.check();
}

// Builds the panel.
export function mount(root, model, lib) {
  const parts = ['Other shades', 'Nets', 'Arrival times'].map((label) => el('section', { 'aria-label': label, class: 'stack' }));
  root.append(...parts);
  mountRenaming(parts[0], model);
  mountNets(parts[1], model, lib);
  mountArrivals(parts[2], model, lib);
}
