// Where a table comes from: levels, inputs and names chosen here, an example, or a sheet that is dropped, pasted or opened.

import { isExplanation } from '../src/sitgurp.mjs';
import { freeName, withInput, withLevels, withoutInput } from './document.mjs';
import { button, clear, el } from './dom.mjs';
import { bytesOf, unreadable } from './reading.mjs';
import { fits } from './trials.mjs';

const LEVELS = [2, 3, 4, 5, 6, 7, 8, 9];
// What the examples are, by file name.
const EXAMPLES = {
  'shade.table': 'Shade: weight, light, neighbour',
  'export.table': 'Heavier of two strokes',
  'figure1.table': 'Figure 1 of the paper',
  'seven.table': 'A chain of three gates',
  'majority.table': 'Majority: no tree',
  'shade.net': 'Shade, as a net',
};

// Returns what is wrong with names, in the words of the command, or null.
export function namesFault(lib, m, names) {
  const header = lib.readTable(`levels inputs\n${m} ${names.length}\n${names.join(' ')} ink\n`, 'names');
  return isExplanation(header) && header.position?.line === 3 ? header.toString() : null;
}

// Returns the lists of inputs for which sheets can be made, at these levels and at these inputs.
export function sizes(lib, m, n) {
  return { levels: LEVELS.filter((levels) => fits(lib, levels, n)), more: fits(lib, m, n + 1), fewer: fits(lib, m, n - 1) };
}

// Mounts the choice of levels.
function mountLevels(model, lib) {
  const select = el('select', {
    id: 'levels',
    onchange: () => {
      model.replace(withLevels(model.doc, Number(select.value)), 'levels');
      model.say(`${model.doc.m} levels.`);
    },
  });
  const draw = () => {
    const { m, n } = model.doc;
    const { levels } = sizes(lib, m, n);
    clear(select).append(...LEVELS.map((own) => el('option', { value: own, text: own, '.selected': own === m, disabled: !levels.includes(own) })));
  };
  return { element: el('label', { class: 'inline' }, 'Levels', select), draw };
}

// Mounts the inputs: a field for each name, a button to remove it, and one to add another.
function mountInputs(model, lib) {
  const list = el('div', { class: 'names', role: 'group', 'aria-label': 'Inputs' });
  const add = button('+', () => {
    model.replace(withInput(model.doc, freeName(model.doc.names)), 'inputs');
    fields().at(-1).select();
  }, { class: 'small', 'aria-label': 'Add an input', title: 'Add an input' });
  const fields = () => [...list.querySelectorAll('input')];
  const rename = (input, text) => {
    const names = model.doc.names.map((name, own) => (own === input ? text.trim() : name));
    const fault = namesFault(lib, model.doc.m, names);
    if (fault !== null) model.complain(fault);
    else if (names[input] !== model.doc.names[input]) model.rename(names);
    if (fault !== null) draw();
  };
  const remove = (input) => {
    model.replace(withoutInput(model.doc, input), 'inputs');
    add.focus();
  };
  const nameField = (input) => {
    const text = el('input', {
      maxlength: 8, 'aria-label': `Name of input ${input + 1}`, spellcheck: 'false', autocapitalize: 'off', autocomplete: 'off',
      onchange: () => rename(input, text.value), oninput: () => fit(text),
    });
    return el('span', { class: 'name' }, text, button('×', () => remove(input), { class: 'remove' }));
  };
  const fit = (text) => {
    text.size = Math.max(2, text.value.length);
  };
  const draw = () => {
    const { m, n, names } = model.doc;
    const { more, fewer } = sizes(lib, m, n);
    // the fields stay while their number does, so that the keyboard keeps its place
    if (fields().length !== n) clear(list).append(...names.map((_, input) => nameField(input)), add);
    add.disabled = !more;
    fields().forEach((text, input) => {
      text.value = names[input];
      fit(text);
      text.nextSibling.disabled = !fewer;
      text.nextSibling.setAttribute('aria-label', `Remove input ${names[input]}`);
    });
  };
  return { element: el('div', { class: 'inline' }, el('span', { text: 'Inputs' }), list), draw };
}

// Returns the choice of an example.
function exampleChoice(model, sheets) {
  const files = Object.keys(EXAMPLES).filter((file) => sheets[file] !== undefined);
  const select = el('select', {
    'aria-label': 'Open an example',
    onchange: () => {
      if (select.value === 'blank') model.setCells(new Uint8Array(model.doc.cells.length), 'cleared');
      else model.open(sheets[select.value], select.value);
      select.value = '';
    },
  }, el('option', { value: '', text: 'Examples' }), files.map((file) => el('option', { value: file, text: EXAMPLES[file] })),
  el('option', { value: 'blank', text: 'Blank: all cells 0' }));
  return select;
}

// Returns the button that opens a file.
function openButton(model) {
  const input = el('input', {
    type: 'file', class: 'visually-hidden', id: 'file', tabindex: -1, 'aria-hidden': true,
    onchange: () => {
      openFile(model, input.files[0]);
      input.value = '';
    },
  });
  return [button('Open', () => input.click(), { title: 'Open a table sheet, a loose sheet, CSV or a net sheet. You can also drop or paste it.' }), input];
}

// Opens a file: a picture in the Glyph tab, anything else as a sheet.
async function openFile(model, file) {
  if (!file) return;
  if (file.type.startsWith('image/') || file.name.endsWith('.pgm')) {
    model.offerPicture(file);
    return;
  }
  const bytes = await bytesOf(file);
  if (bytes === null) model.complain(unreadable(file));
  else model.open(bytes, file.name);
}

// Takes sheets that are dropped or pasted anywhere, unless another panel or a text field has taken them.
function mountDrops(model) {
  document.addEventListener('dragover', (event) => {
    if (!event.defaultPrevented) event.preventDefault();
  });
  document.addEventListener('drop', (event) => {
    if (event.defaultPrevented) return;
    event.preventDefault();
    const text = event.dataTransfer.getData('text/plain');
    if (event.dataTransfer.files.length > 0) openFile(model, event.dataTransfer.files[0]);
    else if (text !== '') model.open(text, 'dropped text');
  });
  document.addEventListener('paste', (event) => {
    if (event.defaultPrevented || event.target.matches?.('input, textarea')) return;
    const [file] = event.clipboardData.files;
    const text = event.clipboardData.getData('text/plain');
    if (text === '' && !file) return;
    event.preventDefault();
    if (text !== '') model.open(text, 'pasted text');
    else openFile(model, file);
  });
}

// Mounts the panel. `sheets` are the example files: name to text.
export function mount(root, model, lib, sheets = {}) {
  const levels = mountLevels(model, lib);
  const inputs = mountInputs(model, lib);
  const sources = el('div', { class: 'row tight' }, exampleChoice(model, sheets), openButton(model));
  root.append(el('div', { class: 'row start' }, levels.element, inputs.element, sources));
  mountDrops(model);
  let shown = '';
  const draw = () => {
    const { m, names } = model.doc;
    const key = `${m} ${names.join(' ')}`;
    if (key === shown) return;
    shown = key;
    levels.draw();
    inputs.draw();
  };
  model.on('doc', draw);
  draw();
}
