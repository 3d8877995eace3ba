// The Glyph panel: a picture that is painted or dropped, where each input is read, and the glyph that the net prints from it.

import { isRefusal, pictureFromText, pictureToPgm } from '../src/sitgurp.mjs';
import { fileName, usualOffset } from './changes.mjs';
import { button, el, field, segments } from './dom.mjs';
import { drawPicture, easel } from './easel.mjs';
import { History } from './history.mjs';
import { readPicture } from './images.mjs';
import { later, recall, remember } from './memory.mjs';
import { drawOffsets } from './offsets.mjs';
import { MOST_SIDE, relevelled, resized } from './raster.mjs';
import { saveText } from './save.mjs';

const EMPTY = { width: 12, height: 12, cells: new Uint8Array(144) };

// Returns the picture to begin with: the one that was left, or the example letter.
function firstPicture(saved, levels, letter) {
  const picture = saved && { width: saved.width, height: saved.height, cells: Uint8Array.from(saved.cells) };
  const whole = picture && picture.cells.length === picture.width * picture.height && picture.cells.every((level) => level < levels);
  const example = pictureFromText(letter ?? '');
  return whole ? picture : example ? relevelled(example, 4, levels) : EMPTY;
}

// Builds the panel.
export function mount(root, model, lib, sheets = {}) {
  const saved = recall('glyph');
  let levels = model.doc.m;
  let pen = levels - 1;
  const pictures = new History(firstPicture(saved, levels, sheets['letter.txt']));
  const offsets = new Map(Object.entries(saved?.offsets ?? {}));
  const offsetOf = (name) => offsets.get(name) ?? usualOffset(model.doc.names.indexOf(name));
  const store = later(() => remember('glyph', { ...pictures.state, cells: [...pictures.state.cells], offsets: Object.fromEntries(offsets) }), 300);
  let glyph = null;
  let begun = false;
  let waiting = false;

  const printed = el('canvas', { class: 'easel', role: 'img', 'aria-label': 'The printed glyph' });
  const words = el('p', { class: 'note', role: 'status' });
  const where = el('div', { class: 'offsets' });
  const pens = el('div', { class: 'row' });
  const file = el('input', { type: 'file', class: 'visually-hidden', tabindex: '-1', 'aria-label': 'Open a picture', onchange: () => take(file.files[0]) });
  const side = (label, key) => el('input', { type: 'number', min: 1, max: MOST_SIDE, value: pictures.state[key], 'aria-label': label,
    onchange: (event) => resize({ [key]: Number(event.target.value) }) });
  const sides = { width: side('Width of the picture in cells', 'width'), height: side('Height of the picture in cells', 'height') };
  const undo = button('Undo', () => step('undo'), { class: 'small', 'aria-label': 'Undo in the picture' });
  const redo = button('Redo', () => step('redo'), { class: 'small', 'aria-label': 'Redo in the picture' });
  const save = button('Save the glyph (PGM)', () => saveText(fileName('glyph', 'pgm'), pictureToPgm(glyph, levels)), { class: 'small' });
  const again = button('Print from the glyph', () => put(glyph), { class: 'small', title: 'The glyph becomes the picture' });

  const picture = easel({
    picture: () => pictures.state,
    levels: () => levels,
    pen: () => pen,
    begin: () => { begun = false; },
    paint: (cells, level) => paint(cells, level),
    say: (text) => model.say(text),
  });

  // Paints some cells. A stroke is one step of undo.
  function paint(painted, level) {
    const { width, height, cells } = pictures.state;
    const inside = painted.filter(({ x, y }) => x >= 0 && y >= 0 && x < width && y < height && cells[y * width + x] !== level);
    if (inside.length === 0) return;
    const changed = cells.slice();
    for (const { x, y } of inside) changed[y * width + x] = level;
    if (begun) pictures.amend({ width, height, cells: changed });
    else pictures.push({ width, height, cells: changed });
    begun = true;
    soon();
  }

  // Returns an empty picture of the same sides.
  function blank() {
    return { ...pictures.state, cells: new Uint8Array(pictures.state.cells.length) };
  }

  // Makes a picture the current one.
  function put(next) {
    pictures.push(next);
    soon();
  }

  // Goes one step back or forward: 'undo' or 'redo'.
  function step(direction) {
    if (pictures[direction]()) soon();
  }

  // Takes the other sides that the library allows, 1 to 64; others are put back.
  function resize(change) {
    const wanted = { ...pictures.state, ...change };
    const good = [wanted.width, wanted.height].every((length) => Number.isInteger(length) && length >= 1 && length <= MOST_SIDE);
    if (good) put(resized(pictures.state, wanted.width, wanted.height));
    soon();
  }

  // Reads a picture from a file. What is no picture changes nothing.
  async function take(chosen) {
    if (!chosen) return;
    const next = await readPicture(chosen, levels);
    file.value = '';
    if (!next) {
      model.complain(`${chosen.name}: this is no picture that the browser reads, no graymap (PGM) and no text of digits below ${levels}`);
      return;
    }
    model.complain(null);
    put(next);
    model.say(`Opened ${chosen.name}: ${next.width} by ${next.height} cells.`);
  }

  // Draws both pictures before the next frame, however many cells changed until then.
  function soon() {
    store();
    if (waiting) return;
    waiting = true;
    requestAnimationFrame(() => {
      waiting = false;
      draw();
    });
  }

  // Prints the picture with the net that is shown, and draws both.
  function draw() {
    const { width, height, cells } = pictures.state;
    const { net } = model.result;
    const fits = net !== null && net.levels === levels && net.names.join(' ') === model.doc.names.join(' ');
    const answer = fits ? lib.glyph(net.sheet, width, height, cells, net.names.flatMap(offsetOf)) : null;
    glyph = answer === null || isRefusal(answer) ? null : { width, height, cells: answer };
    words.textContent = answer === null ? 'A glyph needs a tree, and there is none now.' : isRefusal(answer) ? answer.words() : '';
    picture.draw();
    drawPicture(printed, glyph ?? { ...pictures.state, cells: new Uint8Array(width * height) }, levels);
    printed.classList.toggle('stale', glyph === null);
    sides.width.value = width;
    sides.height.value = height;
    undo.disabled = !pictures.canUndo;
    redo.disabled = !pictures.canRedo;
    save.disabled = again.disabled = glyph === null;
  }

  // Follows a table of other levels or inputs.
  function adapt() {
    if (levels !== model.doc.m) {
      pictures.push(relevelled(pictures.state, levels, model.doc.m));
      levels = model.doc.m;
      pen = levels - 1;
    }
    const choices = Array.from({ length: levels }, (_, level) => [level, String(level)]);
    pens.replaceChildren(segments('Pen for the picture', choices, pen, (level) => { pen = level; }).element);
    drawOffsets(where, model.doc.names, offsetOf, (name, offset) => {
      offsets.set(name, offset);
      soon();
    });
    soon();
  }

  root.append(
    el('div', { class: 'row' }, pens, undo, redo, button('Clear', () => put(blank()), { class: 'small' }),
      button('Open a picture', () => file.click(), { class: 'small' }), file),
    el('div', { class: 'cols easels' },
      el('figure', {}, el('figcaption', { text: 'Paint or drop a picture' }), picture.canvas,
        el('div', { class: 'row' }, field('Width', sides.width), field('Height', sides.height))),
      el('figure', {}, el('figcaption', { text: 'The printed glyph' }), printed, words, el('div', { class: 'row' }, save, again))),
    el('h3', { text: 'Where each input is read' }),
    where,
  );
  root.addEventListener('dragover', (event) => event.preventDefault());
  root.addEventListener('drop', (event) => {
    if (event.dataTransfer.files.length === 0) return;
    event.preventDefault();
    event.stopPropagation();
    take(event.dataTransfer.files[0]);
  });
  root.addEventListener('keydown', (event) => {
    if (!(event.ctrlKey || event.metaKey) || event.target.matches('input')) return;
    const key = event.key.toLowerCase();
    const direction = key === 'z' && !event.shiftKey ? 'undo' : key === 'y' || key === 'z' ? 'redo' : null;
    if (direction === null) return;
    step(direction);
    event.preventDefault();
    event.stopPropagation();
  });
  model.on('picture', take);
  let header = '';
  model.on('doc', () => {
    const now = `${model.doc.m} ${model.doc.names.join(' ')}`;
    if (now !== header) adapt();
    header = now;
  });
  model.on('result', () => {
    if (model.tab === 'glyph') soon();
  });
  model.on('tab', (name) => {
    if (name === 'glyph') soon();
  });
  new ResizeObserver(soon).observe(root);
  adapt();
}
