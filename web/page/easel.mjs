// A picture that is painted with the pointer or the keys: arrow keys move, a digit paints, space paints with the pen.

import { el } from './dom.mjs';
import { cellsBetween, MOST_SIDE } from './raster.mjs';
import { shade } from './shades.mjs';

// The widest that a picture is drawn, in pixels, and how wide it is drawn while it is not shown.
const WIDEST = 420;
const UNSHOWN = 260;

const MOVES = { ArrowLeft: [-1, 0], ArrowRight: [1, 0], ArrowUp: [0, -1], ArrowDown: [0, 1], Home: [-MOST_SIDE, 0], End: [MOST_SIDE, 0],
  PageUp: [0, -MOST_SIDE], PageDown: [0, MOST_SIDE] };

// Returns how many pixels a cell of a picture takes on each side: what there is room for.
function sizeOf({ width, height }, canvas) {
  const room = Math.min(WIDEST, (canvas.parentElement?.clientWidth || UNSHOWN) - 2);
  return Math.max(3, Math.min(28, Math.floor(room / Math.max(width, height))));
}

// Draws a picture on a canvas, with thin lines between cells that are large enough.
export function drawPicture(canvas, picture, levels, cursor = null) {
  const size = sizeOf(picture, canvas);
  const gap = size >= 8 ? 1 : 0;
  canvas.width = picture.width * size;
  canvas.height = picture.height * size;
  const pen = canvas.getContext('2d');
  pen.fillStyle = '#b9bdc6';
  pen.fillRect(0, 0, canvas.width, canvas.height);
  for (let y = 0; y < picture.height; y += 1) {
    for (let x = 0; x < picture.width; x += 1) {
      pen.fillStyle = shade(picture.cells[y * picture.width + x], levels);
      pen.fillRect(x * size, y * size, size - gap, size - gap);
    }
  }
  if (cursor) frame(pen, cursor, size);
}

// Draws a frame around a cell that is visible on every shade.
function frame(pen, { x, y }, size) {
  for (const [colour, inset] of [['#ffffff', 0.5], ['#c2410c', 1.5]]) {
    pen.strokeStyle = colour;
    pen.strokeRect(x * size + inset, y * size + inset, size - 2 * inset, size - 2 * inset);
  }
}

// Makes the canvas of a picture that can be painted. `work` has picture(), levels(), pen(), begin(), paint(cells, level) and say(text).
export function easel(work) {
  const cursor = { x: 0, y: 0 };
  let last = null;
  const canvas = el('canvas', { class: 'easel', tabindex: '0', role: 'application',
    'aria-label': 'Picture: arrow keys move, a digit paints a cell, space paints with the pen' });

  // Returns the cell under the pointer, also beyond the picture's edge.
  function cellAt(event) {
    const box = canvas.getBoundingClientRect();
    const { width, height } = work.picture();
    return { x: Math.floor(((event.clientX - box.left) * width) / box.width), y: Math.floor(((event.clientY - box.top) * height) / box.height) };
  }

  // Paints the cells from the last one to this one.
  function strokeTo(cell) {
    work.paint(cellsBetween(last ?? cell, cell), work.pen());
    last = cell;
  }

  // Moves the cursor, as far as the picture goes.
  function move([across, down]) {
    const { width, height } = work.picture();
    cursor.x = Math.max(0, Math.min(width - 1, cursor.x + across));
    cursor.y = Math.max(0, Math.min(height - 1, cursor.y + down));
    say();
  }

  // Says where the cursor is and what is there.
  function say() {
    const { width, cells } = work.picture();
    work.say(`column ${cursor.x + 1}, row ${cursor.y + 1}: ${cells[cursor.y * width + cursor.x]}`);
    draw();
  }

  // Paints the cell under the cursor, as one step of undo.
  function typed(level) {
    work.begin();
    work.paint([{ ...cursor }], level);
    say();
  }

  canvas.addEventListener('pointerdown', (event) => {
    if (event.button !== 0) return;
    canvas.setPointerCapture(event.pointerId);
    work.begin();
    last = null;
    strokeTo(cellAt(event));
  });
  canvas.addEventListener('pointermove', (event) => {
    if (last === null) return;
    for (const part of event.getCoalescedEvents?.() ?? [event]) strokeTo(cellAt(part));
  });
  for (const end of ['pointerup', 'pointercancel']) canvas.addEventListener(end, () => { last = null; });
  canvas.addEventListener('keydown', (event) => {
    if (event.ctrlKey || event.metaKey || event.altKey) return;
    if (MOVES[event.key]) move(MOVES[event.key]);
    else if (event.key === ' ') typed(work.pen());
    else if (/^[0-9]$/.test(event.key) && Number(event.key) < work.levels()) typed(Number(event.key));
    else return;
    event.preventDefault();
    event.stopPropagation();
  });
  for (const change of ['focus', 'blur']) canvas.addEventListener(change, () => draw());

  // Draws the picture anew; the cursor is visible while the picture has the focus and keys are used.
  function draw() {
    const { width, height } = work.picture();
    keepInside(width, height);
    drawPicture(canvas, work.picture(), work.levels(), canvas.matches(':focus-visible') ? cursor : null);
  }

  // Keeps the cursor inside a picture that has become smaller.
  function keepInside(width, height) {
    cursor.x = Math.min(cursor.x, width - 1);
    cursor.y = Math.min(cursor.y, height - 1);
  }

  return { canvas, draw };
}
