// The map on its two canvases: cells and headers below, marks, selection and cursor above.

import { el } from './dom.mjs';
import { mapOf } from './geometry.mjs';
import { shade, signOf, textOn } from './shades.mjs';

// The height of a header row and the least width of a header column, in pixels.
const HEADER = 19;
// Header columns wider than this together have their names turned.
const WIDEST_NAMES = 150;
const LEAST_CELL = 13;
const MOST_CELL = 48;
// Maps taller than TALL pixels have cells no larger than TALL_CELL.
const TALL = 900;
const TALL_CELL = 18;
// The longest side of a canvas, in pixels of the screen, that every browser draws.
const LONGEST_SIDE = 14000;
const FONT = 'ui-monospace, "DejaVu Sans Mono", Menlo, Consolas, monospace';

// Returns the size of a cell: as large as the width allows, not so large that the map is much taller than a screen, and never past what a canvas can hold.
export function cellSize({ rows, columns }, width, zoom) {
  const fit = Math.min(Math.floor(width / columns), Math.max(TALL_CELL, Math.floor(TALL / rows)));
  const wanted = Math.round(Math.max(LEAST_CELL, Math.min(MOST_CELL, fit)) * zoom);
  return Math.max(4, Math.min(wanted, Math.floor(LONGEST_SIDE / Math.max(rows, columns))));
}

// Makes a canvas fit a size in CSS pixels, and returns its context scaled to them.
function sized(canvas, width, height) {
  const scale = Math.max(1, Math.min(3, globalThis.devicePixelRatio || 1, LONGEST_SIDE / Math.max(width, height)));
  canvas.width = Math.round(width * scale);
  canvas.height = Math.round(height * scale);
  canvas.style.width = `${width}px`;
  canvas.style.height = `${height}px`;
  const context = canvas.getContext('2d');
  context.setTransform(scale, 0, 0, scale, 0, 0);
  return context;
}

export class MapView {
  #doc = null;
  #map = null;
  #base = el('canvas', { 'aria-hidden': true });
  #over = el('canvas', { class: 'over', 'aria-hidden': true });
  #spot = el('div', { class: 'spot', 'aria-hidden': true });
  #size = null;
  #sprites = null;
  #zoom = 1;

  constructor(attributes) {
    this.element = el('div', { class: 'map', ...attributes }, this.#base, this.#over, this.#spot);
    this.colours = {};
  }

  get map() {
    return this.#map;
  }

  // Shows a document, as wide as there is room.
  show(doc, room, zoom = 1) {
    this.#doc = doc;
    this.#map = mapOf(doc);
    this.#zoom = zoom;
    this.#readColours();
    this.#measure(room);
    const { width, height } = this.#size;
    this.element.style.width = `${width}px`;
    this.element.style.height = `${height}px`;
    Object.assign(this.element.dataset, { left: this.#size.left, top: this.#size.top, cell: this.#size.cell });
    this.base = sized(this.#base, width, height);
    this.over = sized(this.#over, width, height);
    this.#makeSprites();
    this.#drawHeaders();
    this.drawCells(doc, doc.cells.keys());
    this.#drawRules();
  }

  // Reads the page's colours, which depend on the theme.
  #readColours() {
    const style = getComputedStyle(this.element);
    for (const name of ['text', 'muted', 'line', 'rule', 'surface', 'accent', 'mark', 'veil', 'header']) {
      this.colours[name] = style.getPropertyValue(`--${name}`).trim();
    }
  }

  // Works out the sizes of headers and cells for that much room.
  #measure(room) {
    const { names, across, down } = this.#doc;
    const pen = this.#base.getContext('2d');
    pen.font = `600 12px ${FONT}`;
    const wide = (input) => Math.ceil(pen.measureText(names[input]).width) + 10;
    let columns = down.map((input) => Math.max(HEADER, wide(input)));
    const turned = columns.reduce((sum, width) => sum + width, 0) > WIDEST_NAMES;
    if (turned) columns = down.map(() => HEADER);
    const names_height = turned ? Math.max(...down.map(wide)) : HEADER;
    const left = Math.max(columns.reduce((sum, width) => sum + width, 0), ...across.map(wide));
    const top = across.length * HEADER + names_height;
    const cell = cellSize(this.#map, room - left - 2, this.#zoom);
    this.#size = { left, top, cell, columns, turned };
    this.#size.width = left + this.#map.columns * this.#size.cell + 2;
    this.#size.height = top + this.#map.rows * this.#size.cell + 2;
  }

  // Draws every kind of cell once, so that drawing the map only copies.
  #makeSprites() {
    const { cell } = this.#size;
    const { m } = this.#doc;
    const canvas = document.createElement('canvas');
    const pen = sized(canvas, cell * (m + 1), cell);
    pen.textAlign = 'center';
    pen.textBaseline = 'middle';
    pen.font = `500 ${Math.round(Math.min(cell * 0.62, 17))}px ${FONT}`;
    for (let level = 0; level <= m; level += 1) {
      pen.fillStyle = this.colours.line;
      pen.fillRect(level * cell, 0, cell, cell);
      pen.fillStyle = shade(level, m);
      pen.fillRect(level * cell, 0, cell - 1, cell - 1);
      if (cell < 9) continue;
      pen.fillStyle = textOn(level, m);
      pen.fillText(signOf(level, m), level * cell + (cell - 1) / 2, cell / 2 + 0.5);
    }
    this.#sprites = canvas;
  }

  // Draws the levels of every input along its axis.
  #drawHeaders() {
    const { left, top, columns, turned } = this.#size;
    const { across, down, names, m } = this.#doc;
    const pen = this.base;
    pen.textBaseline = 'middle';
    across.forEach((input, k) => {
      const y = k * HEADER;
      this.#name(names[input], left - 7, y + HEADER / 2);
      this.#levels(m ** (across.length - 1 - k), this.#map.columns, (at, length, level) => this.#level(level, left + at, y, length, HEADER));
    });
    let x = left - columns.reduce((sum, width) => sum + width, 0);
    down.forEach((input, k) => {
      const width = columns[k];
      if (turned) this.#turnedName(names[input], x + width / 2, top - 5);
      else this.#name(names[input], x + width / 2, top - HEADER / 2, 'center');
      const own = x;
      this.#levels(m ** (down.length - 1 - k), this.#map.rows, (at, length, level) => this.#level(level, own, top + at, width, length));
      x += width;
    });
  }

  // Draws an input's name.
  #name(name, x, y, align = 'right') {
    const pen = this.base;
    pen.font = `600 12px ${FONT}`;
    pen.textAlign = align;
    pen.fillStyle = this.colours.text;
    pen.fillText(name, x, y + 0.5);
  }

  // Draws an input's name from bottom to top.
  #turnedName(name, x, y) {
    const pen = this.base;
    pen.save();
    pen.translate(x, y);
    pen.rotate(-Math.PI / 2);
    this.#name(name, 0, 0, 'left');
    pen.restore();
  }

  // Calls `draw` for every run of equal levels of an input along an axis.
  #levels(run, total, draw) {
    const { cell } = this.#size;
    for (let at = 0; at < total; at += run) draw(at * cell, run * cell, Math.floor(at / run) % this.#doc.m);
  }

  // Draws a level in a header.
  #level(level, x, y, width, height) {
    const pen = this.base;
    pen.fillStyle = level % 2 ? this.colours.header : this.colours.surface;
    pen.fillRect(x, y, width - 1, height - 1);
    if (Math.min(width, height) < 8) return;
    pen.font = `11px ${FONT}`;
    pen.textAlign = 'center';
    pen.fillStyle = this.colours.muted;
    pen.fillText(level, x + (width - 1) / 2, y + height / 2 + 0.5);
  }

  // Draws some cells of a document that has the same header and arrangement as the one that is shown.
  drawCells(doc, indexes) {
    this.#doc = doc;
    const { left, top, cell } = this.#size;
    const scale = this.#sprites.width / (cell * (doc.m + 1));
    for (const index of indexes) {
      const [x, y] = [left + this.#map.column(index) * cell, top + this.#map.row(index) * cell];
      const [from, size] = [doc.cells[index] * cell * scale, cell * scale];
      this.base.drawImage(this.#sprites, from, 0, size, size, x, y, cell, cell);
    }
    this.#drawRules();
  }

  // Draws stronger lines where an input other than the fastest changes its level.
  #drawRules() {
    const { left, top, cell } = this.#size;
    const { m } = this.#doc;
    const { rows, columns } = this.#map;
    const pen = this.base;
    pen.fillStyle = this.colours.rule;
    for (let column = 0; column <= columns; column += m) pen.fillRect(left + column * cell - 1, top - 1, 1, rows * cell + 1);
    for (let row = 0; row <= rows; row += m) pen.fillRect(left - 1, top + row * cell - 1, columns * cell + 1, 1);
  }

  // Returns the cell at a place of the element, null outside. With `near` the nearest cell is taken.
  cellAt(x, y, near = false) {
    const { left, top, cell } = this.#size;
    let [column, row] = [Math.floor((x - left) / cell), Math.floor((y - top) / cell)];
    if (near) {
      column = Math.max(0, Math.min(this.#map.columns - 1, column));
      row = Math.max(0, Math.min(this.#map.rows - 1, row));
    }
    if (column < 0 || row < 0 || column >= this.#map.columns || row >= this.#map.rows) return null;
    return { row, column };
  }

  // Returns the place of a cell in the element.
  placeOf({ row, column }) {
    const { left, top, cell } = this.#size;
    return { x: left + column * cell, y: top + row * cell, width: cell, height: cell };
  }

  // Scrolls a cell into view.
  reveal(cell) {
    const { x, y, width, height } = this.placeOf(cell);
    Object.assign(this.#spot.style, { left: `${x}px`, top: `${y}px`, width: `${width}px`, height: `${height}px` });
    this.#spot.scrollIntoView({ block: 'nearest', inline: 'nearest' });
  }

  // Draws the upper layer: marked cells, a selected rectangle and the cursor.
  drawOver({ marked, selection, cursor, focused }) {
    const { width, height, cell } = this.#size;
    this.over.clearRect(0, 0, width, height);
    if (marked) this.#drawMarked(new Set(marked));
    if (selection) this.#frame(selection.from, selection.to, this.colours.accent, 2, [5, 3]);
    if (cursor && focused) this.#frame(cursor, cursor, this.colours.accent, Math.min(3, cell / 4));
  }

  // Draws a frame around a rectangle of cells.
  #frame(from, to, colour, thickness, dashes = []) {
    const [first, last] = [this.placeOf(from), this.placeOf(to)];
    const [x, y] = [Math.min(first.x, last.x), Math.min(first.y, last.y)];
    const pen = this.over;
    pen.strokeStyle = colour;
    pen.lineWidth = thickness;
    pen.setLineDash(dashes);
    const { cell } = this.#size;
    pen.strokeRect(x, y, Math.abs(first.x - last.x) + cell - 1, Math.abs(first.y - last.y) + cell - 1);
    pen.setLineDash([]);
  }

  // Veils all cells but the marked ones, and draws a line around these.
  #drawMarked(marked) {
    const { cell } = this.#size;
    const { rows, columns } = this.#map;
    const pen = this.over;
    const has = (row, column) => row >= 0 && column >= 0 && row < rows && column < columns && marked.has(this.#map.index(row, column));
    for (let row = 0; row < rows; row += 1) {
      for (let column = 0; column < columns; column += 1) {
        const { x, y } = this.placeOf({ row, column });
        if (!has(row, column)) {
          pen.fillStyle = this.colours.veil;
          pen.fillRect(x, y, cell - 1, cell - 1);
          continue;
        }
        pen.fillStyle = this.colours.mark;
        if (!has(row - 1, column)) pen.fillRect(x - 1, y - 1, cell + 1, 2);
        if (!has(row + 1, column)) pen.fillRect(x - 1, y + cell - 2, cell + 1, 2);
        if (!has(row, column - 1)) pen.fillRect(x - 1, y - 1, 2, cell + 1);
        if (!has(row, column + 1)) pen.fillRect(x + cell - 2, y - 1, 2, cell + 1);
      }
    }
  }
}
