// The table as a map to paint on: pen, rectangle, digits by keyboard, undo and redo.

import { mount as mountAxes } from './axes.mjs';
import { wordsOf } from './document.mjs';
import { button, clear, el, segments } from './dom.mjs';
import { MapView } from './map.mjs';
import { mount as mountPrint } from './printmap.mjs';
import { shade, signOf, textOn } from './shades.mjs';
import { keyTool, newTools, pointerTools } from './strokes.mjs';

const HELP = 'Arrow keys move. A digit paints the cell and moves on, minus leaves it open, Space paints with the pen. '
  + 'Shift with arrow keys selects a rectangle, and a digit then fills it. Ctrl Z undoes, Ctrl Y does it again, Ctrl V opens a copied sheet.';
// The room around the map for its focus ring, left and right together, in pixels.
const RING = 8;
const ZOOMS = [0.4, 0.6, 0.8, 1, 1.25, 1.6, 2];

// Mounts the palette of inks, which follows the model.
function mountPalette(root, model) {
  let inputs = [];
  const ink = (level, m) => {
    const name = level === m ? 'leave open' : `ink ${level}`;
    const input = el('input', { type: 'radio', name: 'pen', 'aria-label': name, onchange: () => model.setPen(level) });
    inputs.push(input);
    const style = `--shade:${shade(level, m)};--digit:${textOn(level, m)}`;
    return el('label', { class: 'ink', style, title: name }, input, el('span', { text: signOf(level, m), 'aria-hidden': true }));
  };
  const follow = () => {
    const { m } = model.doc;
    if (inputs.length !== m + 1) {
      inputs = [];
      clear(root).append(...Array.from({ length: m + 1 }, (_, level) => ink(level, m)));
    }
    inputs.forEach((input, level) => {
      input.checked = level === model.pen;
    });
  };
  model.on('doc', follow);
  model.on('pen', follow);
  follow();
}

// Mounts undo and redo.
function mountSteps(root, model) {
  const undo = button('Undo', () => model.undo(), { title: 'Undo (Ctrl Z)', class: 'small' });
  const redo = button('Redo', () => model.redo(), { title: 'Redo (Ctrl Y)', class: 'small' });
  root.append(undo, redo);
  const follow = () => {
    undo.disabled = !model.canUndo;
    redo.disabled = !model.canRedo;
  };
  model.on('doc', follow);
  follow();
}

// Returns the line below the map: the cell under the pointer or the cursor, else what is marked.
function statusWords(view, model, tools) {
  const cell = tools.hover ?? (tools.focused ? tools.cursor : null);
  if (!cell) return model.marked?.what || `${model.doc.cells.length.toLocaleString('en')} cells. Draw with the mouse, or type digits.`;
  const index = view.map.index(cell.row, cell.column);
  const ink = model.doc.cells[index];
  return `${wordsOf(model.doc, index)} ${ink === model.doc.m ? 'is open' : `has ink ${ink}`}`;
}

// Returns the buttons that make cells smaller and larger. `onzoom` gets the new zoom.
function zoomButtons(onzoom) {
  let step = ZOOMS.indexOf(1);
  const go = (by) => () => {
    step = Math.max(0, Math.min(ZOOMS.length - 1, step + by));
    onzoom(ZOOMS[step]);
  };
  return el('div', { class: 'row tight', role: 'group', 'aria-label': 'Size of the cells' },
    button('−', go(-1), { class: 'small', 'aria-label': 'Smaller cells' }), button('+', go(1), { class: 'small', 'aria-label': 'Larger cells' }));
}

// Draws the map whenever the table, its arrangement, the room, the zoom or the colours change. Returns `redraw` for the upper layer and `setZoom`.
function mountMap(scroll, view, model, tools, status) {
  let zoom = 1;
  let room = 0;
  const redraw = () => {
    const selection = tools.anchor ? { from: tools.anchor, to: tools.cursor } : null;
    view.drawOver({ marked: model.marked?.indexes, selection, cursor: tools.cursor, focused: tools.focused });
    status();
  };
  const layout = () => {
    room = scroll.clientWidth;
    view.show(model.doc, room - RING, zoom);
    const { rows, columns } = view.map;
    tools.cursor = { row: Math.min(tools.cursor.row, rows - 1), column: Math.min(tools.cursor.column, columns - 1) };
    redraw();
  };
  model.on('doc', ({ indexes }) => {
    if (indexes) {
      view.drawCells(model.doc, indexes);
      redraw();
      return;
    }
    tools.anchor = null;
    layout();
  });
  model.on('highlight', redraw);
  new ResizeObserver(() => {
    if (scroll.clientWidth !== room) layout();
  }).observe(scroll);
  matchMedia('(prefers-color-scheme: dark)').addEventListener('change', layout);
  layout();
  const setZoom = (next) => {
    zoom = next;
    layout();
  };
  return { redraw, setZoom };
}

// Mounts the panel.
export function mount(root, model) {
  const tools = newTools();
  const view = new MapView({
    id: 'map', tabindex: 0, role: 'application', 'aria-roledescription': 'map of the table', 'aria-label': 'The cells of the table',
    'aria-describedby': 'map-help',
  });
  const palette = el('div', { class: 'palette', role: 'radiogroup', 'aria-label': 'Ink of the pen' });
  const steps = el('div', { class: 'row tight' });
  const axes = el('div', { class: 'axes' });
  const scroll = el('div', { class: 'scroll map-scroll' }, view.element);
  const paper = el('div', { class: 'paper' });
  const status = el('p', { class: 'note status' });
  const kinds = [['pen', 'Pen', 'Paint cell by cell'], ['rectangle', 'Rectangle', 'Fill a rectangle (or hold Shift)']];
  const chosen = segments('Tool', kinds, 'pen', (tool) => {
    tools.tool = tool;
  });
  const zooms = zoomButtons((zoom) => map.setZoom(zoom));
  const help = el('details', { class: 'note keys' }, el('summary', { text: 'Keys' }), el('p', { id: 'map-help', text: HELP }));
  root.append(el('div', { class: 'row tools' }, palette, chosen.element, steps), el('div', { class: 'row axes-row' }, axes, zooms), scroll, paper,
    el('div', { class: 'row below' }, status, help));
  mountPalette(palette, model);
  mountSteps(steps, model);
  mountAxes(axes, model);
  mountPrint(paper, model);
  const map = mountMap(scroll, view, model, tools, () => {
    status.textContent = statusWords(view, model, tools);
  });
  listen(view, model, tools, map.redraw);
}

// Connects the map's element to the tools.
function listen(view, model, tools, redraw) {
  const { element } = view;
  const handlers = pointerTools(view, model, tools, redraw);
  for (const [name, handler] of Object.entries(handlers)) element.addEventListener(name.slice(2), handler);
  element.addEventListener('pointerleave', () => {
    tools.hover = null;
    redraw();
  });
  element.addEventListener('keydown', keyTool(view, model, tools, redraw));
  for (const [name, focused] of [['focus', true], ['blur', false]]) {
    element.addEventListener(name, () => {
      tools.focused = focused && element.matches(':focus-visible');
      redraw();
    });
  }
}
