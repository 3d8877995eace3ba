// What the mouse and the keys do on the map.

import { wordsOf } from './document.mjs';
import { line, rectangle } from './geometry.mjs';
import { signOf } from './shades.mjs';

const ARROWS = { ArrowLeft: [0, -1], ArrowRight: [0, 1], ArrowUp: [-1, 0], ArrowDown: [1, 0] };

// Returns the state of the tools: the tool, the keyboard's cursor, the other corner of a selection, what is being dragged.
export function newTools() {
  return { tool: 'pen', cursor: { row: 0, column: 0 }, anchor: null, drag: null, focused: false, hover: null };
}

// Returns what the mouse does on the map.
export function pointerTools(view, model, tools, redraw) {
  const place = (event, near) => {
    const box = view.element.getBoundingClientRect();
    return view.cellAt(event.clientX - box.left, event.clientY - box.top, near);
  };
  const down = (event) => {
    const cell = place(event, false);
    if (!cell || event.button !== 0) return;
    view.element.setPointerCapture(event.pointerId);
    const fills = tools.tool === 'rectangle' || event.shiftKey;
    Object.assign(tools, { cursor: cell, anchor: fills ? cell : null, drag: { last: cell, fills } });
    if (!fills) {
      model.beginStroke();
      model.paint([view.map.index(cell.row, cell.column)], model.pen);
    }
    redraw();
  };
  const move = (event) => {
    tools.hover = place(event, false);
    if (tools.drag) {
      for (const part of event.getCoalescedEvents?.() ?? [event]) drag(place(part, true));
    }
    redraw();
  };
  const drag = (cell) => {
    const { last, fills } = tools.drag;
    if (!fills) model.paint(line(view.map, last, cell), model.pen);
    tools.drag.last = cell;
    tools.cursor = cell;
  };
  const up = () => {
    if (!tools.drag) return;
    const { fills } = tools.drag;
    tools.drag = null;
    if (fills) model.paint(rectangle(view.map, tools.anchor, tools.cursor), model.pen);
    tools.anchor = null;
    model.endStroke();
    redraw();
  };
  const cancel = () => {
    tools.drag = null;
    tools.anchor = null;
    model.endStroke();
    redraw();
  };
  return { onpointerdown: down, onpointermove: move, onpointerup: up, onpointercancel: cancel };
}

// Returns what a key does on the map.
export function keyTool(view, model, tools, redraw) {
  const { say } = model;
  const selected = () => rectangle(view.map, tools.anchor ?? tools.cursor, tools.cursor);
  const tell = () => {
    const index = view.map.index(tools.cursor.row, tools.cursor.column);
    const many = tools.anchor ? `, ${selected().length} cells selected` : '';
    const ink = signOf(model.doc.cells[index], model.doc.m);
    say.call(model, `${wordsOf(model.doc, index)}: ink ${ink === '-' ? 'open' : ink}${many}`);
  };
  const go = (row, column, extend) => {
    if (extend) tools.anchor ??= tools.cursor;
    else tools.anchor = null;
    const { rows, columns } = view.map;
    tools.cursor = { row: Math.max(0, Math.min(rows - 1, row)), column: Math.max(0, Math.min(columns - 1, column)) };
    view.reveal(tools.cursor);
    tell();
  };
  const advance = () => {
    const { row, column } = tools.cursor;
    if (column + 1 < view.map.columns) go(row, column + 1);
    else if (row + 1 < view.map.rows) go(row + 1, 0);
    else tell();
  };
  const fill = (ink) => {
    const many = tools.anchor !== null;
    model.paint(selected(), ink);
    if (many) tell();
    else advance();
  };
  return (event) => {
    const { row, column } = tools.cursor;
    const { m } = model.doc;
    if (event.ctrlKey || event.metaKey || event.altKey) return;
    if (ARROWS[event.key]) go(row + ARROWS[event.key][0], column + ARROWS[event.key][1], event.shiftKey);
    else if (event.key === 'Home') go(row, 0, event.shiftKey);
    else if (event.key === 'End') go(row, view.map.columns - 1, event.shiftKey);
    else if (event.key === 'PageUp') go(0, column, event.shiftKey);
    else if (event.key === 'PageDown') go(view.map.rows - 1, column, event.shiftKey);
    else if (event.key === 'Escape') tools.anchor = null;
    else if (event.key === ' ' || event.key === 'Enter') model.paint(selected(), model.pen);
    else if (event.key === '-') fill(m);
    else if (/^[0-8]$/.test(event.key) && Number(event.key) < m) fill(Number(event.key));
    else return;
    event.preventDefault();
    tools.focused = true;
    redraw();
  };
}
