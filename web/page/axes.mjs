// Which inputs count across the map, and which down: chips to drag, or to move with the arrow keys.

import { clear, el } from './dom.mjs';
import { moveInput } from './geometry.mjs';

const AXES = [['down', 'Down'], ['across', 'Across']];
// A pointer that has moved less than this is still a click.
const LEAST_DRAG = 4;

// Returns the new arrangement after an arrow key on a chip, null if the chip cannot go there.
export function keyMove(doc, input, key) {
  const axis = doc.across.includes(input) ? 'across' : 'down';
  const other = axis === 'across' ? 'down' : 'across';
  const place = doc[axis].indexOf(input);
  const targets = {
    ArrowLeft: [axis, place - 1], ArrowRight: [axis, place + 1],
    ArrowUp: [other, doc[other].length], ArrowDown: [other, doc[other].length],
  };
  if (!targets[key]) return null;
  const [list, to] = targets[key];
  if (list === axis && (to < 0 || to >= doc[axis].length)) return null;
  return moveInput(doc, input, list, to);
}

// Returns the axis and place for a chip that is dropped at a point: the list whose middle is nearest, before the chips to the right of the point.
export function dropPlace(lists, x, y) {
  const distance = ({ box }) => Math.abs((box.top + box.bottom) / 2 - y) + Math.max(0, box.left - x, x - box.right);
  const [nearest] = [...lists].sort((a, b) => distance(a) - distance(b));
  const place = nearest.chips.filter((chip) => (chip.left + chip.right) / 2 < x).length;
  return { axis: nearest.axis, place };
}

// Mounts the two lists of chips.
export function mount(root, model) {
  const lists = new Map();
  const lines = AXES.map(([axis, label]) => {
    const list = el('div', { class: 'chips', role: 'list', 'aria-label': `${label}: inputs in this order`, 'data-axis': axis });
    lists.set(axis, list);
    return el('div', { class: 'axis' }, el('span', { class: 'axis-name', text: label, 'aria-hidden': true }), list);
  });
  root.append(...lines);
  let shown = '';
  const draw = () => {
    const { doc } = model;
    const key = `${doc.names.join(' ')}|${doc.across}|${doc.down}`;
    if (key === shown) return;
    shown = key;
    for (const [axis, list] of lists) {
      clear(list).append(...doc[axis].map((input, place) => chip(input, axis, place)));
    }
  };
  const focus = (input) => root.querySelector(`[data-input="${input}"]`)?.focus();
  const arrange = (lists, input) => {
    if (lists === null) return;
    model.arrange(lists);
    focus(input);
    const axis = lists.across.includes(input) ? 'across' : 'down';
    model.say(`${model.doc.names[input]} is now ${axis}, ${lists[axis].indexOf(input) + 1} of ${lists[axis].length}.`);
  };
  const chip = (input, axis, place) => {
    const name = model.doc.names[input];
    const label = `${name}, ${axis}, ${place + 1} of ${model.doc[axis].length}. Left and right arrows reorder, up and down arrows move it to the other side.`;
    const element = el('button', { type: 'button', class: 'chip', 'data-input': input, 'aria-label': label, title: 'Drag to rearrange the map', text: name });
    element.addEventListener('keydown', (event) => {
      const moved = keyMove(model.doc, input, event.key);
      if (event.key.startsWith('Arrow')) event.preventDefault();
      arrange(moved, input);
    });
    draggable(element, (x, y) => {
      const boxes = [...lists].map(([own, list]) => ({
        axis: own,
        box: list.getBoundingClientRect(),
        chips: [...list.children].filter((other) => other.firstChild !== element && other !== element.parentNode).map((other) => other.getBoundingClientRect()),
      }));
      const { axis: to, place: at } = dropPlace(boxes, x, y);
      arrange(moveInput(model.doc, input, to, at), input);
    });
    return el('div', { role: 'listitem' }, element);
  };
  model.on('doc', draw);
  draw();
}

// Lets an element be dragged; `dropped` gets the point where it is let go.
function draggable(element, dropped) {
  let from = null;
  const reset = () => {
    from = null;
    element.style.transform = '';
    element.classList.remove('dragged');
  };
  element.addEventListener('pointerdown', (event) => {
    if (event.button !== 0) return;
    from = { x: event.clientX, y: event.clientY };
    element.setPointerCapture(event.pointerId);
  });
  element.addEventListener('pointermove', (event) => {
    if (!from) return;
    const [x, y] = [event.clientX - from.x, event.clientY - from.y];
    if (Math.hypot(x, y) < LEAST_DRAG) return;
    element.classList.add('dragged');
    element.style.transform = `translate(${x}px, ${y}px)`;
  });
  element.addEventListener('pointerup', (event) => {
    const moved = element.classList.contains('dragged');
    reset();
    if (moved) dropped(event.clientX, event.clientY);
  });
  element.addEventListener('pointercancel', reset);
}
