// Where each input of a net is read: an offset across and down, -2 to 2 each, with a small map to click on.

import { offsetText } from './changes.mjs';
import { clear, el, svg } from './dom.mjs';

const REACH = 2;
const CELL = 12;

// Draws the twenty-five cells that an input may be read from. The middle is the cell itself.
function reachMap(across, down, choose) {
  const cells = [];
  for (let y = -REACH; y <= REACH; y += 1) {
    for (let x = -REACH; x <= REACH; x += 1) {
      const kind = `reach${x === across && y === down ? ' chosen' : ''}${x === 0 && y === 0 ? ' own' : ''}`;
      const place = { x: (x + REACH) * CELL + 1, y: (y + REACH) * CELL + 1, width: CELL - 2, height: CELL - 2, rx: 2 };
      cells.push(svg('rect', { class: kind, ...place, onclick: () => choose(x, y) }));
    }
  }
  const side = (2 * REACH + 1) * CELL;
  return svg('svg', { class: 'reach-map', width: side, height: side, viewBox: `0 0 ${side} ${side}`, 'aria-hidden': 'true' }, cells);
}

// Makes the control of one input. `choose(across, down)` is called with every change.
function offsetOf(name, [across, down], choose) {
  const number = (value, word, put) => el('input', { type: 'number', min: -REACH, max: REACH, step: 1, value, 'aria-label': `${name}: cells ${word}`,
    oninput: (event) => {
      const wanted = Number(event.target.value);
      if (event.target.value !== '' && Number.isInteger(wanted) && Math.abs(wanted) <= REACH) put(wanted);
    } });
  return el('div', { class: 'offset', role: 'group', 'aria-label': `Where ${name} is read` },
    el('strong', { text: name }),
    reachMap(across, down, choose),
    el('label', {}, 'across ', number(across, 'across, right is positive', (wanted) => choose(wanted, down, 0))),
    el('label', {}, 'down ', number(down, 'down, below is positive', (wanted) => choose(across, wanted, 1))),
    el('span', { class: 'note', text: offsetText(across, down) }));
}

// Draws the controls of all inputs in an element. The field that was typed in keeps the focus.
export function drawOffsets(root, names, offsetsOf, change) {
  clear(root).append(...names.map((name, i) => offsetOf(name, offsetsOf(name), (across, down, typed) => {
    change(name, [across, down]);
    drawOffsets(root, names, offsetsOf, change);
    if (typed !== undefined) root.children[i].querySelectorAll('input')[typed].focus();
  })));
}
