// Inverts or renames the shades of the table: the first part of the Compare panel.

import { inverted, isIdle, renamedCells, renamedTo } from './changes.mjs';
import { button, clear, el } from './dom.mjs';
import { shade, textOn } from './shades.mjs';
import { masks } from './verdicts.mjs';

// Makes a square in the colour of a level, with its digit.
function swatch(level, m) {
  return el('span', { class: 'swatch', text: level, style: `background:${shade(level, m)};color:${textOn(level, m)}` });
}

// Builds the controls in an element and follows the model.
export function mountRenaming(root, model) {
  let renaming = [];
  const choices = el('div', { class: 'row renaming' });
  const note = el('p', { class: 'note', role: 'status' });
  const rename = button('Rename', () => apply(renaming, 'renamed'), { title: 'Gives every cell the new name of its shade' });

  // Gives every cell its new shade, and tells which gates need new tables.
  function apply(map, what) {
    const net = model.net;
    model.setCells(renamedCells(model.doc.cells, map), what);
    note.textContent = masks(net, model.table);
    model.say(`Shades ${what}. ${note.textContent}`);
    reset();
  }

  // Starts again with every shade as it is.
  function reset() {
    renaming = inverted(model.doc.m).reverse();
    draw();
  }

  // Draws a list of choices for each shade. Two shades that would become one exchange their names instead.
  function draw() {
    const { m } = model.doc;
    clear(choices).append(...renaming.map((other, ink) => {
      const options = renaming.map((_, level) => el('option', { value: level, text: level, '.selected': level === other }));
      const onchange = (event) => {
        renaming = renamedTo(renaming, ink, Number(event.target.value));
        draw();
        choices.querySelectorAll('select')[ink].focus();
      };
      const select = el('select', { onchange, 'aria-label': `Shade ${ink} becomes` }, options);
      return el('label', { class: 'rename' }, swatch(ink, m), el('span', { text: 'becomes' }), select);
    }));
    rename.disabled = isIdle(renaming);
  }

  root.append(
    el('h3', { text: 'Other shades' }),
    el('p', { class: 'note', text: 'Renaming shades one to one keeps the wiring and every gate table but the last.' }),
    el('div', { class: 'row' }, button('Invert, dark for light', () => apply(inverted(model.doc.m), 'inverted'))),
    choices,
    el('div', { class: 'row' }, rename),
    note,
  );
  model.on('doc', () => {
    if (renaming.length !== model.doc.m) reset();
  });
  reset();
}
