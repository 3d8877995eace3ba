// The Take-it-away panel: the table sheet, the net sheet, the tree as a picture, a link with the table in it, and paper.

import { fileName } from './changes.mjs';
import { button, el, field } from './dom.mjs';
import { later, recall, remember } from './memory.mjs';
import { svgText } from './picture.mjs';
import { savePng, saveText } from './save.mjs';

// How long after a stroke the sheets are written again, in milliseconds.
const REST = 120;

// Copies a text. Returns whether the browser let it.
async function copy(text, box) {
  try {
    await navigator.clipboard.writeText(text);
    return true;
  } catch {
    box.select();
    return document.execCommand('copy');
  }
}

// Builds the panel.
export function mount(root, model) {
  const name = el('input', { type: 'text', value: recall('name') ?? 'mine', spellcheck: 'false', oninput: () => remember('name', name.value) });
  const link = el('textarea', { class: 'mono', rows: 3, readonly: true, 'aria-label': 'Link with the table in it', onfocus: () => link.select() });
  const sheet = (label) => el('pre', { class: 'mono sheet', tabindex: '0', role: 'region', 'aria-label': label });
  const sheets = { table: sheet('Table sheet'), net: sheet('Net sheet') };
  const none = el('p', { class: 'note', text: 'There is no tree now, so only the table can be taken away.' });
  const file = (ending) => fileName(name.value, ending);

  // Makes a button that saves a file and says so.
  function saver(text, ending, save) {
    return button(text, async () => {
      try {
        await save(file(ending));
        model.say(`Saved ${file(ending)}.`);
      } catch {
        model.complain(`The browser could not make ${file(ending)}.`);
      }
    });
  }

  const ofNet = [
    saver('Net sheet', 'net', (to) => saveText(to, model.net.sheet)),
    saver('Tree as SVG', 'svg', (to) => saveText(to, svgText(model.net), 'image/svg+xml')),
    saver('Tree as PNG', 'png', (to) => savePng(to, svgText(model.net))),
  ];

  // Shows the sheets and the link as they are now.
  function draw() {
    if (model.tab !== 'take') return;
    link.value = model.link();
    sheets.table.textContent = model.sheet;
    sheets.net.textContent = model.net?.sheet ?? '';
    netSheet.hidden = model.net === null;
    none.hidden = model.net !== null;
    for (const control of ofNet) control.disabled = model.net === null;
  }

  const copyLink = button('Copy the link', async () => model.say((await copy(link.value, link)) ? 'The link is copied.' : 'The browser did not copy it.'));
  const netSheet = el('details', {}, el('summary', { text: 'Look at the net sheet' }), sheets.net);
  root.append(
    el('h3', { text: 'Files' }),
    field('Name of the files', name),
    el('div', { class: 'row' }, saver('Table sheet', 'table', (to) => saveText(to, model.sheet)), ofNet),
    none,
    el('details', {}, el('summary', { text: 'Look at the table sheet' }), sheets.table),
    netSheet,
    el('h3', { text: 'Link' }),
    el('p', { class: 'note', text: 'The link contains the whole table. It opens this page with it; nothing is sent anywhere.' }),
    link,
    el('div', { class: 'row' }, copyLink),
    el('h3', { text: 'Paper' }),
    el('div', { class: 'row' }, button('Print', () => window.print())),
  );
  model.on('tab', draw);
  for (const event of ['doc', 'result']) model.on(event, later(draw, REST));
  draw();
}
