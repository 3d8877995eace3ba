// Starts the page: loads the library, finds the table to begin with, and wires the panels to the model.

import { isExplanation, isRefusal, load } from '../src/sitgurp.mjs';
import { mount as mountCompare } from './compare.mjs';
import { fromLink } from './document.mjs';
import { el } from './dom.mjs';
import { mount as mountGlyph } from './glyph.mjs';
import { follow as followTable } from './live.mjs';
import { Model } from './model.mjs';
import { mount as mountPaint } from './paint.mjs';
import { mount as mountResult } from './result.mjs';
import { mount as mountStart } from './start.mjs';
import { follow as followStore, keyOf, stored } from './store.mjs';
import { mount as mountTabs } from './tabs.mjs';
import { mount as mountTake } from './take.mjs';

const at = (id) => document.getElementById(id);

// Returns the browser's storage, null if the page may not use it.
function storage() {
  try {
    return window.localStorage;
  } catch {
    return null;
  }
}

// Returns the example sheets that the build has put into the page: file name to text.
function examples() {
  const text = at('sitgurp-examples').textContent.trim();
  return text === '' ? {} : JSON.parse(text);
}

// Returns the table that a new page opens with: the one inside the page, or the first example.
function firstTable(lib, sheet, sheets) {
  const read = lib.readTable(sheet !== '' ? sheet : sheets['shade.table'] ?? '');
  const table = isExplanation(read) ? lib.tableFromRule(2, ['a', 'b'], ([a, b]) => a & b) : read;
  return { m: table.levels, names: table.names, cells: table.inks };
}

// Returns the model as the page was left, or with its first table. A table in the address opens on top, so that undo brings the old work back.
function begin(lib, sheet, sheets, key) {
  const saved = stored(storage(), key);
  const accepted = saved && !isRefusal(lib.tableFromInks(saved.table.m, saved.table.names, saved.table.cells));
  const pinned = accepted && saved.pinned !== null && !isRefusal(lib.net(saved.pinned)) ? saved.pinned : null;
  const model = new Model(lib, accepted ? saved.table : firstTable(lib, sheet, sheets), pinned);
  if (accepted) model.showTab(saved.tab);
  return model;
}

// Opens the table in the address, if there is one, and takes it out of the address.
function openLink(model) {
  if (!location.hash.startsWith('#t=')) return;
  const table = fromLink(location.hash);
  history.replaceState(null, '', location.pathname + location.search);
  if (table === null) {
    model.complain('The link holds no table.');
    return;
  }
  const refusal = model.replace({ ...table, across: [], down: [] }, 'opened the link');
  if (refusal !== null) model.complain(`The table in the link is refused. ${refusal.toString()}`);
}

// Shows complaints below the header until they are closed or the table changes.
function mountNotice(root, model) {
  model.on('complain', (words) => {
    root.replaceChildren();
    if (words === null) return;
    const close = el('button', { class: 'btn small', type: 'button', text: 'Close', onclick: () => model.complain(null) });
    root.append(el('div', { class: 'notice' }, el('pre', { text: words.trimEnd() }), close));
  });
  model.on('doc', () => root.replaceChildren());
}

// Undoes and redoes with Ctrl Z, Ctrl Y and Ctrl Shift Z anywhere on the page.
function mountKeys(model) {
  addEventListener('keydown', (event) => {
    const typing = event.target.matches?.('input:not([type=radio]):not([type=checkbox]), textarea');
    if (typing || !(event.ctrlKey || event.metaKey) || event.altKey) return;
    const key = event.key.toLowerCase();
    if (key === 'z' && !event.shiftKey) model.undo();
    else if (key === 'y' || (key === 'z' && event.shiftKey)) model.redo();
    else return;
    event.preventDefault();
  });
}

// Starts everything. Called once by the last line.
export async function start() {
  const bytes = Uint8Array.from(atob(at('sitgurp-wasm').textContent.trim()), (letter) => letter.charCodeAt(0));
  const lib = await load(bytes);
  const sheet = at('sitgurp-sheet').textContent.replace(/^\n/, '');
  const sheets = examples();
  const key = keyOf(location.pathname, sheet);
  const model = begin(lib, sheet, sheets, key);
  // the drawing in it has a style sheet of its own, which must not reach the page
  at('static').replaceChildren();
  at('static').hidden = true;
  at('app').hidden = false;
  mountNotice(at('notice'), model);
  model.on('say', (text) => {
    at('live').textContent = text;
  });
  mountStart(at('start'), model, lib, sheets);
  mountPaint(at('paint'), model, lib);
  mountResult(at('panel-tree'), model, lib);
  mountCompare(at('panel-compare'), model, lib);
  mountGlyph(at('panel-glyph'), model, lib, sheets);
  mountTake(at('panel-take'), model, lib);
  mountTabs(at('tabs'), model);
  mountKeys(model);
  openLink(model);
  addEventListener('hashchange', () => openLink(model));
  followTable(model, lib);
  followStore(model, storage(), key);
  window.sitgurp = { model, lib };
}

start().catch((error) => {
  document.body.append(el('p', { class: 'no-script', role: 'alert', text: `This browser cannot run the page: ${error.message}` }));
});
