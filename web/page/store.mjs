// The work in the browser's storage, so that it survives a reload. Storage that is missing or full is not an error: the page then just forgets.

import { fromLink, toLink } from './document.mjs';

// How long after a change the work is stored, in milliseconds.
const DELAY = 250;

// Returns a short key for a text, so that pages with other tables inside keep their work apart.
export function keyOf(place, sheet) {
  let hash = 2166136261;
  for (const letter of sheet) hash = Math.imul(hash ^ letter.codePointAt(0), 16777619) >>> 0;
  return `sitgurp:${place}:${hash.toString(16)}`;
}

// Returns what is stored: a table and its arrangement, the pinned wiring and the tab. Null if there is nothing readable.
export function stored(storage, key) {
  try {
    const saved = JSON.parse(storage.getItem(key));
    const table = saved && fromLink(saved.table);
    if (!table) return null;
    const { across, down, pinned = null, tab = 'tree' } = saved;
    const arranged = Array.isArray(across) && Array.isArray(down) ? { across, down } : {};
    return { table: { ...table, ...arranged }, pinned, tab };
  } catch {
    return null;
  }
}

// Stores the work now.
export function save(model, storage, key) {
  const { doc, pinned, tab } = model;
  try {
    storage.setItem(key, JSON.stringify({ table: toLink(doc), across: doc.across, down: doc.down, pinned, tab }));
  } catch {
    // no storage: the work lasts as long as the page
  }
}

// Stores the work soon after every change, and when the page is left.
export function follow(model, storage, key) {
  let timer = 0;
  const later = () => {
    clearTimeout(timer);
    timer = setTimeout(() => save(model, storage, key), DELAY);
  };
  for (const event of ['doc', 'pin', 'tab']) model.on(event, later);
  addEventListener('pagehide', () => save(model, storage, key));
}
