// The page's state: the table, the pinned wiring, what is chosen and shown. Panels read it, call its commands and listen to its events.
// Every table in it has been accepted by the library.

import { isExplanation, isRefusal } from '../src/sitgurp.mjs';
import { makeDocument, painted, renamedNet, toLink } from './document.mjs';
import { History } from './history.mjs';

export class Model {
  #lib;
  #history;
  #tables = new WeakMap();
  #listeners = new Map();
  #stroke = null;
  #result = { state: 'working', progress: 0, net: null, count: 0 };
  #choice = 'settled';
  #tab = 'tree';
  #pen = { ink: 1, open: false };
  #marked = null;

  constructor(lib, { m, names, cells, across, down }, pinned = null) {
    this.#lib = lib;
    this.#history = new History({ doc: makeDocument(m, names, cells, across, down), pinned });
  }

  // ---- what there is

  get doc() {
    return this.#history.state.doc;
  }

  get pinned() {
    return this.#history.state.pinned;
  }

  get canUndo() {
    return this.#history.canUndo;
  }

  get canRedo() {
    return this.#history.canRedo;
  }

  // The library's table of the document, read when it is first asked for.
  get table() {
    const { doc } = this;
    if (!this.#tables.has(doc)) this.#tables.set(doc, this.#lib.tableFromInks(doc.m, doc.names, doc.cells));
    return this.#tables.get(doc);
  }

  get sheet() {
    return this.table.sheet;
  }

  get result() {
    return this.#result;
  }

  // Returns true if a result is that of the current table and pin.
  isCurrent({ of }) {
    const { doc, pinned } = this;
    return Boolean(of) && of.cells === doc.cells && of.pinned === pinned && of.names.join() === doc.names.join();
  }

  // The net that is shown, null if there is none for the current table or it is not known yet.
  get net() {
    return this.#result.state === 'tree' && this.isCurrent(this.#result) ? this.#result.net : null;
  }

  get choice() {
    return this.#choice;
  }

  get tab() {
    return this.#tab;
  }

  // The ink of the pen; m leaves cells open.
  get pen() {
    return this.#pen.open ? this.doc.m : Math.min(this.#pen.ink, this.doc.m - 1);
  }

  // The cells that a panel points at: { indexes, what } or null.
  get marked() {
    return this.#marked;
  }

  // ---- events

  // Calls `listener` at every event of that name. Returns a function that ends this.
  on(name, listener) {
    if (!this.#listeners.has(name)) this.#listeners.set(name, new Set());
    this.#listeners.get(name).add(listener);
    return () => this.#listeners.get(name).delete(listener);
  }

  // Calls the listeners of an event.
  #emit(name, detail) {
    for (const listener of this.#listeners.get(name) ?? []) listener(detail);
  }

  // ---- changes of the table, each one step of undo

  // Takes a new state: as a step of its own, or as part of the stroke that has begun.
  #change(state, what, detail = {}) {
    const inStroke = this.#stroke?.begun;
    const full = { ...this.#history.state, ...state };
    if (inStroke) this.#history.amend(full);
    else this.#history.push(full);
    if (this.#stroke) this.#stroke.begun = true;
    this.#changed(what, detail);
  }

  // Tells that the table or the pin has changed.
  #changed(what, detail = {}) {
    if (this.#marked) this.highlight(null);
    this.#emit('doc', { what, ...detail });
  }

  // Puts another table in place. Returns null, or the library's refusal, and then nothing changes.
  replace({ m, names, cells, across, down }, what = 'changed', pinned = null) {
    const table = this.#lib.tableFromInks(m, names, cells);
    if (isRefusal(table)) return table;
    const doc = makeDocument(m, names, cells, across ?? this.doc.across, down ?? this.doc.down);
    this.#tables.set(doc, table);
    this.#change({ doc, pinned }, what);
    this.#emit('pin');
    return null;
  }

  // Opens a file or pasted text: a table sheet, loose sheet, CSV or net sheet. Returns null, or the explanation, and then nothing changes.
  open(bytes, file = 'the text') {
    const opened = this.#lib.open(bytes, file);
    if (isExplanation(opened)) {
      this.complain(opened.toString());
      return opened;
    }
    const table = opened.kind === 'net' ? opened.net.table() : opened.table;
    this.complain(null);
    this.#choice = 'settled';
    const pinned = opened.kind === 'net' ? opened.net.sheet : null;
    this.replace({ m: table.levels, names: table.names, cells: table.inks, across: [], down: [] }, `opened ${file}`, pinned);
    const renamed = (opened.columns ?? []).filter(({ name, written }) => name !== written);
    const names = renamed.map(({ name, written }) => ` ${name} is \`${written}\`.`).join('');
    this.say(pinned ? `Opened the net of ${file}. Its wiring is pinned.` : `Opened ${file}.${names}`);
    return null;
  }

  // Gives all cells other inks; header, arrangement and pin stay.
  setCells(cells, what) {
    this.#change({ doc: { ...this.doc, cells: Uint8Array.from(cells) } }, what);
  }

  // Gives some cells an ink. Inside a stroke all of it is one step.
  paint(indexes, ink) {
    const { doc } = this;
    const changed = [...indexes].filter((index) => doc.cells[index] !== ink);
    if (changed.length === 0) return;
    this.#change({ doc: painted(doc, changed, ink) }, 'painted', { indexes: changed });
  }

  // Begins a stroke: what is painted until its end is one step.
  beginStroke() {
    this.#stroke = { begun: false };
  }

  // Ends the stroke.
  endStroke() {
    this.#stroke = null;
  }

  // Renames the inputs, in a pinned wiring too. Returns null, or the library's refusal.
  rename(names) {
    const pinned = this.pinned === null ? null : renamedNet(this.pinned, this.doc.names, names);
    return this.replace({ ...this.doc, names }, 'renamed', pinned);
  }

  // Arranges the map: which inputs count across, and which down.
  arrange({ across, down }) {
    const { m, names, cells } = this.doc;
    const doc = { ...makeDocument(m, names, cells, across, down), cells };
    this.#tables.set(doc, this.table);
    this.#change({ doc }, 'arranged');
  }

  // Pins the wiring of a net sheet: from now on its gates are refilled.
  pin(netSheet) {
    this.#change({ pinned: netSheet }, 'pinned');
    this.#emit('pin');
  }

  // Lets the wiring change again.
  unpin() {
    this.#change({ pinned: null }, 'unpinned');
    this.#emit('pin');
  }

  // Goes one step back.
  undo() {
    this.#step(this.#history.undo(), 'Undone.');
  }

  // Goes one step forward again.
  redo() {
    this.#step(this.#history.redo(), 'Done again.');
  }

  // Tells that undo or redo has moved.
  #step(moved, words) {
    if (!moved) return;
    this.#stroke = null;
    this.#changed('undo');
    this.#emit('pin');
    this.say(words);
  }

  // ---- what is shown

  // Chooses the tree: 'settled', 'shallow' or a number from 0.
  choose(choice) {
    this.#choice = choice;
    this.#emit('choice');
  }

  // Gives the pen an ink; m leaves cells open.
  setPen(ink) {
    this.#pen = { ink, open: ink === this.doc.m };
    this.#emit('pen');
  }

  // Shows a tab of the right column.
  showTab(name) {
    this.#tab = name;
    this.#emit('tab', name);
  }

  // Marks cells in the map; null clears the marks.
  highlight(indexes, what = '') {
    this.#marked = indexes === null ? null : { indexes: [...indexes], what };
    this.#emit('highlight');
  }

  // Takes over what the background work has found.
  setResult(result) {
    this.#result = result;
    this.#emit('result');
  }

  // Says something to screen readers.
  say(text) {
    this.#emit('say', text);
  }

  // Shows what is wrong with an input; null clears it.
  complain(words) {
    this.#emit('complain', words);
  }

  // Hands an image file to the Glyph tab.
  offerPicture(file) {
    this.showTab('glyph');
    this.#emit('picture', file);
  }

  // Returns the address of this page with the table in it.
  link(base = globalThis.location?.href ?? '') {
    return `${base.split('#')[0]}#${toLink(this.doc)}`;
  }
}
