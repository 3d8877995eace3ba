// The live result: what the library finds for the current table, in slices, and abandoned at the next stroke.

import { isRefusal } from '../src/sitgurp.mjs';
import { slices } from './work.mjs';

// Tables with more cells than this wait until the pen has rested for a moment.
const LARGE = 700;
const REST = 40;
// How long one run of the marking job may take, in milliseconds.
const RUN = 4;
// Work that takes longer than this shows its progress, in milliseconds.
const NOTICED = 80;

// Returns the open cells of a document.
export function openCells(doc) {
  const open = [];
  doc.cells.forEach((ink, index) => {
    if (ink === doc.m) open.push(index);
  });
  return open;
}

// Refills the pinned wiring for the table. Returns { net, changed } or { refusal }, null if nothing is pinned.
export function keepPinned(lib, pinned, table) {
  if (pinned === null) return null;
  const net = lib.net(pinned);
  if (isRefusal(net)) return { refusal: net };
  const kept = net.keep(table);
  return isRefusal(kept) ? { refusal: kept, wiring: net } : { ...kept, wiring: net };
}

// Returns the chosen tree of a family. A number that the family no longer has gives the settled tree.
function chosen(family, shallow, choice) {
  if (choice === 'shallow') return shallow.net;
  const number = typeof choice === 'number' && choice < family.size ? choice : 0;
  return family.tree(number);
}

// Finds the result of a table. Yields how far it is, 0 to 1.
export function* find(lib, doc, table, pinned, choice) {
  const open = openCells(doc);
  if (open.length > 0) return { state: 'open', open, net: null, count: 0 };
  const job = table().job();
  while (!job.run(RUN)) yield job.passed / job.groups;
  const keep = keepPinned(lib, pinned, table());
  yield 1;
  const family = table().family();
  yield 1;
  if (family.size === 0) return { state: 'none', refusal: table().settled(), net: null, count: 0, keep };
  const shallow = table().shallow();
  yield 1;
  const net = pinned === null ? chosen(family, shallow, choice) : keep.net ?? null;
  const state = net === null ? 'stuck' : 'tree';
  return { state, net, count: family.size, family, shallow, fewest: shallow.layers, layers: net?.layers() ?? 0, keep };
}

// Keeps model.result up to date.
export function follow(model, lib) {
  let stop = () => {};
  const restart = () => {
    stop();
    if (model.isCurrent(model.result)) return;
    const { doc, pinned, choice } = model;
    const of = { cells: doc.cells, names: doc.names, pinned };
    const search = progressing(find(lib, doc, () => model.table, pinned, choice), model);
    stop = slices(search, (result) => model.setResult({ ...result, of }), doc.cells.length > LARGE ? REST : 0);
  };
  const repage = () => {
    const { state, family, shallow } = model.result;
    if (state !== 'tree' || model.pinned !== null || !model.isCurrent(model.result)) return;
    const net = chosen(family, shallow, model.choice);
    model.setResult({ ...model.result, net, layers: net.layers() });
  };
  model.on('doc', restart);
  model.on('choice', repage);
  restart();
}

// Passes a search through, and tells the model how far it is once it takes longer than an eye notices. The last net stays visible meanwhile.
function* progressing(search, model) {
  const start = performance.now();
  let turn = search.next();
  while (!turn.done) {
    if (performance.now() - start > NOTICED) model.setResult({ ...model.result, of: null, state: 'working', progress: turn.value });
    yield;
    turn = search.next();
  }
  return turn.value;
}
