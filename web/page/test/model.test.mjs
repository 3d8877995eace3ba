import assert from 'node:assert/strict';
import test from 'node:test';
import { find, openCells } from '../live.mjs';
import { Model } from '../model.mjs';
import { namesFault, sizes } from '../start.mjs';
import { keyOf, save, stored } from '../store.mjs';
import { fits } from '../trials.mjs';
import { fileText, lib } from './library.mjs';

const start = () => new Model(lib, { m: 2, names: ['a', 'b', 'c'], cells: [0, 0, 0, 1, 0, 1, 1, 1] });
const cellsOf = (model) => [...model.doc.cells].join('');

// Runs a search to its end and returns the result.
function finished(search) {
  let turn = search.next();
  while (!turn.done) turn = search.next();
  return turn.value;
}

const resultOf = (model) => finished(find(lib, model.doc, () => model.table, model.pinned, model.choice));

test('every change is undone and done again, as often as there are changes', () => {
  const model = start();
  const states = [cellsOf(model)];
  for (let k = 0; k < 500; k += 1) {
    model.paint([k % 8], k % 3);
    states.push(cellsOf(model));
  }
  const distinct = states.filter((state, k) => k === 0 || state !== states[k - 1]);
  for (let k = distinct.length - 2; k >= 0; k -= 1) {
    model.undo();
    assert.equal(cellsOf(model), distinct[k]);
  }
  assert.ok(!model.canUndo);
  for (let k = 1; k < distinct.length; k += 1) {
    model.redo();
    assert.equal(cellsOf(model), distinct[k]);
  }
  assert.ok(!model.canRedo);
});

test('a stroke is one step, and painting what is there is none', () => {
  const model = start();
  model.beginStroke();
  for (const index of [0, 1, 2]) model.paint([index], 1);
  model.endStroke();
  model.paint([0], 1);
  assert.equal(cellsOf(model), '11110111');
  model.undo();
  assert.equal(cellsOf(model), '00010111');
  assert.ok(!model.canUndo);
});

test('the pen keeps its ink, or leaves cells open, whatever the levels become', () => {
  const model = start();
  model.open(fileText('examples/shade.table'));
  model.setPen(3);
  model.undo();
  assert.equal(model.pen, 1);
  model.redo();
  assert.equal(model.pen, 3);
  model.setPen(4);
  model.undo();
  assert.equal(model.pen, 2);
});

test('a change after undo forgets what was undone', () => {
  const model = start();
  model.paint([0], 1);
  model.undo();
  model.paint([1], 1);
  assert.ok(!model.canRedo);
});

test('listeners hear which cells were painted, until they stop', () => {
  const model = start();
  const heard = [];
  const stop = model.on('doc', ({ indexes }) => heard.push(indexes));
  model.paint([0, 3, 4], 1);
  stop();
  model.paint([1], 1);
  assert.deepEqual(heard, [[0, 4]]);
});

test('tables, loose sheets, CSV and nets open; a refused file leaves the work', () => {
  const model = start();
  for (const [file, levels] of [['shade.table', 4], ['export.txt', 3], ['figure1.net', 3], ['majority.table', 2]]) {
    assert.equal(model.open(fileText(`examples/${file}`), file), null, file);
    assert.equal(model.doc.m, levels);
    assert.equal(model.pinned !== null, file.endsWith('.net'));
  }
  assert.equal(model.open('levels,inputs\r\n2,2\r\nx,y,ink\r\n0,0,0\r\n1,1,1\r\n0,1,0\r\n1,0,0\r\n', 'x.csv'), null);
  assert.equal(cellsOf(model), '0001');
  assert.equal(model.open('sep=;\r\nMy x;Y;Tone\r\n0;0;0\r\n1;1;1.0\r\n0;1;0\r\n\r\n1;0;1\r\n', 'x.csv'), null);
  assert.deepEqual([cellsOf(model), model.doc.names], ['0011', ['myx', 'y']]);
  assert.equal(model.open('PK\u0003\u0004', 'x.xlsx').sentence, "this is a spreadsheet program's own file: export it as CSV");
  let words = null;
  model.on('complain', (text) => {
    words = text;
  });
  const before = model.doc;
  const explanation = model.open('levels inputs\n2 2\nday near ink\n0 0 0\n1 0 1\n1 1 1\n', 'mine.table');
  assert.equal(explanation.refusal.number, 5);
  assert.match(words, /^mine\.table:5:1: .*\n {4}1 0 1\n {4}\^\n/);
  assert.equal(model.doc, before);
});

test('a table that the library refuses is not taken', () => {
  const model = start();
  const before = model.doc;
  assert.equal(model.replace({ m: 2, names: ['a', 'a'], cells: [0, 0, 0, 0] }).number, 4);
  assert.equal(model.replace({ m: 2, names: ['a', 'b'], cells: [0, 0, 0, 3] }) !== null, true);
  assert.equal(model.rename(['a', 'B', 'c']).number, 4);
  assert.equal(model.doc, before);
  assert.ok(!model.canUndo);
});

test('an arrangement is a step, and the table stays the same', () => {
  const model = start();
  const { sheet } = model;
  model.arrange({ across: [0], down: [2, 1] });
  assert.deepEqual(model.doc.down, [2, 1]);
  assert.equal(model.sheet, sheet);
  model.undo();
  assert.deepEqual(model.doc.down, [0]);
});

test('the work survives in storage, and bad storage is no error', () => {
  const kept = new Map();
  const storage = { getItem: (key) => kept.get(key) ?? null, setItem: (key, value) => kept.set(key, value) };
  const model = start();
  model.paint([0], 2);
  model.arrange({ across: [0], down: [2, 1] });
  model.showTab('glyph');
  save(model, storage, 'k');
  const { table, pinned, tab } = stored(storage, 'k');
  const again = new Model(lib, table, pinned);
  assert.deepEqual(again.doc, model.doc);
  assert.equal(tab, 'glyph');
  assert.equal(stored(storage, 'other'), null);
  kept.set('k', '{"table": "t=2.a.b.0110", "across": null}');
  assert.deepEqual(new Model(lib, stored(storage, 'k').table).doc.across, [1]);
  kept.set('k', '{"table": "t=2.a"}');
  assert.equal(stored(storage, 'k'), null);
  kept.set('k', 'not json');
  assert.equal(stored(storage, 'k'), null);
  assert.equal(stored(null, 'k'), null);
  save(model, null, 'k');
  assert.notEqual(keyOf('/x', 'a'), keyOf('/x', 'b'));
});

test('a link opens the same table', () => {
  const model = start();
  assert.equal(model.link('file:///x/sitgurp.html#old'), 'file:///x/sitgurp.html#t=2.a.b.c.00010111');
});

test('the result is the library’s', () => {
  const model = start();
  const none = resultOf(model);
  assert.deepEqual([none.state, none.refusal.number, none.refusal.place], ['none', 16, 7]);
  model.open(fileText('examples/seven.table'));
  const tree = resultOf(model);
  assert.equal(tree.state, 'tree');
  assert.equal(tree.net.sheet, fileText('examples/seven.net'));
  model.paint([5], 3);
  assert.deepEqual(openCells(model.doc), [5]);
  assert.equal(resultOf(model).state, 'open');
});

test('a chosen number shows that tree, and one too large the settled tree', () => {
  const odd = (k) => [...k.toString(2)].filter((digit) => digit === '1').length % 2;
  const model = new Model(lib, { m: 2, names: ['a', 'b', 'c', 'd'], cells: Array.from({ length: 16 }, (_, k) => odd(k)) });
  model.choose(2);
  const result = resultOf(model);
  assert.equal(result.count, 15);
  assert.equal(result.net.sheet, lib.familyTree(model.sheet, 2).sheet);
  model.choose(99);
  assert.equal(resultOf(model).net.sheet, lib.make(model.sheet).sheet);
  model.choose('shallow');
  assert.equal(resultOf(model).layers, 2);
});

test('a pinned wiring is refilled, and the result says where it stops', () => {
  const model = start();
  model.open(fileText('examples/shade.net'), 'shade.net');
  const first = resultOf(model);
  assert.deepEqual(first.keep.changed, []);
  model.setCells(Array.from(model.doc.cells, (ink) => 3 - ink), 'inverted');
  assert.deepEqual(resultOf(model).keep.changed, [2]);
  model.paint([5], (model.doc.cells[5] + 1) % 4);
  const stuck = resultOf(model);
  assert.deepEqual([stuck.keep.refusal.number, stuck.keep.refusal.place], [23, 1]);
  assert.ok(['none', 'stuck'].includes(stuck.state));
  model.undo();
  assert.equal(resultOf(model).state, 'tree');
});

test('renaming inputs keeps the pin', () => {
  const model = start();
  model.open(fileText('examples/figure1.net'), 'figure1.net');
  assert.equal(model.rename(['z4', 'b', 'z1', 'd']), null);
  const { state, keep } = resultOf(model);
  assert.equal(state, 'tree');
  assert.deepEqual(keep.changed, []);
  assert.deepEqual(keep.net.names, ['z4', 'b', 'z1', 'd']);
});

test('the library says which sizes there are', () => {
  assert.ok(fits(lib, 2, 12) && fits(lib, 4, 6) && fits(lib, 9, 3));
  assert.ok(!fits(lib, 2, 13) && !fits(lib, 9, 4) && !fits(lib, 10, 2) && !fits(lib, 2, 1));
  assert.deepEqual(sizes(lib, 4, 6), { levels: [2, 3, 4], more: false, fewer: true });
});

test('a bad name is refused in the words of the command, a good one is not', () => {
  assert.equal(namesFault(lib, 2, ['a', 'b']), null);
  assert.match(namesFault(lib, 2, ['a', 'Bad']), /^names:3:3: [^]*\n {4}a Bad ink\n {6}\^/);
  assert.match(namesFault(lib, 2, ['a', 'a']), /:3:3:/);
  assert.match(namesFault(lib, 2, ['a', '']), /:3:/);
});
