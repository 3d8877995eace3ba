import assert from 'node:assert/strict';
import test from 'node:test';
import { decidedCells, groupsOf, reachingCells } from '../decided.mjs';
import { makeDocument } from '../document.mjs';
import { layoutOf } from '../layout.mjs';
import { svgText } from '../picture.mjs';
import { changedWords, stuckWords } from '../pin.mjs';
import { headline } from '../result.mjs';
import { fillings, hasTree, moreLevels, partsOf, singleChanges, splits } from '../trials.mjs';
import { fileText, lib } from './library.mjs';

const netOf = (file) => lib.net(fileText(`examples/${file}`));

test('the drawing is the one of the command', () => {
  for (const name of ['figure1', 'seven']) {
    assert.equal(svgText(netOf(`${name}.net`)), fileText(`docs/pictures/${name}.svg`));
  }
});

test('no box of a tree lies on another, of all trees of a table', () => {
  const sum = lib.tableFromRule(2, [...'abcde'], (levels) => levels.reduce((a, b) => a ^ b));
  for (const net of sum.family()) {
    const { areas } = layoutOf(net);
    const boxes = [...areas.inputs, ...areas.gates];
    boxes.forEach((one, k) => boxes.slice(0, k).forEach((other) => {
      const apart = one.x >= other.x + other.width || other.x >= one.x + one.width || one.y >= other.y + other.height || other.y >= one.y + one.height;
      assert.ok(apart);
    }));
  }
});

// Returns the values of a net's gates at an assignment, worked out by hand. `forced` gives one gate a level.
function values(net, levels, forced = {}) {
  const out = [];
  const of = (wire) => (wire.input !== undefined ? levels[wire.input] : out[wire.gate]);
  net.gates.forEach((gate, k) => out.push(forced[k] ?? gate.digits[of(gate.left) * net.levels + of(gate.right)]));
  return out;
}

test('the cells of a gate and of its digits are right', () => {
  for (const file of ['shade.net', 'figure1.net', 'seven.net']) {
    const net = netOf(file);
    const table = net.table();
    net.gates.forEach((gate, k) => {
      const reached = Array.from(gate.digits, (_, digit) => reachingCells(lib, net, k, digit));
      assert.deepEqual(reached.flat().sort((a, b) => a - b), [...table.inks.keys()], 'every cell reaches one digit');
      reached.forEach((cells, digit) => cells.forEach((index) => {
        assert.equal(values(net, table.assignment(index))[k], gate.digits[digit]);
      }));
    });
    net.gates.forEach((_, k) => {
      const outputs = (index) => Array.from({ length: net.levels }, (__, level) => values(net, table.assignment(index), { [k]: level }).at(-1));
      const decided = [...table.inks.keys()].filter((index) => new Set(outputs(index)).size > 1);
      assert.deepEqual(decidedCells(lib, net, k), decided);
    });
  }
});

test('the group of a gate has the inputs below it', () => {
  assert.deepEqual(groupsOf(netOf('figure1.net')), [3, 12, 15]);
});

const majority = makeDocument(2, ['a', 'b', 'c'], [0, 0, 0, 1, 0, 1, 1, 1]);

// Runs a search to its end; returns what it yielded and what it returned.
function finished(search) {
  const turns = [];
  let turn = search.next();
  for (; !turn.done; turn = search.next()) turns.push(turn.value);
  return { turns, value: turn.value };
}

test('all changes of one cell that give a tree are found', () => {
  const { turns } = finished(singleChanges(lib, majority));
  const found = turns.map((turn) => turn.found).filter(Boolean);
  assert.equal(turns.at(-1).tried, turns.at(-1).of);
  assert.deepEqual(found.map(({ index, ink }) => `${index}=${ink}`), ['1=1', '2=1', '3=0', '4=1', '5=0', '6=0']);
  assert.deepEqual([...majority.cells], [0, 0, 0, 1, 0, 1, 1, 1]);
});

test('the ways to split a group are those of the command', () => {
  const { value } = finished(splits(lib, majority, 7));
  assert.deepEqual(value.map(({ parts, classes }) => [parts, classes]), [[[1, 6], [2, 3]], [[3, 4], [3, 2]], [[5, 2], [3, 2]]]);
  assert.deepEqual(partsOf(0b1011), [0b0001, 0b0011, 0b1001]);
});

test('more levels are offered where they give a tree', () => {
  assert.equal(finished(moreLevels(lib, majority)).value, 3);
  const eight = makeDocument(2, [...'abcdefgh'], Array.from({ length: 256 }, (_, k) => (k * 2654435761 >>> 13) & 1));
  assert.equal(finished(moreLevels(lib, eight)).value, null);
});

test('the fillings of open cells that have a tree are found', () => {
  const doc = makeDocument(2, ['a', 'b', 'c'], [0, 0, 0, 2, 0, 2, 1, 1]);
  const found = finished(fillings(lib, doc, [3, 5])).turns.map((turn) => turn.found).filter(Boolean);
  assert.deepEqual(found, [[0, 0], [0, 1], [1, 0]]);
  for (const inks of found) assert.ok(hasTree(lib, doc, Uint8Array.of(0, 0, 0, inks[0], 0, inks[1], 1, 1)));
});

test('what the pin says', () => {
  assert.equal(changedWords([], 2), 'All 2 gate tables are as pinned.');
  assert.equal(changedWords([2], 2), '1 of 2 masks changed: gate 2 has a new table.');
  const wiring = lib.net('levels inputs\n2 3\na b c\nleft right table\na b 0111\n');
  const table = lib.tableFromInks(2, ['a', 'b', 'c'], [0, 1, 1, 1, 1, 1, 1, 1]);
  assert.equal(stuckWords(wiring.keep(table), wiring, table), 'This wiring leaves out c, and the table needs it.');
  const all = lib.net('levels inputs\n2 3\na b c\nleft right table\na b 0111\n1 c 0111\n');
  const mixed = lib.tableFromInks(2, ['a', 'b', 'c'], [0, 0, 0, 1, 0, 1, 1, 1]);
  assert.match(stuckWords(all.keep(mixed), all, mixed), /^It stops at gate 1: it joins a and b, which now have 3 classes/);
});

test('what the headline says', () => {
  const net = netOf('shade.net');
  const doc = { names: net.names };
  assert.deepEqual(headline({ state: 'tree', net, count: 1, layers: 2, fewest: 2 }, doc), ['1 tree', '2 gates in 2 layers.']);
  assert.equal(headline({ state: 'open', open: [1] }, doc)[0], '1 cell open');
  assert.equal(headline({ state: 'none' }, doc)[0], 'No tree');
});
