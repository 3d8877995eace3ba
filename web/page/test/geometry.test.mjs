import assert from 'node:assert/strict';
import test from 'node:test';
import { dropPlace, keyMove } from '../axes.mjs';
import { makeDocument } from '../document.mjs';
import { assignmentOf, isArrangement, line, mapOf, moveInput, rectangle, usualArrangement } from '../geometry.mjs';
import { cellSize } from '../map.mjs';

const doc = (m, n, across, down) => makeDocument(m, [...'abcdefghijkl'].slice(0, n), new Uint8Array(m ** n), across, down);

test('every cell of a map has its own index, and is found again', () => {
  for (const [m, n, across, down] of [[2, 3, [2, 0], [1]], [3, 4, [3, 1], [0, 2]], [9, 3, [0], [2, 1]], [2, 12, [], []], [4, 6, [5, 3, 1], [4, 2, 0]]]) {
    const own = doc(m, n, across, down);
    const map = mapOf(own);
    const seen = new Set();
    for (let row = 0; row < map.rows; row += 1) {
      for (let column = 0; column < map.columns; column += 1) {
        const index = map.index(row, column);
        assert.equal(map.row(index), row);
        assert.equal(map.column(index), column);
        seen.add(index);
      }
    }
    assert.equal(seen.size, m ** n);
  }
});

test('the first input of an axis counts slowest', () => {
  const own = doc(3, 3, [2, 0], [1]);
  const map = mapOf(own);
  for (let row = 0; row < 3; row += 1) {
    for (let column = 0; column < 9; column += 1) {
      assert.deepEqual(assignmentOf(3, 3, map.index(row, column)), [column % 3, row, Math.floor(column / 3)]);
    }
  }
});

test('a table opens with every input on one axis, not taller than wide', () => {
  for (let n = 2; n <= 12; n += 1) {
    const { across, down } = usualArrangement(n);
    assert.ok(isArrangement(n, across, down));
    assert.ok(down.length <= across.length);
  }
  assert.ok(!isArrangement(3, [0, 1, 2], []));
  assert.ok(!isArrangement(3, [0, 1], [1]));
  assert.ok(!isArrangement(3, [0, 1], [2, 3]));
});

test('a bad arrangement is replaced by the usual one', () => {
  assert.deepEqual(doc(2, 3, [0, 0], [1]).across, usualArrangement(3).across);
});

test('a rectangle has its corners, whichever way it is dragged', () => {
  const map = mapOf(doc(2, 4));
  const one = rectangle(map, { row: 1, column: 3 }, { row: 2, column: 1 });
  const other = rectangle(map, { row: 2, column: 1 }, { row: 1, column: 3 });
  assert.equal(one.length, 6);
  assert.deepEqual(one.sort(), other.sort());
});

test('a quick stroke has no holes', () => {
  const map = mapOf(doc(2, 12));
  const cells = line(map, { row: 3, column: 60 }, { row: 50, column: 2 }).map((index) => [map.row(index), map.column(index)]);
  assert.deepEqual(cells[0], [3, 60]);
  assert.deepEqual(cells.at(-1), [50, 2]);
  for (let k = 1; k < cells.length; k += 1) {
    assert.ok(Math.abs(cells[k][0] - cells[k - 1][0]) <= 1 && Math.abs(cells[k][1] - cells[k - 1][1]) <= 1);
  }
  assert.equal(line(map, { row: 5, column: 5 }, { row: 5, column: 5 }).length, 1);
});

test('an input moves within its axis and to the other one, and no axis becomes empty', () => {
  assert.deepEqual(moveInput({ across: [1, 2], down: [0] }, 2, 'across', 0), { across: [2, 1], down: [0] });
  assert.deepEqual(moveInput({ across: [1, 2], down: [0] }, 2, 'down', 0), { across: [1], down: [2, 0] });
  assert.equal(moveInput({ across: [1, 2], down: [0] }, 0, 'across', 0), null);
});

test('arrow keys move a chip', () => {
  const own = doc(2, 4, [2, 3], [0, 1]);
  assert.deepEqual(keyMove(own, 2, 'ArrowRight'), { across: [3, 2], down: [0, 1] });
  assert.deepEqual(keyMove(own, 2, 'ArrowUp'), { across: [3], down: [0, 1, 2] });
  assert.deepEqual(keyMove(own, 0, 'ArrowDown'), { across: [2, 3, 0], down: [1] });
  assert.equal(keyMove(own, 2, 'ArrowLeft'), null);
  assert.equal(keyMove(own, 2, 'x'), null);
});

test('a chip is dropped into the nearest list, between the chips around the point', () => {
  const box = (left, top, right, bottom) => ({ left, top, right, bottom });
  const lists = [
    { axis: 'down', box: box(50, 0, 200, 30), chips: [box(50, 0, 90, 30), box(100, 0, 140, 30)] },
    { axis: 'across', box: box(50, 40, 200, 70), chips: [box(50, 40, 90, 70)] },
  ];
  assert.deepEqual(dropPlace(lists, 95, 10), { axis: 'down', place: 1 });
  assert.deepEqual(dropPlace(lists, 20, 60), { axis: 'across', place: 0 });
  assert.deepEqual(dropPlace(lists, 190, 55), { axis: 'across', place: 1 });
});

test('cells fill the width, and no arrangement makes a canvas too long', () => {
  assert.equal(cellSize({ rows: 4, columns: 16 }, 560, 1), 35);
  assert.equal(cellSize({ rows: 2, columns: 4 }, 560, 1), 48);
  assert.equal(cellSize({ rows: 64, columns: 64 }, 500, 1), 13);
  assert.equal(cellSize({ rows: 81, columns: 9 }, 560, 1), 18);
  for (const zoom of [0.4, 1, 2]) {
    for (const [rows, columns] of [[2048, 2], [2, 2048], [1024, 4], [729, 3]]) {
      assert.ok(cellSize({ rows, columns }, 600, zoom) * Math.max(rows, columns) <= 16000);
    }
  }
});
