import assert from 'node:assert/strict';
import { test } from 'node:test';
import { arrivalSheet, assignmentText, counted, fileName, inverted, isIdle, offsetText, quarters, renamedCells, renamedTo, usualOffset } from '../changes.mjs';

test('inverting twice changes nothing', () => {
  const cells = Uint8Array.of(0, 1, 2, 3, 4);
  assert.deepEqual([...renamedCells(cells, inverted(4))], [3, 2, 1, 0, 4]);
  assert.deepEqual([...renamedCells(renamedCells(cells, inverted(4)), inverted(4))], [...cells]);
});

test('a renaming stays one-to-one', () => {
  let renaming = [0, 1, 2, 3];
  for (const [ink, other] of [[0, 2], [1, 2], [3, 3], [2, 1], [0, 3]]) {
    renaming = renamedTo(renaming, ink, other);
    assert.equal(renaming[ink], other);
    assert.deepEqual([...renaming].sort(), [0, 1, 2, 3]);
  }
  assert.ok(isIdle([0, 1, 2]));
  assert.ok(!isIdle(renamedTo([0, 1, 2], 0, 2)));
});

test('times are written in quarters, and no time stays none', () => {
  assert.equal(quarters('12.25'), '49');
  assert.equal(quarters(0), '0');
  assert.equal(quarters('0.1'), '0.4');
  assert.equal(quarters('-1'), '-4');
  assert.equal(quarters(''), '-');
  assert.equal(quarters('a b'), 'ab');
  assert.equal(arrivalSheet(['a', 'b'], [{ from: 1, to: 2.5 }, { from: '0', to: '0' }]), 'name from to\na 4 10\nb 0 0\n');
});

test('file names are plain', () => {
  assert.equal(fileName('mine', 'table'), 'mine.table');
  assert.equal(fileName(' mine.table ', 'net'), 'mine.net');
  assert.equal(fileName('../etc/pass wd', 'svg'), 'etc-pass-wd.svg');
  assert.equal(fileName('', 'png'), 'table.png');
  assert.equal(fileName('größe 2', 'table'), 'größe-2.table');
});

test('twelve inputs are read from twelve cells, none more than two away', () => {
  const places = Array.from({ length: 12 }, (_, input) => usualOffset(input));
  assert.equal(new Set(places.map(String)).size, 12);
  assert.ok(places.flat().every((offset) => Math.abs(offset) <= 2));
});

test('words', () => {
  assert.equal(assignmentText(['day', 'near'], [1, 0]), 'day=1 near=0');
  assert.equal(counted(1, 'row'), '1 row');
  assert.equal(counted(4096, 'row'), '4,096 rows');
  assert.equal(counted(13749310575n, 'tree'), '13,749,310,575 trees');
  assert.equal(offsetText(0, 0), 'the cell itself');
  assert.equal(offsetText(-1, 2), '1 left, 2 down');
});
