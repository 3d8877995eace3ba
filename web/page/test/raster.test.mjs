import assert from 'node:assert/strict';
import { readFileSync } from 'node:fs';
import { test } from 'node:test';
import { cellsBetween, fitted, grayOfPixels, pictureOf, readPgm, reduced, relevelled, resized, shrink } from '../raster.mjs';

const bytes = (text) => new TextEncoder().encode(text);
const example = (name) => readFileSync(new URL(`../../../examples/${name}`, import.meta.url));

test('the example letter is the same picture as a graymap and as text', () => {
  const picture = pictureOf(readPgm(example('letter.pgm')), 4);
  const rows = example('letter.txt').toString().trim().split('\n');
  assert.equal(picture.width, rows[0].length);
  assert.equal(picture.height, rows.length);
  assert.deepEqual([...picture.cells], [...rows.join('')].map((digit) => (digit === '.' ? 0 : Number(digit))));
});

test('plain and binary graymaps of the same pixels are the same picture', () => {
  const plain = readPgm(bytes('P2 # a letter\n# two comments\n2 2\n255\n0 255\n# inside\n128 64\n'));
  const binary = readPgm(Uint8Array.of(...bytes('P5\n2 2\n255\n'), 0, 255, 128, 64));
  const wide = readPgm(Uint8Array.of(...bytes('P5 2 2 65535\n'), 0, 0, 255, 255, 128, 128, 64, 64));
  assert.deepEqual(binary, plain);
  assert.deepEqual([...wide.darkness].map((dark) => dark.toFixed(6)), [...plain.darkness].map((dark) => dark.toFixed(6)));
  assert.deepEqual([...reduced(plain, 3).cells], [2, 0, 1, 2]);
});

test('what is no graymap is null', () => {
  const good = 'P2\n2 1\n3\n0 3\n';
  assert.notEqual(readPgm(bytes(good)), null);
  for (const bad of ['', 'P2', 'P3\n2 1\n3\n0 3\n', 'P2\n2 1\n3\n0\n', 'P2\n2 1\n3\n0 3 1\n', 'P2\n2 1\n3\n0 4\n', 'P2\n0 1\n3\n', 'P2\n2 1\n0\n0 0\n',
    'P2\n2 1\n3\n0 x\n', 'P5\n2 2\n255\nabc', 'P2\n2 1\n70000\n0 3\n', 'P2\n2 1 3 0 -1\n']) {
    assert.equal(readPgm(bytes(bad)), null, JSON.stringify(bad));
  }
});

test('see-through pixels are white, and colours count by their brightness', () => {
  const pixels = Uint8ClampedArray.of(0, 0, 0, 255, 0, 0, 0, 0, 255, 255, 255, 255, 255, 0, 0, 255, 0, 0, 0, 128);
  const { darkness } = grayOfPixels(5, 1, pixels);
  assert.deepEqual([...darkness].map((dark) => dark.toFixed(2)), ['1.00', '0.00', '0.00', '0.70', '0.50']);
});

test('a large picture keeps its proportion and its mean', () => {
  assert.deepEqual(fitted(640, 320), { width: 64, height: 32 });
  assert.deepEqual(fitted(10, 3), { width: 10, height: 3 });
  assert.deepEqual(fitted(6000, 3), { width: 64, height: 1 });
  const darkness = Float64Array.from({ length: 150 * 90 }, (_, i) => ((i * 7) % 13) / 12);
  const small = shrink({ width: 150, height: 90, darkness }, 64, 38);
  const mean = (list) => list.reduce((sum, dark) => sum + dark, 0) / list.length;
  assert.ok(Math.abs(mean(small.darkness) - mean(darkness)) < 1e-9);
  assert.ok(small.darkness.every((dark) => dark >= 0 && dark <= 1));
});

test('a picture of cells is not blurred when its size fits', () => {
  const darkness = Float64Array.of(0, 1, 1, 0);
  assert.deepEqual([...pictureOf({ width: 2, height: 2, darkness }, 9).cells], [0, 8, 8, 0]);
  const doubled = Float64Array.of(0, 0, 1, 1, 0, 0, 1, 1);
  assert.deepEqual([...shrink({ width: 4, height: 2, darkness: doubled }, 2, 1).darkness], [0, 1]);
});

test('other sides keep the cells where they are', () => {
  const picture = { width: 2, height: 2, cells: Uint8Array.of(1, 2, 3, 0) };
  assert.deepEqual([...resized(picture, 3, 1).cells], [1, 2, 0]);
  assert.deepEqual([...resized(picture, 1, 3).cells], [1, 3, 0]);
});

test('other levels keep white and the darkest', () => {
  const picture = { width: 4, height: 1, cells: Uint8Array.of(0, 1, 2, 3) };
  assert.deepEqual([...relevelled(picture, 4, 2).cells], [0, 0, 1, 1]);
  assert.deepEqual([...relevelled(picture, 4, 7).cells], [0, 2, 4, 6]);
  assert.deepEqual([...relevelled(picture, 3, 3).cells], [0, 1, 2, 2]);
});

test('a stroke passes every cell on its way', () => {
  assert.deepEqual(cellsBetween({ x: 2, y: 2 }, { x: 2, y: 2 }), [{ x: 2, y: 2 }]);
  const way = cellsBetween({ x: 0, y: 0 }, { x: 5, y: 2 });
  assert.equal(way.length, 6);
  assert.deepEqual(way[5], { x: 5, y: 2 });
  for (let i = 1; i < way.length; i += 1) assert.ok(Math.abs(way[i].x - way[i - 1].x) <= 1 && Math.abs(way[i].y - way[i - 1].y) <= 1);
});
