import assert from 'node:assert/strict';
import test from 'node:test';
import { freeName, fromLink, makeDocument, painted, toLink, withInput, withLevels, withoutInput, wordsOf } from '../document.mjs';
import { assignmentOf } from '../geometry.mjs';
import { contrast, rgbOf, shade, textOn } from '../shades.mjs';

const majority = makeDocument(2, ['a', 'b', 'c'], [0, 0, 0, 1, 0, 1, 1, 1]);

test('a link holds the whole table', () => {
  assert.equal(toLink(majority), 't=2.a.b.c.00010111');
  const open = makeDocument(3, ['day', 'near'], [0, 1, 2, 3, 3, 0, 1, 2, 0]);
  assert.equal(toLink(open), 't=3.day.near.012--0120');
  for (const doc of [majority, open]) {
    const { m, names, cells } = fromLink(`#${toLink(doc)}`);
    assert.deepEqual(makeDocument(m, names, cells), doc);
  }
});

test('an address that is no link is none', () => {
  for (const text of ['', '#', '#map', '#t=', '#t=2.a.b', '#t=2.a.b.', '#t=2.A.b.0000', '#t=22.a.b.0000', '#t=2.a.b.0000.x', '#t=2.a.b.00x0']) {
    assert.equal(fromLink(text), null, text);
  }
});

test('with more levels an input above the old ones acts as the highest', () => {
  const more = withLevels(majority, 3);
  more.cells.forEach((ink, index) => {
    const [a, b, c] = assignmentOf(3, 3, index).map((level) => Math.min(level, 1));
    assert.equal(ink, a + b + c >= 2 ? 1 : 0);
  });
  assert.deepEqual(withLevels(more, 2), majority);
});

test('with fewer levels inks are cut off, and open cells stay open', () => {
  const doc = makeDocument(3, ['a', 'b'], [0, 2, 1, 3, 1, 0, 0, 0, 0]);
  assert.deepEqual([...withLevels(doc, 2).cells], [0, 1, 2, 1]);
  assert.deepEqual([...withLevels(doc, 4).cells].filter((ink) => ink === 4).length, 1);
});

test('a new input does not matter, and without it the table is the old one', () => {
  const more = withInput(majority, 'd');
  assert.equal(more.n, 4);
  more.cells.forEach((ink, index) => assert.equal(ink, majority.cells[index >> 1]));
  assert.deepEqual(withoutInput(more, 3).cells, majority.cells);
  assert.deepEqual([...withoutInput(majority, 0).cells], [0, 0, 0, 1]);
  assert.deepEqual(withoutInput(majority, 0).names, ['b', 'c']);
});

test('a free name is one that no input has', () => {
  assert.equal(freeName(['a', 'b']), 'c');
  assert.equal(freeName([]), 'a');
});

test('painting makes a new document and leaves the old one', () => {
  const next = painted(majority, [0, 1], 1);
  assert.deepEqual([...next.cells], [1, 1, 0, 1, 0, 1, 1, 1]);
  assert.deepEqual([...majority.cells], [0, 0, 0, 1, 0, 1, 1, 1]);
});

test('an assignment in words', () => {
  assert.equal(wordsOf(majority, 6), 'a=1 b=1 c=0');
});

test('every digit can be read on its shade', () => {
  for (let m = 2; m <= 9; m += 1) {
    for (let level = 0; level <= m; level += 1) {
      assert.ok(contrast(rgbOf(shade(level, m)), rgbOf(textOn(level, m))) >= 4.5, `${level} of ${m}`);
    }
  }
});
