import assert from 'node:assert/strict';
import { test } from 'node:test';
import { settlesText, stepOf, timeText } from '../arrivals.mjs';

test('a scale has two to four steps of 1, 2 or 5 times a power of ten', () => {
  for (const end of [0.25, 0.5, 1, 2.75, 3, 5, 7.25, 10, 63.75, 700, 4096, 17086.5]) {
    const step = stepOf(end);
    assert.ok(end / step <= 4 && end / step > 1.6, `${end} has steps of ${step}`);
    assert.match(step.toExponential(), /^(1|2|5)e/);
  }
});

test('times are written without needless digits', () => {
  assert.equal(timeText(3), '3');
  assert.equal(timeText(0.25), '0.25');
  assert.equal(timeText(0.1 + 0.2), '0.3');
});

test('a settling time or a range, in words', () => {
  assert.equal(settlesText({ earliest: 2, latest: 2 }), 'The output settles at 2 microseconds.');
  assert.equal(settlesText({ earliest: 2, latest: 3.25 }), 'The output settles between 2 and 3.25 microseconds.');
});
