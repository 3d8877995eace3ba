import assert from 'node:assert/strict';
import test from 'node:test';
import { follow } from '../live.mjs';
import { Model } from '../model.mjs';
import { slices } from '../work.mjs';
import { lib } from './library.mjs';

const pause = (milliseconds) => new Promise((resolve) => setTimeout(resolve, milliseconds));

// Waits until the model has the result of its current table.
async function settled(model) {
  for (let turn = 0; turn < 500 && !model.isCurrent(model.result); turn += 1) await pause(10);
  assert.ok(model.isCurrent(model.result));
}

const majority = { m: 2, names: ['a', 'b', 'c'], cells: [0, 0, 0, 1, 0, 1, 1, 1] };

test('work runs in slices to its end, and not at all once it is abandoned', async () => {
  let turns = 0;
  function* work() {
    while (turns < 50) {
      turns += 1;
      yield;
    }
    return 'done';
  }
  const value = await new Promise((resolve) => {
    slices(work(), resolve);
    assert.equal(turns, 0, 'nothing runs before the caller is finished');
  });
  assert.deepEqual([value, turns], ['done', 50]);
  turns = 0;
  const stop = slices(work(), () => assert.fail('abandoned work is never done'));
  stop();
  await pause(30);
  assert.equal(turns, 0);
});

test('the result follows the table, with a stroke in between too', async () => {
  const model = new Model(lib, majority);
  follow(model, lib);
  await settled(model);
  assert.equal(model.result.state, 'none');
  model.paint([1], 1);
  await settled(model);
  assert.equal(model.net.sheet, lib.make(model.sheet).sheet);
  model.paint([0], 1);
  assert.equal(model.net, null, 'no net of an older table is given out');
  model.undo();
  assert.equal(model.net.sheet, lib.make(model.sheet).sheet);
  model.choose('shallow');
  assert.equal(model.net.sheet, lib.makeShallow(model.sheet).sheet);
});

test('a search that undo has made needless does not overwrite the result', async () => {
  const model = new Model(lib, majority);
  follow(model, lib);
  await settled(model);
  model.paint([1], 1);
  model.undo();
  await pause(60);
  assert.ok(model.isCurrent(model.result));
  assert.equal(model.result.state, 'none');
});

test('a newer stroke abandons the marking of a large table', async () => {
  const cells = Uint8Array.from({ length: 4096 }, (_, k) => [...k.toString(2)].filter((digit) => digit === '1').length % 2);
  const model = new Model(lib, { m: 2, names: [...'abcdefghijkl'], cells });
  const shown = [];
  model.on('result', () => shown.push(model.result.state));
  follow(model, lib);
  for (let k = 0; k < 5; k += 1) {
    await pause(5);
    model.paint([k], 1 - model.doc.cells[k]);
  }
  for (let k = 0; k < 5; k += 1) model.undo();
  await settled(model);
  assert.equal(model.result.count, 13749310575);
  assert.equal(shown.filter((state) => state === 'none').length, 0);
});
