// A table of 12 inputs: a stroke never waits for the library.
import assert from 'node:assert/strict';
import { framesDuring, longestTask } from '../frames.mjs';

// The longest that a frame may take, in milliseconds.
const LIMIT = 50;
// Other programs may delay a frame: so many tries, and one must be good.
const TRIES = 3;

// Returns the sheet of 12 inputs that is 1 where an odd number of inputs is 1: no table has more trees.
function parity() {
  const rows = Array.from({ length: 4096 }, (_, i) => `${[...i.toString(2).padStart(12, '0')].join(' ')} ${(i.toString(2).match(/1/g) ?? []).length % 2}\n`);
  return `levels inputs\n2 12\na b c d e f g h i j k l ink\n${rows.join('')}`;
}

// Draws some strokes across the map, one point every few milliseconds, as a quick hand does.
async function scribble(person, pen) {
  await person.pen(pen);
  const [from, to] = await person.cells([65 * 3, 65 * 30]);
  const between = (k, n) => ({ x: from.x + ((to.x - from.x) * k) / n, y: from.y + ((to.y - from.y) * ((k * 7) % n)) / n });
  for (let stroke = 0; stroke < 3; stroke += 1) {
    const points = Array.from({ length: 30 }, (_, k) => between((k + stroke * 5) % 30, 30));
    await person.tab.stroke(points, () => new Promise((resolve) => setTimeout(resolve, 8)));
  }
}

// Paints and waits for the result, and for some of the search that follows it.
async function paintAll(person, turn) {
  await scribble(person, String(turn % 2));
  await person.settled();
  await person.tab.run(() => new Promise((resolve) => setTimeout(resolve, 300)));
}

// Returns how many cells differ from the table at the beginning.
function changedCells(person) {
  return person.tab.run((sheet) => {
    const rows = sheet.split('\n');
    return window.sitgurp.model.sheet.split('\n').filter((row, i) => row !== rows[i]).length;
  }, parity());
}

// Paints while frames are measured. If other programs keep the processor busy, frames are late whatever the page does: then the page's own time counts.
async function paint(person) {
  await person.open();
  await person.drop(person.file('parity.table', parity()));
  await person.reads('#panel-tree', '13,749,310,575 trees');
  const seen = [];
  for (let turn = 0; turn < TRIES; turn += 1) {
    const frames = await framesDuring(person.tab, () => paintAll(person, turn));
    seen.push(`${frames.frames} frames, the longest ${frames.longest} ms, busy for ${frames.tasks.join(' ') || 'less than 50'} ms`);
    assert.ok(frames.frames > 30, seen.join('; '));
    if (turn === 0) await person.shot('large');
    const changed = await changedCells(person);
    assert.ok(changed > 100, `only ${changed} cells differ after the strokes`);
    if (frames.longest <= LIMIT && frames.tasks.length === 0) {
      console.log(`    ${seen.at(-1)}`);
      return;
    }
  }
  const busy = await longestTask(person.tab, () => paintAll(person, 1));
  assert.ok(busy <= LIMIT, `a task took ${busy} ms of the processor; ${seen.join('; ')}`);
  console.log(`    other programs keep the processor busy: ${seen.join('; ')}; no task of the page took more than ${busy} ms of it`);
}

// Paints with each tab open, two nets to check among them: no task of the page keeps the processor for long.
async function everyTab(person) {
  await person.open();
  await person.drop(person.file('parity.table', parity()));
  for (const name of ['Compare', 'Glyph', 'Take it away']) {
    await person.panel(name);
    for (const letter of name === 'Compare' ? ['A', 'B'] : []) await person.tab.click(`section[aria-label="Net ${letter}"] button`, 'Take the tree');
    await person.tab.run(() => scrollTo(0, 0));
    const busy = await longestTask(person.tab, async () => {
      for (const sign of ['0', '1']) {
        await person.pen(sign);
        await person.strokeCells([195, 589, 912, 1300]);
        await person.tab.run(() => new Promise((resolve) => setTimeout(resolve, 200)));
      }
    });
    assert.ok(busy <= LIMIT, `${name}: a task took ${busy} ms of the processor`);
    await person.tab.key('Control+z');
    await person.tab.key('Control+z');
    await person.settled();
  }
}

// On a slow machine the page shows how far the library is, and then the result.
async function progress(person) {
  await person.open();
  await person.drop(person.file('parity.table', parity()));
  await person.tab.run(() => {
    window.progressSeen = [];
    window.sitgurp.model.on('result', () => window.progressSeen.push(window.sitgurp.model.result.state));
  });
  await person.pen('1');
  await person.tab.send('Emulation.setCPUThrottlingRate', { rate: 20 });
  await person.strokeCells([0, 1, 2, 3, 4, 5]);
  await person.tab.send('Emulation.setCPUThrottlingRate', { rate: 1 });
  const seen = await person.tab.run(() => window.progressSeen);
  assert.ok(seen.includes('working'), `the page shows progress, and shows: ${seen.join(' ')}`);
  assert.notEqual(seen.at(-1), 'working');
}

// The measurement notices a page that makes a stroke wait.
async function noticed(person) {
  await person.open();
  await person.tab.run(() => window.sitgurp.model.on('doc', () => {
    let sum = 0;
    for (let k = 0; k < 1e8; k += 1) sum += Math.sqrt(k);
    window.kept = sum;
  }));
  await person.pen('0');
  const frames = await framesDuring(person.tab, () => person.strokeCells([5, 6]));
  assert.ok(frames.longest > LIMIT && frames.tasks.length > 0, JSON.stringify(frames));
  assert.ok((await longestTask(person.tab, () => person.strokeCells([10, 11]))) > LIMIT);
}

export const large = [
  ['a stroke that waits is noticed', noticed],
  ['paint with 12 inputs', paint],
  ['paint with 12 inputs and any tab', everyTab],
  ['progress with 12 inputs', progress],
];
