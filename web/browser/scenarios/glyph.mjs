// Scenarios of the Glyph panel.
import assert from 'node:assert/strict';
import { readFileSync } from 'node:fs';
import { join } from 'node:path';

// Returns the printed glyph as the panel saves it, in rows of digits.
async function printed(person) {
  await person.frame();
  return person.tab.run(() => {
    const canvas = document.querySelector('canvas[aria-label="The printed glyph"]');
    return { width: canvas.width, height: canvas.height, data: canvas.toDataURL() };
  });
}

// Saves the glyph as a graymap and returns its text.
async function saved(person) {
  await person.tab.click('button', 'Save the glyph');
  const text = readFileSync(await person.tab.downloaded('glyph.pgm'), 'utf8');
  person.tab.finished.delete('glyph.pgm');
  return text;
}

// Types where an input is read.
async function typeOffset(person, name, word, value) {
  await person.tab.fill(`input[aria-label^="${name}: cells ${word}"]`, value);
}

// Prints the example letter with the example net: the same glyph as the command's.
async function letter(person) {
  await person.openExample('shade.table');
  await person.panel('Glyph');
  await person.tab.drop('#panel-glyph', [join(person.examples, 'letter.pgm')]);
  for (const [name, across, down] of [['weight', '0', '0'], ['light', '0', '-1'], ['near', '-1', '0']]) {
    await typeOffset(person, name, 'across', across);
    await typeOffset(person, name, 'down', down);
  }
  await person.frame();
  await person.shot('glyph');
  const lines = (text) => text.trim().split(/\s+/).join(' ');
  assert.equal(lines(await saved(person)), lines(person.example('shaded.pgm')));
}

// Paints a stroke in the picture: the glyph changes before the pen is up.
async function paint(person) {
  await person.openExample('shade.table');
  await person.panel('Glyph');
  const before = await printed(person);
  const box = await person.tab.find('canvas[aria-label^="Picture"]');
  const at = (x, y) => ({ x: box.x + box.width * x, y: box.y + box.height * y });
  let during = null;
  await person.tab.stroke([at(0.1, 0.9), at(0.5, 0.5), at(0.9, 0.1)], async () => { during = await printed(person); });
  assert.notEqual(during.data, before.data);
  await person.shot('glyph-painted');
  const painted = await printed(person);
  await person.tab.run(() => new Promise((resolve) => setTimeout(resolve, 400)));
  await person.tab.reload();
  await person.ready();
  assert.equal((await printed(person)).data, painted.data, 'the picture survives a reload');
  const again = await person.tab.find('canvas[aria-label^="Picture"]');
  await person.tab.clickAt(again.x + again.width * 0.95, again.y + again.height * 0.95);
  await person.frame();
  await person.tab.click('button', 'Undo in the picture');
  assert.equal((await printed(person)).data, painted.data);
}

// Drops an image that the browser reads, and a file that is none.
async function images(person) {
  await person.openExample('shade.table');
  const drawing = '<svg xmlns="http://www.w3.org/2000/svg" width="320" height="160"><circle cx="160" cy="80" r="70"/></svg>';
  await person.tab.drop('#paint', [person.file('disc.svg', drawing)]);
  await person.tab.until('the picture to be 64 by 32 cells', () => document.querySelector('input[aria-label^="Width"]').value === '64'
    && document.querySelector('input[aria-label^="Height"]').value === '32');
  await person.shot('glyph-image');
  const before = await printed(person);
  await person.tab.drop('#panel-glyph', [person.file('bad.png', 'this is no picture')]);
  await person.reads('#notice', 'bad.png: this is no picture');
  assert.equal((await printed(person)).data, before.data);
}

// Paints the picture with keys alone.
async function keys(person) {
  await person.openExample('shade.table');
  await person.panel('Glyph');
  const before = await printed(person);
  await person.tab.run(() => document.querySelector('canvas[aria-label^="Picture"]').focus());
  for (const key of ['ArrowDown', 'ArrowRight', '0', 'ArrowRight', '0', 'ArrowRight', '0']) await person.tab.key(key);
  assert.notEqual((await printed(person)).data, before.data);
  await person.reads('#live', 'column 4, row 2: 0');
  for (let turn = 0; turn < 3; turn += 1) await person.tab.key('Control+z');
  assert.equal((await printed(person)).data, before.data);
}

export const glyph = [
  ['print a glyph', letter],
  ['paint a picture', paint],
  ['drop images', images],
  ['paint a picture with keys', keys],
];
