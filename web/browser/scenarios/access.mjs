// Scenarios of people who use no mouse, a dark or a narrow screen, or a screen reader.
import assert from 'node:assert/strict';
import { faint, unnamed, wide } from '../access.mjs';

const TABS = ['Tree', 'Compare', 'Glyph', 'Take it away'];

// Tabs forward until an element matches. Fails after a whole round.
async function tabTo(person, selector) {
  for (let turn = 0; turn < 120; turn += 1) {
    if (await person.tab.run((wanted) => document.activeElement.matches(wanted), selector)) return;
    await person.tab.key('Tab');
  }
  assert.fail(`the Tab key does not reach ${selector}`);
}

// Paints, fills, opens cells, takes back, changes tabs and pages: all without a mouse.
async function keyboard(person) {
  await person.openExample('shade.table');
  const before = await person.sheet();
  await tabTo(person, '#map');
  for (const key of ['1', '2', '3', '-']) await person.tab.key(key);
  const line = (sheet, row) => sheet.split('\n')[3 + row];
  const painted = await person.sheet();
  assert.notEqual(painted, before);
  assert.equal((painted.match(/ -\n/g) ?? []).length, 1);
  await person.shot('keyboard');
  for (let turn = 0; turn < 4; turn += 1) await person.tab.key('Control+z');
  assert.equal(line(await person.sheet(), 0), line(before, 0));
  for (const key of ['Home', 'PageUp', 'Shift+ArrowRight', 'Shift+ArrowDown', '3']) await person.tab.key(key);
  const filled = await person.sheet();
  assert.ok((filled.match(/ 3\n/g) ?? []).length >= (before.match(/ 3\n/g) ?? []).length + 2);
  await person.tab.key('Control+z');
  assert.equal(await person.sheet(), before);
  await tabTo(person, '#tabs [role=tab]');
  for (const name of ['Compare', 'Glyph', 'Take it away', 'Tree']) {
    await person.tab.key('ArrowRight');
    assert.equal(await person.tab.run(() => document.querySelector('#tabs [aria-selected=true]').textContent), name);
  }
  await person.settled();
  await tabTo(person, '.net-gate');
  await person.reads('#panel-tree', /Gate 1 joins/);
}

// Every tab has names for screen readers and enough contrast, with a light and a dark screen.
async function labels(person) {
  await person.openExample('shade.table');
  const wrong = [];
  for (const scheme of ['light', 'dark']) {
    await person.tab.theme(scheme);
    for (const name of TABS) {
      await person.panel(name);
      const label = (text) => `${scheme}, ${name}: ${text}`;
      wrong.push(...(await unnamed(person.tab)).map(label), ...(await faint(person.tab)).map(label));
      if (scheme === 'dark') await person.shot(`dark-${name.split(' ')[0].toLowerCase()}`);
    }
  }
  await person.panel('Tree');
  await person.drop(`${person.examples}/majority.table`);
  await person.tab.run(() => new Promise((resolve) => setTimeout(resolve, 300)));
  wrong.push(...(await unnamed(person.tab)), ...(await faint(person.tab)));
  await person.shot('dark-refused');
  assert.deepEqual(wrong, []);
}

// Returns a table sheet with long names, in which the last level of an input wins.
function largest(levels, inputs) {
  const names = Array.from({ length: inputs }, (_, i) => `${'abcdefghijkl'[i]}longname`.slice(0, 8));
  const rows = Array.from({ length: levels ** inputs }, (_, index) => {
    const row = Array.from({ length: inputs }, (__, i) => Math.floor(index / levels ** (inputs - 1 - i)) % levels);
    return `${row.join(' ')} ${Math.max(...row)}\n`;
  });
  return `levels inputs\n${levels} ${inputs}\n${names.join(' ')} ink\n${rows.join('')}`;
}

// The page never has to be scrolled sideways, from 400 to 2,000 pixels.
async function widths(person) {
  await person.openExample('shade.table');
  const wrong = [];
  for (const width of [400, 700, 1000, 2000]) {
    await person.tab.resize(width, 900);
    for (const name of TABS) {
      await person.panel(name);
      wrong.push(...(await wide(person.tab)).map((text) => `${width} pixels, ${name}: ${text}`));
      if (width === 400 || width === 2000) await person.shot(`${width}-${name.split(' ')[0].toLowerCase()}`);
    }
  }
  await person.tab.resize(400, 900);
  for (const [levels, inputs] of [[9, 3], [2, 12]]) {
    await person.drop(person.file('large.table', largest(levels, inputs)));
    for (const name of TABS) {
      await person.panel(name);
      wrong.push(...(await wide(person.tab)).map((text) => `400 pixels, ${levels} levels, ${name}: ${text}`));
    }
    await person.panel('Compare');
    await person.shot(`400-${levels}-levels`);
  }
  await person.panel('Tree');
  for (const example of ['majority.table', 'seven.table']) {
    await person.drop(`${person.examples}/${example}`);
    await person.tab.run(() => new Promise((resolve) => setTimeout(resolve, 300)));
    wrong.push(...(await wide(person.tab)).map((text) => `400 pixels, ${example}: ${text}`));
    await person.shot(`400-${example.split('.')[0]}`);
  }
  assert.deepEqual(wrong, []);
}

// The checks notice a faint text, a faint field, a button without a name and a page that is too wide.
async function noticed(person) {
  await person.open();
  await person.tab.run(() => document.getElementById('side').insertAdjacentHTML('beforeend', `<div style="background:#fff"><p style="color:#999">faint</p>
    <textarea placeholder="pale" style="background:#333;color:#444" aria-label="x"></textarea><button></button><p style="width:3000px">wide</p></div>`));
  const weak = await faint(person.tab);
  assert.equal(weak.length, 2, weak.join('; '));
  assert.match(weak.join('; '), /2\.85 "faint".*"pale" in a field/);
  assert.deepEqual(await unnamed(person.tab), ['button <button >']);
  assert.match((await wide(person.tab))[0], /pixels wide on a screen of 1280/);
}

export const access = [
  ['bad contrast, names and widths are noticed', noticed],
  ['keyboard only', keyboard],
  ['labels and contrast, light and dark', labels],
  ['narrow and wide', widths],
];
