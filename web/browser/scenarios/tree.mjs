// Scenarios of the result: no tree and its repair, all trees, a pinned wiring, open cells.
import assert from 'node:assert/strict';

// A table without a tree: reads why, and repairs it with one click.
async function repair(person) {
  await person.openExample('majority.table');
  await person.reads('#panel-tree', 'No tree');
  await person.reads('#panel-tree', /a 2 levels b c 3 levels/);
  await person.reads('#panel-tree', /a=1 b=0 c=0/);
  await person.shot('refused');
  await person.tab.click('#panel-tree .reasons button', 'Change a=1 b=0 c=0');
  await person.settled();
  await person.shot('repaired');
  assert.equal((await person.result()).state, 'tree');
  await person.tab.key('Control+z');
  await person.settled();
  assert.equal((await person.result()).state, 'none');
}

// A table of many trees: pages through them, jumps to a number, asks for a shallow one.
async function pages(person) {
  const rows = Array.from({ length: 32 }, (_, i) => `${i.toString(2).padStart(5, '0').split('').join(' ')} ${i.toString(2).split('1').length % 2 ? 0 : 1}\n`);
  await person.open();
  await person.drop(person.file('parity.table', `levels inputs\n2 5\na b c d e ink\n${rows.join('')}`));
  await person.reads('#panel-tree', '105 trees');
  await person.tab.click('.seg label', 'By number');
  const seen = new Set([(await person.result()).net]);
  for (let turn = 0; turn < 4; turn += 1) {
    await person.tab.click('button', 'Next tree');
    await person.frame();
    seen.add((await person.result()).net);
  }
  assert.equal(seen.size, 5);
  await person.tab.fill('input[aria-label="Number of the tree"]', '104');
  await person.tab.key('Enter');
  await person.frame();
  seen.add((await person.result()).net);
  assert.equal(seen.size, 6);
  await person.shot('pages');
  await person.tab.click('.seg label', 'Shallow');
  await person.frame();
  assert.equal((await person.result()).layers, 3);
}

// Points at a gate: its cells are marked in the map.
async function pointAt(person) {
  await person.openExample('shade.table');
  const gate = await person.tab.find('.net-gate');
  await person.tab.mouse('mouseMoved', gate.x + gate.width / 2, gate.y + 8);
  await person.reads('#panel-tree', /Gate 1 joins weight and near.*It decides \d+ cells/);
  assert.ok((await person.tab.run(() => window.sitgurp.model.marked?.indexes.length)) > 0);
  await person.shot('gate');
  await person.tab.mouse('mouseMoved', 5, 5);
  await person.frame();
  assert.equal(await person.tab.run(() => window.sitgurp.model.marked), null);
}

// Pins the wiring and paints: masks change, and then the wiring no longer does.
async function pin(person) {
  await person.openExample('shade.table');
  await person.tab.click('button', 'Pin the wiring');
  await person.settled();
  await person.reads('#panel-tree', 'All 2 gate tables are as pinned.');
  await person.panel('Compare');
  await person.tab.click('button', 'Invert');
  await person.settled();
  await person.panel('Tree');
  await person.reads('#panel-tree', 'gate 2 has a new table');
  await person.shot('pinned');
  await person.pen('0');
  await person.clickCell(16);
  await person.reads('#panel-tree', /It stops at gate \d/);
  await person.shot('stuck');
  await person.tab.key('Control+z');
  await person.settled();
  await person.tab.click('button', 'Unpin');
  await person.settled();
  assert.equal((await person.result()).state, 'tree');
}

// Leaves cells open: the page says which, and offers fillings that have a tree.
async function openCells(person) {
  await person.openExample('majority.table');
  await person.pen('-');
  await person.clickCell(4);
  await person.reads('#panel-tree', '1 cell open');
  await person.frame();
  await person.shot('open');
  assert.match(await person.sheet(), /1 0 0 -/);
  await person.tab.click('#panel-tree .reasons button');
  await person.settled();
  assert.equal((await person.result()).state, 'tree');
}

export const trees = [
  ['refused, then repaired', repair],
  ['page through trees', pages],
  ['point at a gate', pointAt],
  ['pin the wiring', pin],
  ['open cells', openCells],
];
