// Scenarios of painting: pen, rectangle, open cells, undo, reload, and another arrangement of the map.
import assert from 'node:assert/strict';

// Returns the inks of a table sheet in the order of its rows.
export function inks(sheet) {
  return sheet.trim().split('\n').slice(3).map((row) => row.slice(-1)).join('');
}

// Chooses levels and inputs and draws a small table from nothing.
async function draw(person) {
  await person.open();
  await person.select('#start select', '2');
  await person.tab.click('button', 'Remove input near');
  await person.select('select[aria-label="Open an example"]', 'blank');
  assert.equal(inks(await person.sheet()), '0000');
  await person.pen('1');
  await person.clickCell(1);
  await person.clickCell(2);
  assert.equal(inks(await person.sheet()), '0110');
  await person.reads('#panel-tree', '1 tree');
  assert.match((await person.result()).net, /weight light 0110\n$/);
  await person.shot('draw');
  await person.tab.fill('input[aria-label="Name of input 1"]', 'day');
  await person.tab.key('Enter');
  await person.settled();
  assert.match(await person.sheet(), /\nday light ink\n/);
  await person.tab.fill('input[aria-label="Name of input 1"]', 'light');
  await person.tab.key('Enter');
  await person.reads('#notice', 'refusal 4');
  assert.match(await person.sheet(), /\nday light ink\n/);
}

// Draws a stroke and fills a rectangle; each is one step of undo.
async function strokes(person) {
  await person.openExample('shade.table');
  const before = await person.sheet();
  await person.pen('0');
  await person.strokeCells([0, 1, 2, 3]);
  const stroked = await person.sheet();
  assert.equal(inks(stroked).slice(0, 4), '0000');
  await person.tab.click('.seg label', 'Rectangle');
  await person.pen('3');
  await person.strokeCells([0, 63]);
  assert.equal(inks(await person.sheet()), '3'.repeat(64));
  await person.shot('rectangle');
  await person.tab.click('button', 'Undo');
  await person.settled();
  assert.equal(await person.sheet(), stroked);
  await person.tab.click('button', 'Undo');
  await person.settled();
  assert.equal(await person.sheet(), before);
}

// Makes many changes, takes all of them back, and makes them again.
async function undo(person) {
  await person.openExample('seven.table');
  const states = [await person.sheet()];
  await person.pen('2');
  for (const index of [0, 5, 17, 33, 64, 80]) {
    await person.clickCell(index);
    const sheet = await person.sheet();
    if (sheet !== states.at(-1)) states.push(sheet);
  }
  assert.ok(states.length >= 5);
  for (const sheet of [...states].reverse().slice(1)) {
    await person.tab.key('Control+z');
    await person.settled();
    assert.equal(await person.sheet(), sheet);
  }
  for (const sheet of states.slice(1)) {
    await person.tab.key('Control+y');
    await person.settled();
    assert.equal(await person.sheet(), sheet);
  }
}

// Leaves the page and comes back: the table, the arrangement and the tab are as they were.
async function reload(person) {
  await person.openExample('seven.table');
  await person.pen('1');
  await person.clickCell(7);
  await person.panel('Compare');
  await person.tab.fill('textarea[aria-label="Net A: net sheet"]', person.example('seven.net'));
  const sheet = await person.sheet();
  await person.tab.run(() => new Promise((resolve) => setTimeout(resolve, 400)));
  await person.tab.reload();
  await person.ready();
  assert.equal(await person.sheet(), sheet);
  assert.equal(await person.tab.run(() => document.querySelector('#tabs [aria-selected=true]').textContent), 'Compare');
  await person.reads('#verdict-A', /No: at|Yes/);
}

// Moves an input to the other side of the map, by dragging and by keys.
async function rearrange(person) {
  await person.openExample('shade.table');
  const sheet = await person.sheet();
  const axis = (name) => person.tab.run((wanted) => {
    const { doc } = window.sitgurp.model;
    return doc.across.includes(doc.names.indexOf(wanted)) ? 'across' : 'down';
  }, name);
  const [from, to] = [await axis('near'), (await axis('near')) === 'across' ? 'down' : 'across'];
  const chip = await person.tab.find('.chip', 'near');
  const list = await person.tab.find(`.chips[data-axis=${to}]`);
  const middle = (box) => ({ x: box.x + box.width / 2, y: box.y + box.height / 2 });
  await person.tab.stroke([middle(chip), { x: (middle(chip).x + middle(list).x) / 2, y: (middle(chip).y + middle(list).y) / 2 }, middle(list)]);
  assert.equal(await axis('near'), to);
  await person.settled();
  await person.shot('rearranged');
  await person.tab.key(from === 'across' ? 'ArrowUp' : 'ArrowDown');
  assert.equal(await axis('near'), from);
  assert.equal(await person.sheet(), sheet);
}

// Takes the picture of the page for the README: an example, and its tree.
async function picture(person) {
  await person.tab.resize(1260, 620);
  await person.openExample('shade.table');
  assert.ok(await person.tab.shows('svg.tree'));
  await person.shot('page');
}

export const drawing = [
  ['the picture for the README', picture],
  ['draw a table', draw],
  ['strokes and rectangles', strokes],
  ['undo and redo', undo],
  ['reload', reload],
  ['rearrange the map', rearrange],
];
