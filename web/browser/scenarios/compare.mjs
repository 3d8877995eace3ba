// Scenarios of the Compare panel.
import assert from 'node:assert/strict';

const HEADER = 'levels inputs\n4 3\nweight light near\nleft right table\n';

// Inverts the table, and looks at what the page says about the gates.
async function invert(person) {
  await person.openExample('shade.table');
  const before = await person.sheet();
  await person.panel('Compare');
  await person.tab.click('button', 'Invert');
  await person.settled();
  assert.match((await person.sheet()).split('\n')[3], /^0 0 0 3$/);
  await person.reads('#panel-compare', 'Gate 2 has a new table; the wiring and all other gates stay.');
  await person.tab.click('button', 'Undo');
  await person.settled();
  assert.equal(await person.sheet(), before);
}

// Exchanges two shades by a list of choices.
async function rename(person) {
  await person.openExample('shade.table');
  await person.panel('Compare');
  await person.tab.run(() => {
    const select = document.querySelector('[aria-label="Shade 0 becomes"]');
    select.value = '2';
    select.dispatchEvent(new Event('change', { bubbles: true }));
  });
  assert.equal(await person.tab.run(() => document.querySelector('[aria-label="Shade 2 becomes"]').value), '0');
  await person.tab.click('button', 'Rename');
  await person.settled();
  const inks = (sheet) => sheet.trim().split('\n').slice(3).map((row) => row.slice(-1)).join('');
  const exchanged = [...inks(person.example('shade.table'))].map((ink) => ({ 0: '2', 2: '0' })[ink] ?? ink).join('');
  assert.equal(inks(await person.sheet()), exchanged);
}

// Checks a net made by hand: refused, wrong in a row, then right.
async function check(person) {
  await person.openExample('shade.table');
  await person.panel('Compare');
  const box = 'textarea[aria-label="Net A: net sheet"]';
  await person.tab.fill(box, `${HEADER}weight near 0123112322233333\n1 light 000011002211332\n`);
  await person.reads('#panel-compare', 'refusal 6');
  await person.shot('compare-refused');
  await person.tab.fill(box, `${HEADER}weight near 0123112322233333\n1 light 0000110022113321\n`);
  await person.reads('#verdict-A', /No: at weight=\d light=\d near=\d the net gives 1 and the table has 2/);
  assert.equal(await person.tab.run(() => window.sitgurp.model.marked?.indexes.length), 1);
  await person.reads('#paint', 'Net A differs at weight=');
  await person.shot('compare-differs');
  await person.tab.fill(box, person.example('shade.net'));
  await person.reads('#verdict-A', 'Yes: the net has this table, all 64 rows.');
  assert.equal(await person.tab.run(() => window.sitgurp.model.marked), null);
}

// Puts two nets side by side, one dropped as a file.
async function pair(person) {
  await person.openExample('shade.table');
  await person.panel('Compare');
  await person.tab.click('section[aria-label="Net A"] button', 'Take the tree');
  const other = `${HEADER}near weight 0123112322233333\nlight 1 0123012300120012\n`;
  await person.tab.drop('section[aria-label="Net B"]', [person.file('other.net', other)]);
  await person.reads('#panel-compare', /Same table|Not the same table/);
  await person.reads('#panel-compare', 'Equally deep: 2 layers each.');
  await person.shot('compare-pair');
  assert.equal(await person.sheet(), person.example('shade.table'));
}

// Types arrival times and reads when the output settles.
async function arrivals(person) {
  await person.openExample('shade.table');
  await person.panel('Compare');
  const type = async (name, end, text) => person.tab.fill(`input[aria-label^="${name} arrives at the ${end}"]`, text);
  await type('weight', 'earliest', '1');
  await type('weight', 'latest', '2.5');
  await type('near', 'latest', '3');
  await type('light', 'latest', '0.75');
  await person.reads('.settles', 'The output settles between 3 and 5 microseconds.');
  await person.tab.run(() => document.querySelector('.arrivals').scrollIntoView());
  await person.shot('arrivals');
  await type('near', 'latest', '0.1');
  await person.reads('section[aria-label="Arrival times"]', 'refusal 19');
}

export const compare = [
  ['invert the shades', invert],
  ['rename the shades', rename],
  ['check a net made by hand', check],
  ['compare two nets', pair],
  ['arrival times', arrivals],
];
