// A person who tries everything in any order. The page must report no error, and undo must lead back to the beginning.
import assert from 'node:assert/strict';
import { join } from 'node:path';

// How many steps there are, and the seed they are chosen by: RANDOM_STEPS and RANDOM_SEED ask for others.
const STEPS = Number(process.env.RANDOM_STEPS ?? 60);
const SEED = Number(process.env.RANDOM_SEED ?? 5);

const EXAMPLES = ['shade.table', 'seven.table', 'majority.table', 'figure1.table', 'export.txt', 'shade.net', 'figure1.net', 'letter.pgm'];
const KEYS = ['Tab', 'Shift+Tab', 'ArrowLeft', 'ArrowRight', 'ArrowUp', 'ArrowDown', 'Home', 'End', 'PageUp', 'PageDown', 'Shift+ArrowRight', 'Shift+ArrowDown',
  'Escape', ' ', '0', '1', '2', '-', 'Control+z', 'Control+y'];
const BUTTONS = '#side button, #paint button, .palette label, .seg label';
const TABS = ['Tree', 'Compare', 'Glyph', 'Take it away'];

// Returns a function that returns whole numbers below a limit, the same ones for the same seed.
function dice(seed) {
  let state = seed;
  return (limit) => {
    state = (Math.imul(state, 1664525) + 1013904223) >>> 0;
    return Math.floor((state / 2 ** 32) * limit);
  };
}

// The things that a person may do next.
function actions(person, roll) {
  const one = (list) => list[roll(list.length)];
  const paint = async () => {
    const { length } = await person.tab.run(() => ({ length: window.sitgurp.model.doc.cells.length }));
    const { x, y, width, height } = await person.tab.find('#map');
    const point = () => ({ x: x + width * (0.1 + roll(80) / 100), y: Math.min(y + height * (0.1 + roll(80) / 100), 880) });
    await person.tab.stroke(Array.from({ length: 2 + roll(3) }, point));
    return `a stroke over some of ${length} cells`;
  };
  const press = async () => {
    const names = await person.tab.run((selector) => [...document.querySelectorAll(selector)]
      .filter((element) => element.getClientRects().length > 0 && !element.disabled)
      .map((element) => element.getAttribute('aria-label') || element.textContent), BUTTONS);
    const name = one(names.filter((text) => !/^Print$|Open|Save|sheet|Tree as/.test(text)));
    await person.tab.click(BUTTONS, name).catch(() => {});
    return `press ${name}`;
  };
  const keys = async () => {
    const list = Array.from({ length: 1 + roll(5) }, () => one(KEYS));
    for (const key of list) await person.tab.key(key);
    return `keys ${list.join(' ')}`;
  };
  const levels = async () => {
    const value = one(await person.tab.run(() => [...document.querySelectorAll('#levels option:not(:disabled)')].map((option) => option.value)));
    await person.select('#levels', value);
    return `${value} levels`;
  };
  const inputs = async () => {
    const more = roll(2) === 0 && (await person.tab.run(() => window.sitgurp.model.doc.cells.length)) < 300;
    const selector = more ? 'button[aria-label="Add an input"]' : 'button[aria-label^="Remove input"]';
    const usable = await person.tab.run((wanted) => document.querySelector(wanted)?.disabled === false, selector);
    if (usable) await person.tab.click(selector);
    return more ? 'one more input' : 'one input less';
  };
  const drop = async () => {
    const name = one(EXAMPLES);
    await person.drop(join(person.examples, name));
    return `drop ${name}`;
  };
  const change = async () => {
    const name = one(TABS);
    await person.panel(name);
    return `tab ${name}`;
  };
  return [paint, paint, paint, press, press, press, keys, keys, levels, inputs, drop, change];
}

// Does one thing after another, then takes everything back.
async function steps(person) {
  const roll = dice(SEED);
  const done = [];
  await person.open();
  const first = await person.sheet();
  for (let step = 0; step < STEPS; step += 1) {
    const list = actions(person, roll);
    done.push(await list[roll(list.length)]());
    await person.settled();
    assert.deepEqual(person.tab.faults, [], `after ${done.slice(-5).join('; ')}`);
  }
  const steps = await person.tab.run(() => {
    const { model } = window.sitgurp;
    let count = 0;
    for (; model.canUndo; count += 1) model.undo();
    return count;
  });
  assert.equal(await person.sheet(), first, `after ${steps} steps back`);
}

export const random = [
  ['random steps', steps],
];
