import assert from 'node:assert/strict';
import { existsSync, readFileSync } from 'node:fs';
import { test } from 'node:test';
import { load } from '../../src/sitgurp.mjs';
import { arrivalSheet, inverted, renamedCells } from '../changes.mjs';
import { checked, masks, same, shallower } from '../verdicts.mjs';

const wasm = new URL('../../../target/web/sitgurp.wasm', import.meta.url);
const skip = existsSync(wasm) ? false : 'web/build has not been run';
const lib = skip ? null : await load(readFileSync(wasm));
const example = (name) => readFileSync(new URL(`../../../examples/${name}`, import.meta.url), 'utf8');

const net = (gates, names = 'a b c') => lib.net(`levels inputs\n2 ${names.split(' ').length}\n${names}\nleft right table\n${gates}`);

test('a net is checked against a table, row by row', { skip }, () => {
  const table = lib.table(example('shade.table'));
  assert.deepEqual(checked(lib, lib.net(example('shade.net')), table), { good: true, words: 'Yes: the net has this table, all 64 rows.', index: null });
  const other = table.with([[5, 2], [9, 0]]);
  assert.deepEqual(checked(lib, lib.net(example('shade.net')), other),
    { good: false, words: 'No: at weight=0 light=1 near=1 the net gives 1 and the table has 2 (line 9).', index: 5 });
  const open = table.with([[5, 4]]);
  assert.equal(checked(lib, lib.net(example('shade.net')), open).words, 'Yes: the net has this table in 63 of 64 rows; the other is open.');
});

test('sheets with other names cannot be compared', { skip }, () => {
  const answer = checked(lib, net('a b 0110\n', 'a b'), lib.tableFromRule(2, ['a', 'c'], ([a, c]) => a ^ c));
  assert.equal(answer.good, false);
  assert.equal(answer.index, null);
  assert.match(answer.words, /name/);
});

test('two nets with one table are the same, whatever their wiring', { skip }, () => {
  const [first, second, third] = [net('a b 0110\n1 c 0110\n'), net('b c 1001\na 1 1001\n'), net('a b 0110\n1 c 0111\n')];
  assert.equal(same(lib, first, second).good, true);
  assert.deepEqual(same(lib, first, third), { good: false, words: 'Not the same table: at a=0 b=1 c=1 net A gives 0 and net B 1.', index: 3 });
});

test('the shallower of two nets', { skip }, () => {
  const flat = net('a b 0110\nc d 0110\n1 2 0110\n', 'a b c d');
  const deep = net('a b 0110\n1 c 0110\n2 d 0110\n', 'a b c d');
  assert.equal(shallower(lib, flat, deep), 'Net A is shallower: 2 layers, net B has 3 layers.');
  assert.equal(shallower(lib, deep, flat), 'Net B is shallower: 2 layers, net A has 3 layers.');
  assert.equal(shallower(lib, deep, deep), 'Equally deep: 3 layers each.');
});

test('inverting changes the last gate alone', { skip }, () => {
  const table = lib.table(example('shade.table'));
  const dark = lib.tableFromInks(table.levels, table.names, renamedCells(table.inks, inverted(4)));
  assert.equal(masks(table.settled(), dark), 'Gate 2 has a new table; the wiring and all other gates stay.');
  assert.equal(masks(table.settled(), table), 'Every gate keeps its table.');
});

test('the library takes the arrival sheet', { skip }, () => {
  const of = (times) => lib.arrivals(example('shade.net'), arrivalSheet(['weight', 'light', 'near'], times), 4);
  const settling = of([{ from: 1, to: 2.5 }, { from: 0, to: 0 }, { from: '0', to: '3' }]);
  assert.deepEqual({ ...settling }, { earliest: 3, latest: 5 });
  const refusal = of([{ from: 1, to: 0.1 }, { from: 0, to: 0 }, { from: 0, to: 3 }]);
  assert.equal(refusal.number, 19);
});
