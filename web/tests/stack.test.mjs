// The deepest stack of every call, at the largest size of each number of levels, fits with room to spare.

import assert from 'node:assert/strict';
import { test } from 'node:test';
import { CALLS } from '../src/calls.mjs';
import { loadSync } from '../src/sitgurp.mjs';
import { WASM } from './library.mjs';
import { Stack } from './stack.mjs';

const SIZES = [[2, 12], [3, 7], [4, 6], [5, 5], [6, 4], [7, 4], [8, 4], [9, 3]];

// Rules that have every tree, few trees, and none.
const RULES = {
  sum: (levels, m) => levels.reduce((one, other) => one + other) % m,
  chain: (levels, m) => levels.reduce((one, other) => (2 * one + other + 1) % m),
  most: (levels) => Math.max(...levels),
  scattered: (levels, m) => levels.reduce((one, other) => (one * 31 + other * 17 + 7) % 1009) % m,
  first: (levels) => levels[0],
};

// Calls the library in every way on a table and on a net of the same header.
function callAll(sitgurp, table) {
  const header = table.sheet.split('\n').slice(0, 3).join('\n').replace(' ink', '');
  const gates = table.names.slice(1).map((name, k) => `${k === 0 ? table.names[0] : k} ${name} ${'0'.repeat(table.levels ** 2)}\n`);
  const made = sitgurp.make(table);
  const net = made.sheet?.startsWith('levels') ? made.sheet : `${header}\nleft right table\n${gates.join('')}`;
  const [m, n] = [table.levels, table.names.length];
  const count = sitgurp.familyCount(table).count;
  const job = table.job();
  job.run(5);
  job.step();
  job.mark(1);
  while (!job.run(1000));
  job.finish();
  for (const number of [0, Math.floor(count / 2), count - 1, count]) if (number >= 0) sitgurp.familyTree(table, number);
  for (const group of [1, 2 ** (n >> 1) - 1, 2 ** n - 1]) sitgurp.multiplicity(m, n, table.inks, group);
  sitgurp.marking(m, n, table.inks);
  sitgurp.makeShallow(table);
  sitgurp.settle(net);
  sitgurp.settleShallow(net);
  sitgurp.shallower(net, net);
  sitgurp.check(net, table);
  sitgurp.keep(net, table);
  sitgurp.writeTable(net);
  sitgurp.tidy(table);
  sitgurp.gateLine(net, n - 2);
  sitgurp.gateLines(net);
  sitgurp.arrivals(net, `name from to\n${table.names.map((name) => `${name} 0 65535\n`).join('')}`, 255);
  sitgurp.glyph(net, 64, 64, new Uint8Array(4096), new Int8Array(2 * n));
}

test('the deepest stack takes less than half of what there is', () => {
  const sitgurp = loadSync(WASM);
  const { calls } = sitgurp;
  const stack = new Stack(calls);
  const deepest = new Map();
  const invoke = calls.invoke.bind(calls);
  calls.invoke = (placed) => {
    // a job's steps are many and alike: one in a hundred is enough
    if (placed.name === 'job_step_parts' && Math.random() > 0.01) return invoke(placed);
    stack.fill();
    invoke(placed);
    deepest.set(placed.name, Math.max(deepest.get(placed.name) ?? 0, stack.depth()));
  };
  for (const [m, n] of SIZES) {
    const names = Array.from({ length: n }, (_, k) => `i${k}`);
    for (const rule of Object.values(RULES)) callAll(sitgurp, sitgurp.tableFromRule(m, names, (levels) => rule(levels, m)));
  }
  assert.deepEqual([...deepest.keys()].sort(), Object.keys(CALLS).sort());
  const [name, depth] = [...deepest].reduce((one, other) => (other[1] > one[1] ? other : one));
  console.log(`deepest stack: ${depth} of ${stack.size} bytes, in ${name}`);
  assert.ok(depth > 16384, 'the measurement sees the stack');
  assert.ok(depth < stack.size / 2, `${depth} of ${stack.size} bytes`);
});
