// Times `make` in the module on the sheets that the native library was timed on. Usage: node speed.mjs sitgurp.wasm FOLDER NATIVE, where NATIVE has lines
// `NAME NANOSECONDS`. The copies into and out of the arena are part of a call here, as they are for a user of the module.

import { readFileSync, statSync } from 'node:fs';
import { join } from 'node:path';
import { loadSync } from '../src/sitgurp.mjs';

const ROUNDS = 40;
// Calls before the clock starts, so that the engine has compiled everything.
const WARM = 200;

const [wasm, folder, native] = process.argv.slice(2);
const sitgurp = loadSync(readFileSync(wasm));

// Returns the least time of several rounds, in nanoseconds.
function least(sheet) {
  let best = Infinity;
  for (let round = 0; round < ROUNDS; round += 1) {
    const start = process.hrtime.bigint();
    sitgurp.make(sheet);
    best = Math.min(best, Number(process.hrtime.bigint() - start));
  }
  return best;
}

const lines = readFileSync(native, 'utf8').trim().split('\n').map((line) => line.split(' '));
const sheets = lines.map(([name]) => new Uint8Array(readFileSync(join(folder, name))));
for (let call = 0; call < WARM; call += 1) sitgurp.make(sheets[call % sheets.length]);

const ratios = new Map();
lines.forEach(([name, nanoseconds], k) => {
  const size = name.split('-').slice(0, 2).join(', ');
  const row = ratios.get(size) ?? [];
  row.push(least(sheets[k]) / Number(nanoseconds));
  ratios.set(size, row);
});

console.log(`sitgurp.wasm: ${statSync(wasm).size} bytes`);
console.log('make, module time / native time: mean, least, most');
for (const [size, row] of ratios) {
  const mean = Math.exp(row.reduce((sum, ratio) => sum + Math.log(ratio), 0) / row.length);
  console.log(`(${size}): ${mean.toFixed(2)}, ${Math.min(...row).toFixed(2)}, ${Math.max(...row).toFixed(2)}`);
}
