// Replays recorded calls through the module and compares the answers and every byte of the arena with the native library's.
// Usage: record CALLS SEED | node web/tests/replay.mjs sitgurp.wasm CALLS, where `record` is `cargo run --release -p load --bin record`.

import { readFileSync } from 'node:fs';
import { Calls } from '../src/calls.mjs';
import { callOf, difference, NAMES, numberOf, Reader } from './recorded.mjs';
import { Stack } from './stack.mjs';

// Prints how many calls of each kind there were, and how many of them were accepted.
function tallied(tally) {
  for (const [name, { calls, accepted, numbers }] of [...tally].sort()) {
    console.log(`${name}: ${calls} calls, ${accepted} accepted; refused: ${[...numbers].sort((a, b) => a - b).join(' ') || 'none'}`);
  }
}

const [wasm, due] = process.argv.slice(2);
const instance = new WebAssembly.Instance(new WebAssembly.Module(readFileSync(wasm)));
const calls = new Calls(instance);
const stack = new Stack(calls);
const reader = new Reader();
const tally = new Map();
let count = 0;
while (!reader.atEnd()) {
  const call = callOf(reader);
  const differs = difference(calls, call);
  if (differs) {
    console.log(`call ${count} of the record, ${call.name}, ${differs}`);
    process.exit(1);
  }
  const row = tally.get(call.name) ?? { calls: 0, accepted: 0, numbers: new Set() };
  const number = numberOf(call.name, call.answer);
  row.calls += 1;
  if (number === 0) row.accepted += 1;
  else row.numbers.add(number);
  tally.set(call.name, row);
  count += 1;
}
tallied(tally);
if (count !== Number(due)) {
  console.log(`${count} calls in the record where ${due} are due`);
  process.exit(1);
}
if (tally.size !== NAMES.length || [...tally.values()].some((row) => row.accepted === 0)) {
  console.log('not every call is in the record, or one was never accepted');
  process.exit(1);
}
console.log(`memory: ${calls.memory.buffer.byteLength} bytes; deepest stack: ${stack.depth()} of ${stack.size} bytes`);
console.log(`${count} calls, none differs from the native library`);
