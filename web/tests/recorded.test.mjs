// The comparison with the native library sees every difference: in an answer, in a buffer, and in bytes that a call must not touch.

import assert from 'node:assert/strict';
import { test } from 'node:test';
import { Calls } from '../src/calls.mjs';
import { WASM } from './library.mjs';
import { difference } from './recorded.mjs';

const SHEET = new TextEncoder().encode('levels inputs\n2 2\na b ink\n0 0 0\n0 1 1\n1 0 1\n1 1 0\n');
const NET = new TextEncoder().encode('levels inputs\n2 2\na b\nleft right table\na b 0110\n');
const MARKS = Uint8Array.of(0xa8, 9);

// Returns a good record: a buffer is longer than it needs to be, and its further bytes are kept.
function record() {
  const given = [SHEET, new Uint8Array(6).fill(9), new Uint8Array(2).fill(9), new Uint8Array(64).fill(9)];
  const output = new Uint8Array(64).fill(9);
  output.set(NET);
  const after = new Map([[1, Uint8Array.of(0, 1, 1, 0, 9, 9)], [2, MARKS], [3, output]]);
  return { name: 'make', given, answer: [0n, BigInt(NET.length)], after };
}

const calls = new Calls(new WebAssembly.Instance(new WebAssembly.Module(WASM)));

test('a good record has no difference', () => {
  assert.equal(difference(calls, record()), null);
});

test('another answer is seen', () => {
  for (const word of [0, 1]) {
    const call = record();
    call.answer[word] += 1n;
    assert.match(difference(calls, call), /answers/);
  }
});

test('another byte in any buffer is seen', () => {
  for (const [argument, bytes] of record().after) {
    for (const place of [0, bytes.length - 1]) {
      const call = record();
      call.after.get(argument).set([bytes[place] ^ 1], place);
      assert.match(difference(calls, call), /of the memory/, `argument ${argument}, byte ${place}`);
    }
  }
});

test('a byte that changes outside the buffers is seen', () => {
  for (const place of ['sheet', 'between', 'behind']) {
    const invoke = (placed) => {
      Calls.prototype.invoke.call(calls, placed);
      const [sheet, cells] = placed.lent;
      const at = { sheet: sheet.at, between: cells.at + cells.length, behind: placed.end + 9 }[place];
      new Uint8Array(calls.memory.buffer)[at] ^= 1;
    };
    const careless = new Proxy(calls, { get: (_, name) => (name === 'invoke' ? invoke : bind(calls, name)) });
    assert.match(difference(careless, record()), /of the memory/, place);
  }
});

// Returns a member of an object; a method is bound to it.
function bind(object, name) {
  const member = object[name];
  return typeof member === 'function' ? member.bind(object) : member;
}
