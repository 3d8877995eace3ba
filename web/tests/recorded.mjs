// Recorded calls: reads them, and compares the module's answers and memory with the native library's. rust/load/src/recorded.rs describes the format.

import { readSync } from 'node:fs';
import { CALLS } from '../src/calls.mjs';

// The calls in the order of their numbers in the record.
export const NAMES = Object.keys(CALLS);
const [NUMBER, BUFFER] = [0, 2];
// Bytes behind the arena that no call may touch.
const BEHIND = 4096;
// One call with its buffers is far shorter.
const WINDOW = 8 << 20;

// Reads numbers and bytes from standard input.
export class Reader {
  #window = Buffer.alloc(WINDOW);
  #start = 0;
  #end = 0;

  // Makes that many bytes available; answers false at the end of the input.
  #need(length) {
    if (this.#end - this.#start >= length) return true;
    this.#window.copyWithin(0, this.#start, this.#end);
    this.#end -= this.#start;
    this.#start = 0;
    while (this.#end < length) {
      const read = readSync(0, this.#window, this.#end, WINDOW - this.#end, null);
      if (read === 0) return false;
      this.#end += read;
    }
    return true;
  }

  atEnd() {
    return !this.#need(1);
  }

  bytes(length) {
    if (!this.#need(length)) throw new Error('the record ends in the middle of a call');
    const bytes = Uint8Array.prototype.slice.call(this.#window, this.#start, this.#start + length);
    this.#start += length;
    return bytes;
  }

  byte() {
    return this.bytes(1)[0];
  }

  big() {
    return new BigUint64Array(this.bytes(8).buffer)[0];
  }

  number() {
    return Number(this.big());
  }
}

// Reads one call: its name, its arguments, its answer, and the bytes of each buffer after it.
export function callOf(reader) {
  const name = NAMES[reader.number()];
  const given = [];
  const buffers = [];
  for (let left = reader.number(); left > 0; left -= 1) {
    const tag = reader.byte();
    if (tag === BUFFER) buffers.push(given.length);
    given.push(tag === NUMBER ? reader.big() : reader.bytes(reader.number()));
  }
  const answer = Array.from({ length: reader.number() }, () => reader.big());
  const after = new Map();
  for (const argument of buffers) {
    const isChanged = reader.byte() === 1;
    after.set(argument, isChanged ? reader.bytes(given[argument].length) : given[argument]);
  }
  return { name, given, answer, after };
}

// Makes the call by the module. Answers what differs, or null. The whole arena is compared, and some bytes behind it: a call writes to nothing but its buffers.
export function difference(calls, { name, given, answer, after }) {
  const placed = calls.place(name, given);
  const from = calls.base + 8 * CALLS[name].gives;
  const until = Math.min(placed.end + BEHIND, calls.memory.buffer.byteLength);
  const due = new Uint8Array(calls.memory.buffer.slice(from, until));
  calls.invoke(placed);
  const words = calls.answer(placed);
  if (words.length !== answer.length || words.some((word, k) => word !== answer[k])) return `answers ${words} where ${answer} is due`;
  for (const { argument, at } of placed.lent) {
    if (after.has(argument)) due.set(after.get(argument), at - from);
  }
  const got = new Uint8Array(calls.memory.buffer, from, until - from);
  const place = Buffer.compare(got, due) === 0 ? -1 : got.findIndex((byte, k) => byte !== due[k]);
  return place < 0 ? null : `has ${got[place]} at byte ${place + from} of the memory where ${due[place]} is due; lent: ${JSON.stringify(placed.lent)}`;
}

// Returns the refusal's number in an answer: 0 if it is accepted.
export function numberOf(name, answer) {
  if (name === 'shallower' || name === 'lister_next') return 0;
  if (name === 'check') return answer[0] === 2n ? Number(answer[2]) : 0;
  if (name === 'keep' || name === 'arrivals') return Number(answer[1]);
  if (name === 'gate_line') return answer[0] === 2n ? Number(answer[1]) : 0;
  if (name === 'job_mark_parts') return answer[0] > 1n ? Number(answer[0]) : 0;
  return Number(answer[0]);
}
