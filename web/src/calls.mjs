// The calls of include/sitgurp.h as the WebAssembly module has them. Pointers are i32, lengths and numbers i64, and a struct is returned through a hidden
// first pointer. What is lent to a call is copied into one arena behind the module's own data. Every call starts at the arena's beginning, so it does not
// grow from call to call.

// What an argument is.
const NUMBER = 'number'; // an i64
const SMALL = 'small'; // an i32
const BYTES = 'bytes'; // a pointer and a length: the call reads
const BUFFER = 'buffer'; // a pointer and a length: the call reads and writes
const PART = 'part'; // a pointer alone: the call reads
const OWN = 'own'; // a pointer alone: the call reads and writes

const SHEET_CALL = [BYTES, BUFFER, BUFFER, BUFFER];

// Each call's arguments, and the fields of its answer. All fields are 64-bit integers, apart from the two times of `arrivals`.
export const CALLS = Object.freeze({
  multiplicity: { takes: [NUMBER, NUMBER, BYTES, NUMBER], gives: 2 },
  marking: { takes: [NUMBER, NUMBER, BYTES, BUFFER], gives: 2 },
  settle: { takes: SHEET_CALL, gives: 2 },
  make: { takes: SHEET_CALL, gives: 2 },
  settle_shallow: { takes: SHEET_CALL, gives: 3 },
  make_shallow: { takes: SHEET_CALL, gives: 3 },
  family_count: { takes: [BYTES, BUFFER, BUFFER], gives: 2 },
  family_tree: { takes: [BYTES, NUMBER, BUFFER, BUFFER, BUFFER], gives: 2 },
  shallower: { takes: [BYTES, BYTES], gives: 2 },
  check: { takes: [BYTES, BYTES, BUFFER], gives: 4 },
  keep: { takes: [BYTES, BYTES, BUFFER, BUFFER], gives: 4 },
  write_table: { takes: [BYTES, BUFFER], gives: 2 },
  tidy: { takes: [BYTES, BUFFER, BUFFER], gives: 2 },
  gate_line: { takes: [BYTES, NUMBER], gives: 3 },
  arrivals: { takes: [BYTES, BYTES, SMALL], gives: 5 },
  job_open_parts: { takes: [BYTES, OWN, OWN, OWN, OWN], gives: 2 },
  job_step_parts: { takes: [PART, PART, OWN, OWN], gives: 2 },
  job_mark_parts: { takes: [PART, PART, NUMBER, NUMBER], gives: 2 },
  job_finish_parts: { takes: [PART, PART, NUMBER, BUFFER, BUFFER, BUFFER], gives: 2 },
  glyph: { takes: [BYTES, NUMBER, NUMBER, BYTES, BYTES, BUFFER], gives: 2 },
  lister_open: { takes: [BYTES], gives: 2 },
  lister_next: { takes: [BYTES, NUMBER], gives: 4 },
});

const ALIGNMENT = 16;
const PAGE = 65536;
// Room for the longest answer, five fields.
const ANSWER = 48;

const aligned = (at) => Math.ceil(at / ALIGNMENT) * ALIGNMENT;
const isLent = (kind) => kind !== NUMBER && kind !== SMALL;
const isWritten = (kind) => kind === BUFFER || kind === OWN;

export class Calls {
  #exports;
  #base;

  constructor(instance) {
    this.#exports = instance.exports;
    this.#base = aligned(instance.exports.__heap_base.value);
  }

  get memory() {
    return this.#exports.memory;
  }

  // Returns the size of the stack: it lies below the module's data, from address 0 on.
  get stackSize() {
    return this.#exports.__global_base.value;
  }

  // Returns the address at which the arena begins.
  get base() {
    return this.#base;
  }

  // Returns the version of the library as one number: 203 is 0.2.3.
  get version() {
    return this.#exports.sitgurp_version() >>> 0;
  }

  // Makes a call. The bytes of buffers are changed in place; answers the fields as unsigned 64-bit integers.
  call(name, ...given) {
    const placed = this.place(name, given);
    this.invoke(placed);
    this.#takeBack(placed, given);
    return this.answer(placed);
  }

  // Copies what is lent into the arena. Answers where everything is.
  place(name, given) {
    const { takes } = CALLS[name];
    const lent = [];
    let at = this.#base + ANSWER;
    takes.forEach((kind, k) => {
      if (!isLent(kind)) return;
      lent.push({ argument: k, at, length: given[k].length, written: isWritten(kind) });
      at = aligned(at + given[k].length);
    });
    this.#reach(at);
    const memory = new Uint8Array(this.memory.buffer);
    for (const { argument, at: start } of lent) memory.set(given[argument], start);
    return { name, lent, end: at, words: this.#words(takes, given, lent) };
  }

  // Makes the memory long enough.
  #reach(end) {
    const missing = end - this.memory.buffer.byteLength;
    if (missing > 0) this.memory.grow(Math.ceil(missing / PAGE));
  }

  // Returns the arguments as the module takes them: the hidden pointer first.
  #words(takes, given, lent) {
    const words = [this.#base];
    const places = new Map(lent.map((one) => [one.argument, one]));
    takes.forEach((kind, k) => {
      if (kind === NUMBER) words.push(BigInt.asIntN(64, BigInt(given[k])));
      else if (kind === SMALL) words.push(Number(given[k]));
      else words.push(places.get(k).at);
      if (kind === BYTES || kind === BUFFER) words.push(BigInt(given[k].length));
    });
    return words;
  }

  // Calls the library on what was placed. It may be called again, and then goes on with what the arena has.
  invoke(placed) {
    this.#exports[`sitgurp_${placed.name}`](...placed.words);
  }

  // Copies the buffers back to where they came from.
  #takeBack(placed, given) {
    const buffer = this.memory.buffer;
    for (const { argument, at, length, written } of placed.lent) {
      if (written) given[argument].set(new Uint8Array(buffer, at, length));
    }
  }

  // Returns the bytes of an argument in the arena.
  lent(placed, argument) {
    const { at, length } = placed.lent.find((one) => one.argument === argument);
    return new Uint8Array(this.memory.buffer, at, length);
  }

  // Returns the fields of the answer.
  answer(placed) {
    return Array.from(new BigUint64Array(this.memory.buffer, this.#base, CALLS[placed.name].gives));
  }
}
