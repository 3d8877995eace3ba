// The library, started: one function per call, with buffers that always suffice. A refusal is a value.

import { bytesOf, textOf } from './bytes.mjs';
import { Calls } from './calls.mjs';
import { fewestLevels, multiplicities } from './counting.mjs';
import { explainHeaders, explainTable, open, readArrivals, readLoose, readNet, readTable } from './explain.mjs';
import { Family } from './family.mjs';
import { faultOf } from './fault.mjs';
import { Job } from './job.mjs';
import { Kind } from './kind.mjs';
import { MOST_CELLS, MOST_MARKS, MOST_NET_SHEET, MOST_PICTURE, MOST_TABLE_SHEET } from './limits.mjs';
import { Net } from './net.mjs';
import { isRefusal, Refusal } from './refusal.mjs';
import { sheetOf, Table } from './table.mjs';

// Which sheet the number in an answer names.
const NAMED = ['neither', 'net', 'table'];

export class Sitgurp {
  constructor(instance) {
    this.calls = new Calls(instance);
    Object.freeze(this);
  }

  // Answers a value or a refusal for a call that takes one sheet or none: 1 to 8, 20, 26 and 27 are that sheet's.
  answered([number, value], sheet, bytes, written) {
    if (number === 0n) return Number(value);
    const ofSheet = number <= 8n || number === 20n || number === 26n || number === 27n;
    return new Refusal(Number(number), Number(value), ofSheet ? sheet : 'neither', bytes, written);
  }

  multiplicity(levels, inputs, cells, group) {
    return this.answered(this.calls.call('multiplicity', levels, inputs, cells, group), 'neither', new Uint8Array());
  }

  marking(levels, inputs, cells) {
    const marks = new Uint8Array(MOST_MARKS);
    const whole = this.answered(this.calls.call('marking', levels, inputs, cells, marks), 'neither', new Uint8Array());
    return isRefusal(whole) ? whole : { whole, marks: marks.subarray(0, marksOf(inputs)) };
  }

  settle(netSheet) {
    return this.#made('settle', 'net', netSheet);
  }

  make(tableSheet) {
    return this.#made('make', 'table', tableSheet);
  }

  settleShallow(netSheet) {
    return this.#made('settle_shallow', 'net', netSheet);
  }

  makeShallow(tableSheet) {
    return this.#made('make_shallow', 'table', tableSheet);
  }

  // Makes a net sheet of a sheet. Refusals 16 and 17 leave cells and marks written.
  #made(name, sheet, given, ...numbers) {
    const bytes = bytesOf(given);
    const [cells, marks, output] = [new Uint8Array(MOST_CELLS), new Uint8Array(MOST_MARKS), new Uint8Array(MOST_NET_SHEET)];
    const answer = this.calls.call(name, bytes, ...numbers, cells, marks, output);
    const hasMarks = [0, Kind.NoTree, Kind.NoSuchTree].includes(Number(answer[0]));
    const written = hasMarks ? cut(bytes, cells, marks) : {};
    const length = this.answered(answer, sheet, bytes, written);
    if (isRefusal(length)) return length;
    const layers = answer.length === 3 ? { layers: Number(answer[2]) } : {};
    return { sheet: textOf(output.subarray(0, length)), ...layers, ...written };
  }

  familyCount(tableSheet) {
    const bytes = bytesOf(tableSheet);
    const [cells, marks] = [new Uint8Array(MOST_CELLS), new Uint8Array(MOST_MARKS)];
    const count = this.answered(this.calls.call('family_count', bytes, cells, marks), 'table', bytes);
    return isRefusal(count) ? count : { count, ...cut(bytes, cells, marks) };
  }

  familyTree(tableSheet, number) {
    if (number < 0) throw new RangeError('the number of a tree is 0 or more');
    return this.#made('family_tree', 'table', tableSheet, number);
  }

  shallower(first, second) {
    const sheets = [bytesOf(first), bytesOf(second)];
    const [which, length] = this.calls.call('shallower', ...sheets).map(Number);
    const sheet = which === 0 ? '' : textOf(sheets[which - 1].subarray(0, length));
    return { which, sheet };
  }

  check(netSheet, tableSheet) {
    const sheets = [bytesOf(netSheet), bytesOf(tableSheet)];
    const cells = new Uint8Array(MOST_CELLS);
    const [kind, named, number, value] = this.calls.call('check', ...sheets, cells).map(Number);
    if (kind === 2) return refusedOf(sheets, named, number, value);
    const inks = cut(sheets[1], cells).cells;
    return kind === 0 ? { agree: true, cells: inks } : { agree: false, index: value, cells: inks };
  }

  keep(netSheet, tableSheet) {
    const sheets = [bytesOf(netSheet), bytesOf(tableSheet)];
    const [cells, output] = [new Uint8Array(MOST_CELLS), new Uint8Array(MOST_NET_SHEET)];
    const [named, number, value, changed] = this.calls.call('keep', ...sheets, cells, output).map(Number);
    const written = number === 0 || number === Kind.Wiring ? cut(sheets[1], cells) : {};
    if (number !== 0) return refusedOf(sheets, named, number, value, written);
    return { sheet: textOf(output.subarray(0, value)), changed: bitsOf(changed), ...written };
  }

  writeTable(netSheet) {
    const bytes = bytesOf(netSheet);
    const output = new Uint8Array(MOST_TABLE_SHEET);
    const length = this.answered(this.calls.call('write_table', bytes, output), 'net', bytes);
    return isRefusal(length) ? length : textOf(output.subarray(0, length));
  }

  tidy(looseSheet) {
    const bytes = bytesOf(looseSheet);
    const [cells, output] = [new Uint8Array(MOST_CELLS), new Uint8Array(MOST_TABLE_SHEET)];
    const length = this.answered(this.calls.call('tidy', bytes, cells, output), 'table', bytes);
    if (isRefusal(length)) return length;
    const sheet = output.subarray(0, length);
    return { sheet: textOf(sheet), ...cut(sheet, cells) };
  }

  gateLine(netSheet, k) {
    const bytes = bytesOf(netSheet);
    const [kind, first, second] = this.calls.call('gate_line', bytes, k).map(Number);
    if (kind === 2) return new Refusal(first, second, 'net', bytes);
    return kind === 0 ? null : textOf(bytes.subarray(first, first + second));
  }

  gateLines(netSheet) {
    const bytes = bytesOf(netSheet);
    let at = this.answered(this.calls.call('lister_open', bytes), 'net', bytes);
    if (isRefusal(at)) return at;
    const lines = [];
    for (;;) {
      const [kind, start, length, next] = this.calls.call('lister_next', bytes, at).map(Number);
      if (kind === 0) return lines;
      lines.push(textOf(bytes.subarray(start, start + length)));
      at = next;
    }
  }

  version() {
    return this.calls.version;
  }

  arrivals(netSheet, arrivalSheet, delay) {
    if (!Number.isInteger(delay) || delay < 0 || delay > 255) throw new RangeError('a delay is a whole number from 0 to 255');
    const sheets = [bytesOf(netSheet), bytesOf(arrivalSheet)];
    const [named, number, place, ...times] = this.calls.call('arrivals', ...sheets, delay);
    if (number !== 0n) {
      const which = named === 1n ? 0 : 1;
      return new Refusal(Number(number), Number(place), ['net', 'arrivals'][which], sheets[which]);
    }
    const [earliest, latest] = new Float64Array(BigUint64Array.from(times).buffer);
    return { earliest, latest };
  }

  openJob(tableSheet) {
    return Job.open(this, bytesOf(tableSheet));
  }

  glyph(netSheet, width, height, picture, offsets) {
    const bytes = bytesOf(netSheet);
    const output = new Uint8Array(MOST_PICTURE);
    // an offset that no byte holds is too far, whatever it is
    const shifts = new Uint8Array(Int8Array.from(offsets, (offset) => Math.max(-128, Math.min(127, offset))).buffer);
    const cells = this.answered(this.calls.call('glyph', bytes, width, height, picture, shifts, output), 'net', bytes);
    return isRefusal(cells) ? cells : output.slice(0, cells);
  }

  table(sheet) {
    return Table.read(this, sheet);
  }

  net(sheet) {
    return Net.read(this, sheet);
  }

  tableFromRule(levels, names, rule) {
    return this.table(sheetOf(levels, names, (_, assignment) => rule(assignment)));
  }

  tableFromInks(levels, names, inks) {
    return this.table(sheetOf(levels, names, (index) => inks[index]));
  }

  multiplicities(tableSheet) {
    return multiplicities(this, tableSheet);
  }

  fewestLevels(tableSheet) {
    return fewestLevels(this, tableSheet);
  }

  family(tableSheet) {
    return Family.of(this, tableSheet);
  }

  open(bytes, file) {
    return open(this, bytes, file);
  }

  readTable(bytes, file) {
    return readTable(this, bytes, file);
  }

  readNet(bytes, file) {
    return readNet(this, bytes, file);
  }

  readLoose(bytes, file, csv) {
    return readLoose(this, bytes, file, csv);
  }

  readArrivals(net, bytes, delay, file) {
    return readArrivals(this, net, bytes, delay, file);
  }

  explainTable(table, refusal, file) {
    return explainTable(table, refusal, file);
  }

  explainHeaders(first, second) {
    return explainHeaders(first, second);
  }

  fault(table) {
    return faultOf(this, table);
  }
}

// Returns the bytes that the marks of so many inputs take.
function marksOf(inputs) {
  return 2 ** inputs / 4;
}

// Cuts the cells and marks of an accepted sheet to their lengths.
function cut(bytes, cells, marks) {
  const [levels, inputs] = textOf(bytes.subarray(14, 24)).split('\n', 1)[0].split(' ').map(Number);
  const inks = { cells: cells.subarray(0, levels ** inputs) };
  return marks ? { ...inks, marks: marks.subarray(0, marksOf(inputs)) } : inks;
}

// Returns the refusal of one of two sheets, or of neither.
function refusedOf(sheets, named, number, place, written) {
  return new Refusal(number, place, NAMED[named], sheets[named - 1] ?? new Uint8Array(), written);
}

// Returns the numbers of the bits that are 1.
function bitsOf(set) {
  const bits = [];
  for (let bit = 0; 2 ** bit <= set; bit += 1) {
    if ((set >> bit) & 1) bits.push(bit);
  }
  return bits;
}
