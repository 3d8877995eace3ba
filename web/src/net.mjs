// A net that is only ever an accepted net sheet.

import { bytesOf, textOf } from './bytes.mjs';
import { Header } from './header.mjs';
import { isRefusal } from './refusal.mjs';

// Only this file can make a net.
const KEY = Symbol('net');

export class Net {
  #sitgurp;
  #table = null;

  constructor(key, sitgurp, sheet, lines) {
    if (key !== KEY) throw new TypeError('a net comes from Sitgurp.net or from a table');
    const header = Header.of(sheet);
    this.#sitgurp = sitgurp;
    this.sheet = sheet;
    this.levels = header.levels;
    this.names = header.names;
    this.gates = Object.freeze(lines.map((line) => gateOf(line, header.names)));
    Object.freeze(this);
  }

  // Reads a net sheet, or answers its refusal.
  static read(sitgurp, sheet) {
    const bytes = bytesOf(sheet);
    const lines = sitgurp.gateLines(bytes);
    return isRefusal(lines) ? lines : new Net(KEY, sitgurp, textOf(bytes), lines);
  }

  unused() {
    const used = new Set(this.gates.flatMap((gate) => [gate.left.input, gate.right.input]));
    return [...this.names.keys()].filter((input) => !used.has(input));
  }

  value(assignment) {
    return this.table().ink(assignment);
  }

  // Returns the table that the net computes. It is asked for once.
  table() {
    this.#table ??= this.#sitgurp.table(this.#sitgurp.writeTable(this));
    return this.#table;
  }

  settled() {
    return this.#sitgurp.net(this.#sitgurp.settle(this).sheet);
  }

  shallow() {
    const { sheet, layers } = this.#sitgurp.settleShallow(this);
    return { net: this.#sitgurp.net(sheet), layers };
  }

  // Returns the most gates on a way from an input to the output: when the output settles if every input is there at 0 and a gate takes a microsecond.
  layers() {
    const lines = this.names.map((name) => `${name} 0 0\n`);
    return this.settling(`name from to\n${lines.join('')}`, 4).latest;
  }

  check(table) {
    return this.#sitgurp.check(this, table);
  }

  keep(table) {
    const kept = this.#sitgurp.keep(this, table);
    return isRefusal(kept) ? kept : { net: this.#sitgurp.net(kept.sheet), changed: kept.changed };
  }

  settling(arrivalSheet, delay) {
    return this.#sitgurp.arrivals(this, arrivalSheet, delay);
  }

  glyph(width, height, picture, offsets) {
    return this.#sitgurp.glyph(this, width, height, picture, offsets);
  }

  toString() {
    return this.sheet;
  }
}

// Reads a gate line of an accepted sheet.
function gateOf(line, names) {
  const [left, right, digits] = line.split(' ');
  return Object.freeze({ left: wireOf(left, names), right: wireOf(right, names), digits: Uint8Array.from(digits, Number) });
}

// Reads a reference: if it is no input's name, it is an earlier gate's number, from 1.
function wireOf(reference, names) {
  const input = names.indexOf(reference);
  return Object.freeze(input >= 0 ? { input } : { gate: Number(reference) - 1 });
}
