// A table that is only ever an accepted table sheet.

import { bytesOf, textOf } from './bytes.mjs';
import { inksOf } from './counting.mjs';
import { Header } from './header.mjs';
import { MOST_CELLS } from './limits.mjs';
import { isRefusal } from './refusal.mjs';

// Only this file can make a table.
const KEY = Symbol('table');

export class Table {
  #sitgurp;
  #header;

  constructor(key, sitgurp, sheet, inks) {
    if (key !== KEY) throw new TypeError('a table comes from Sitgurp.table, tableFromRule or tableFromInks');
    this.#sitgurp = sitgurp;
    this.#header = Header.of(sheet);
    this.sheet = sheet;
    this.inks = inks;
    this.levels = this.#header.levels;
    this.names = this.#header.names;
    Object.freeze(this);
  }

  // Reads a table sheet, or answers its refusal.
  static read(sitgurp, sheet) {
    const bytes = bytesOf(sheet);
    const inks = inksOf(sitgurp, bytes);
    return isRefusal(inks) ? inks : new Table(KEY, sitgurp, textOf(bytes), inks);
  }

  open() {
    const open = [];
    this.inks.forEach((ink, index) => {
      if (ink === this.levels) open.push(index);
    });
    return open;
  }

  isFull() {
    return !this.inks.includes(this.levels);
  }

  indexOf(assignment) {
    return this.#header.indexOf(assignment);
  }

  assignment(index) {
    return this.#header.assignment(index);
  }

  ink(assignment) {
    const index = this.indexOf(assignment);
    return index === null ? null : this.inks[index];
  }

  *rows() {
    for (let index = 0; index < this.inks.length; index += 1) {
      yield { levels: this.assignment(index), ink: this.inks[index] };
    }
  }

  with(changes) {
    const inks = this.inks.slice();
    for (const [index, ink] of changes) inks[index] = ink;
    return this.#sitgurp.tableFromInks(this.levels, this.names, inks);
  }

  settled() {
    const made = this.#sitgurp.make(this);
    return isRefusal(made) ? made : this.#sitgurp.net(made.sheet);
  }

  shallow() {
    const made = this.#sitgurp.makeShallow(this);
    return isRefusal(made) ? made : { net: this.#sitgurp.net(made.sheet), layers: made.layers };
  }

  family() {
    return this.#sitgurp.family(this);
  }

  job() {
    return this.#sitgurp.openJob(this);
  }

  multiplicity(group) {
    return this.#sitgurp.multiplicity(this.levels, this.names.length, this.inks, group);
  }

  fewestLevels() {
    return this.#sitgurp.fewestLevels(this);
  }

  namesOf(group) {
    return this.#header.namesOf(group);
  }

  toString() {
    return this.sheet;
  }
}

// Writes a table sheet; `ink` is asked for each cell by its index and assignment. Whether it is a good sheet is the library's to say: a size that no sheet
// has is refused by the header alone.
export function sheetOf(levels, names, ink) {
  const header = new Header(levels, names);
  const lines = ['levels inputs', `${levels} ${names.length}`, [...names, 'ink'].join(' ')];
  const cells = levels ** names.length;
  if (levels >= 2 && cells <= MOST_CELLS) {
    for (let index = 0; index < cells; index += 1) {
      const assignment = header.assignment(index);
      const value = ink(index, assignment);
      lines.push(`${assignment.join(' ')} ${value === levels ? '-' : value}`);
    }
  }
  return `${lines.join('\n')}\n`;
}
