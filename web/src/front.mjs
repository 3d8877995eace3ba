// A refused sheet up to its place: its lines so far, and what was read in them. Follows the first part of rust/command/src/sentence.rs.

import { LINE_FEED, linesOf, SPACE, split } from './bytes.mjs';
import { field } from './excerpt.mjs';
import { parsed } from './words.mjs';

// Which sheet is due, with what it is called and what separates its fields. A loose sheet has any spaces between fields and rows in any order; CSV is turned
// into one.
export const Due = Object.freeze({
  Table: { name: 'a table sheet', apart: 'one space apart', isTable: true, isLoose: false },
  Loose: { name: 'a table', apart: 'with spaces between them', isTable: true, isLoose: true },
  Csv: { name: 'a table', apart: 'each in a cell of its own', isTable: true, isLoose: true },
  Net: { name: 'a net sheet', apart: 'one space apart', isTable: false, isLoose: false },
  Arrivals: { name: 'an arrival sheet', apart: 'one space apart', isTable: false, isLoose: false },
});

export class Front {
  // `inputs` are the names that an arrival sheet is for. If the sheet was made from a file, `given` is the field at the place as it is there, and `lines` has
  // the file's line of each line.
  constructor(due, sheet, refusal, inputs, given = null, lines = []) {
    this.due = due;
    this.given = given;
    this.lines = lines;
    this.sheet = sheet;
    this.place = Math.min(refusal.place, sheet.length);
    this.linesBefore = linesOf(sheet.subarray(0, this.place));
    // the line of the place, from 1
    this.line = this.linesBefore.length;
    const isArrivals = due === Due.Arrivals;
    const [levels, count] = isArrivals ? [] : this.#fieldsOfLine(1);
    this.levels = parsed(levels) ?? 0;
    this.inputs = isArrivals ? inputs.length : parsed(count) ?? 0;
    const names = isArrivals ? inputs : this.#fieldsOfLine(2);
    this.names = names.slice(0, Math.max(this.inputs, inputs.length));
  }

  // Returns the fields of a line before the place, counted from 0.
  #fieldsOfLine(line) {
    return this.line > line ? fieldsIn(this.due, this.linesBefore[line]) : [];
  }

  // Returns the number of a line in the file.
  number(line) {
    return this.lines[line - 1] ?? line;
  }

  // Returns the field that begins at the place, as it is in the file.
  field() {
    return this.given ?? this.ownField();
  }

  // Returns the field that begins at the place of the sheet.
  ownField() {
    const rest = this.sheet.subarray(this.place);
    const end = rest.findIndex((byte) => byte === SPACE || byte === LINE_FEED);
    return field(end < 0 ? rest : rest.subarray(0, end));
  }

  // Returns how many lines the sheet should have, a net sheet at most, once its second line is read.
  linesDue() {
    if (this.due.isTable) return 3 + this.rows();
    return this.due === Due.Net ? 4 + this.inputs - 1 : 1 + this.inputs;
  }

  // Returns how many names line 3 has, if all names that line 2 says come before the place, and more names follow; else null.
  namesTooMany() {
    if (this.line !== 3 || this.due === Due.Arrivals || this.fieldsOfLine().length !== this.inputs) return null;
    const line = linesOf(this.sheet)[2];
    const names = fields(line).filter((one) => one !== '');
    if (this.due.isTable && names.pop() !== 'ink') return null;
    return !names.includes('ink') && names.length > this.inputs ? names.length : null;
  }

  // Returns the two references of each gate line before the place.
  references() {
    const lines = this.linesBefore.slice(4).filter((line) => line.length > 0);
    return lines.map((line) => fields(line).slice(0, 2));
  }

  // Returns the numbers of the gates before the last that no gate line refers to.
  unusedGates() {
    const gates = this.references();
    const used = new Set(gates.flat());
    const unused = [];
    for (let number = 1; number < gates.length; number += 1) {
      if (!used.has(String(number))) unused.push(number);
    }
    return unused;
  }

  // Returns how many rows a table sheet should have.
  rows() {
    return this.levels ** this.inputs;
  }

  // Returns the levels of a row of a table sheet, from 0, as text.
  row(index) {
    const levels = [];
    let rest = index;
    for (let k = 0; k < this.inputs; k += 1) {
      levels.unshift(rest % this.levels);
      rest = Math.floor(rest / this.levels);
    }
    return levels.join(' ');
  }

  // Returns the index of a row by its levels, whatever spaces are between them; null if it is none.
  indexOf(line) {
    const parts = split(line, SPACE).filter((part) => part.length > 0);
    if (parts.length < this.inputs) return null;
    let index = 0;
    for (const part of parts.slice(0, this.inputs)) {
      const level = part[0] - 48;
      if (part.length !== 1 || level < 0 || level > 9 || level >= this.levels) return null;
      index = index * this.levels + level;
    }
    return index;
  }

  // Returns the fields of the place's line before the place.
  fieldsOfLine() {
    return fields(this.linesBefore[this.line - 1]).filter((one) => one !== '');
  }

  atLineStart() {
    return this.place === 0 || this.sheet[this.place - 1] === LINE_FEED;
  }

  atEnd() {
    return this.place === this.sheet.length;
  }
}

// Returns the fields of a line; in a loose sheet any number of spaces is between them.
export function fieldsIn(due, line) {
  const all = fields(line);
  return due.isLoose ? all.filter((one) => one !== '') : all;
}

export function fields(line) {
  return split(line, SPACE).map(field);
}
