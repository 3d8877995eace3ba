// A refusal: its number and place, and what they mean in general words.

import { lineStart, positionOf, textOf } from './bytes.mjs';
import { Kind, kindName } from './kind.mjs';

const WORDS = {
  Layout: 'a fixed word or a separator is missing, the sheet ends too early, or bytes follow its last line',
  Levels: 'levels is not one digit from 2 to 9',
  Inputs: 'inputs is not a number from 2 to 12, or there are over 4,096 cells',
  Name: 'a name is malformed, is `ink`, or is repeated',
  Row: "a row's input level is not the next in the count, or in a loose sheet no digit below levels",
  Digits: "an ink is no digit below levels and not `-`, or a gate's table is not made of digits below levels",
  UnknownReference: 'a reference is to no input and to no earlier gate',
  UsedReference: 'a reference was used before',
  BareSize: 'levels, inputs or the number of cells is out of bounds, or the cells are not levels to the power inputs',
  BareCell: 'a cell is above levels',
  Group: 'the group is empty, or no group of these inputs',
  HeadersDiffer: 'the two sheets differ in levels, inputs or names',
  CellsShort: 'the cells buffer is too short',
  MarksShort: 'the marks buffer is too short',
  OutputShort: 'the output is too short',
  NoTree: 'no tree of two-input gates computes this table',
  NoSuchTree: 'the table has no tree of this number',
  ArrivalName: 'a name is not the next input',
  ArrivalTime: 'a time is not a number from 0 to 65,535, or `to` is below `from`',
  RepeatedRow: "a row's assignment was given in an earlier row",
  JobDone: 'the job is done',
  JobUnfinished: 'the job is not done',
  Wiring: 'no gate tables give this wiring the table',
  Picture: "a side is not 1 to 64, the cells are not width times height, or a cell's level is not below levels",
  Offsets: 'there are not two offsets for each input, or one is not from -2 to 2',
  UnusedGate: 'an earlier gate is never used',
  OpenCell: 'a cell is left open, and a full table is needed',
};

const SHEETS = { net: 'net sheet: ', table: 'table sheet: ', arrivals: 'arrival sheet: ', neither: '' };

// Tells whether the place of a refusal is a byte of a sheet.
function isInASheet(number) {
  const isOfArrivalsOrLoose = number >= Kind.ArrivalName && number <= Kind.RepeatedRow;
  return (number >= Kind.Layout && number <= Kind.UsedReference) || isOfArrivalsOrLoose || number === Kind.UnusedGate;
}

export class Refusal {
  // `sheet` says which sheet is refused, `bytes` are that sheet's. `written` has the buffers that the call wrote before it refused.
  constructor(number, place, sheet, bytes, written = {}) {
    this.number = number;
    this.place = place;
    this.name = kindName(number);
    this.sheet = sheet;
    this.position = isInASheet(number) ? positionOf(bytes, place) : null;
    this.inputs = number === Kind.NoTree ? namesOf(bytes, place) : [];
    Object.assign(this, written);
    Object.freeze(this);
  }

  words() {
    return WORDS[this.name] ?? 'unknown refusal';
  }

  toString() {
    return `${SHEETS[this.sheet]}${this.words()} (refusal ${this.number}${this.#where()})`;
  }

  // Returns the place in words, as it follows the number.
  #where() {
    const { number, place, position } = this;
    if (position) return ` at byte ${place}, line ${position.line}, column ${position.column}`;
    if (number === Kind.BareCell || number === Kind.OpenCell) return ` at index ${place}`;
    if (number >= Kind.CellsShort && number <= Kind.OutputShort) return place === 1 ? '; 1 byte is needed' : `; ${place} bytes are needed`;
    if (number === Kind.NoTree) return ` at group ${place}: ${this.inputs.join(', ')}`;
    if (number === Kind.NoSuchTree) return ` at number ${place}`;
    if (number === Kind.JobUnfinished) return `; ${place} groups are still to go`;
    if (number === Kind.Wiring) return place === 0 ? '; it leaves out an input that matters' : ` at gate ${place}`;
    return '';
  }
}

// Returns the names of a group's inputs, from line 3 of an accepted sheet.
function namesOf(bytes, group) {
  const start = lineStart(bytes, 2);
  const names = textOf(bytes.subarray(start, lineStart(bytes, 3) - 1)).split(' ');
  return names.filter((_, input) => (group >> input) & 1);
}

export function isRefusal(answer) {
  return answer instanceof Refusal;
}
