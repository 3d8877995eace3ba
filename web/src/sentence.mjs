// What is due at the place of a refusal, in words that say what to change. The library has judged: all before the place is as it should be.
// Follows rust/command/src/sentence.rs.

import { linesOf } from './bytes.mjs';
import { Due, fields, fieldsIn } from './front.mjs';
import { Kind } from './kind.mjs';
import { MOST_CELLS } from './limits.mjs';
import { count, list, MOST_U32, parsed, thousands } from './words.mjs';

// Returns the sentence of a refusal that has a place in a sheet.
export function sentence(number, front) {
  const field = front.field();
  switch (number) {
    case Kind.Levels:
      return `levels should be one digit from 2 to 9, not \`${field}\``;
    case Kind.Inputs:
      return inputs(front, field);
    case Kind.Name:
      return name(front, field);
    case Kind.Row:
      return front.due.isLoose ? `${levelDue(front)}, not \`${field}\`` : row(front);
    case Kind.RepeatedRow:
      return repeated(front);
    case Kind.Digits:
      return front.due === Due.Net ? gateTable(front, field) : `${inkDue(front)}, not \`${field}\``;
    case Kind.UnknownReference:
      return unknown(front, field);
    case Kind.UsedReference:
      return used(front, field);
    case Kind.ArrivalName: {
      const due = front.names[front.line - 2] ?? 'another input';
      return `this line is for the input \`${due}\`, not \`${field}\`: one line an input, in the net's order`;
    }
    case Kind.ArrivalTime:
      return time(front, field);
    case Kind.UnusedGate:
      return unused(front);
    default:
      return layout(front);
  }
}

// Returns the sentence of a refusal at a blank cell of CSV.
export function blankCell(number, front) {
  const open = 'only an ink may be left open, with `-`';
  const due = number === Kind.Row ? `${levelDue(front)}; ${open}` : number === Kind.Digits ? inkDue(front) : lineDue(front);
  return `this cell is blank: ${due}`;
}

function levelDue(front) {
  return `an input's level should be one digit from 0 to ${front.levels - 1}`;
}

function inkDue(front) {
  return `an ink should be one digit from 0 to ${front.levels - 1}, or \`-\` for an open cell`;
}

// Returns the sentence for a fixed word, a separator, or the sheet's end.
function layout(front) {
  const { line } = front;
  if (front.sheet.length === 0) return `there is nothing to read: ${front.due.name} is due`;
  const sizeKnown = front.due === Due.Arrivals || line > 2;
  if (sizeKnown && line > front.linesDue()) return afterLast(front);
  if (front.atEnd()) return earlyEnd(front);
  const names = front.namesTooMany();
  if (names !== null) {
    const ink = front.due.isTable ? ' before `ink`' : '';
    return `line ${front.number(3)} has ${count(names, 'name')}${ink}, and line ${front.number(2)} says ${count(front.inputs, 'input')}`;
  }
  const allNames = front.fieldsOfLine().length === front.inputs;
  if (front.due.isTable && line === 3 && allNames && front.field() !== '') {
    return `\`${front.field()}\` is where \`ink\` should be, after the names of the ${count(front.inputs, 'input')}`;
  }
  if (front.atLineStart() && front.sheet[front.place] === 10) return `line ${front.number(line)} is blank: ${lineDue(front)}`;
  return lineDue(front);
}

// Returns the sentence for bytes after the last line.
function afterLast(front) {
  const rest = front.sheet.subarray(front.place);
  const all = front.due.isTable
    ? `all ${count(front.rows(), 'row')} come before it`
    : front.due === Due.Net
      ? `${come(front.inputs - 1, 'gate')} before it, and ${front.inputs} inputs need no more`
      : `all ${count(front.inputs, 'input')} come before it`;
  return rest.every(isBlank)
    ? `the sheet should end before this line, which is blank: ${all}`
    : `the sheet should end before this line: ${all}`;
}

// Tells whether a byte is what Rust's `trim_ascii` trims.
export function isBlank(byte) {
  return byte === 32 || byte === 9 || byte === 10 || byte === 12 || byte === 13;
}

// Returns the sentence for a sheet that ends before it should.
function earlyEnd(front) {
  const { line } = front;
  if (!front.atLineStart()) {
    return front.sheet[front.sheet.length - 1] === 32
      ? `the sheet ends in the middle of line ${line}: ${lineDue(front)}`
      : `line ${line} has no line feed at its end, or the sheet is cut: ${lineDue(front)}`;
  }
  if (front.due === Due.Table && line >= 4) return missingRows(front);
  if (front.due.isLoose && line >= 4) return missingLooseRows(front);
  if (front.due === Due.Net && line === 5) return 'the sheet ends here, and there is no gate line: a net has one or more';
  if (front.due === Due.Arrivals && line >= 2) return `the sheet ends here, and ${are(front.linesDue() + 1 - line, 'line')} missing`;
  return `the sheet ends here: ${lineDue(front)}`;
}

function missingRows(front) {
  const first = front.line - 4;
  const left = front.rows() - first;
  const levels = front.row(first);
  return left === 1
    ? `the sheet ends here, and the last row is missing: \`${levels}\` and its ink`
    : `the sheet ends here, and ${count(left, 'row')} are missing: from \`${levels}\` on`;
}

function missingLooseRows(front) {
  const known = new Set(rowsAbove(front).map(([index]) => index));
  const missing = Array.from({ length: front.rows() }, (_, index) => index).filter((index) => !known.has(index));
  const levels = front.row(missing[0] ?? 0);
  return missing.length === 1
    ? `the sheet ends here, and the row \`${levels}\` is missing`
    : `the sheet ends here, and ${missing.length} rows are missing, \`${levels}\` the first of them`;
}

function are(number, one) {
  return `${count(number, one)} ${number === 1 ? 'is' : 'are'}`;
}

function come(number, one) {
  return `${count(number, one)} ${number === 1 ? 'comes' : 'come'}`;
}

// Returns what the line of the place should be.
function lineDue(front) {
  const { due, line, inputs } = front;
  const { apart } = due;
  if (due === Due.Arrivals) return line === 1 ? 'line 1 should be `name from to`' : `a line should have an input's name and two times, ${apart}`;
  const number = front.number(line);
  if (line === 1 && due === Due.Csv) return `line ${number} should have the columns' names, or be \`levels\` and \`inputs\`, ${apart}`;
  if (line === 1) return 'line 1 should be `levels inputs`';
  if (line === 2) return `line ${number} should have two numbers, levels and inputs, ${apart}`;
  if (line === 3) return `line ${number} should have the names of the ${inputs} inputs${due === Due.Net ? '' : ' and then `ink`'}, ${apart}`;
  if (due !== Due.Net) return `a row should have ${count(inputs, 'level')} and an ink, ${apart}`;
  return line === 4 ? 'line 4 should be `left right table`' : `a gate line should have left, right and table, ${apart}`;
}

function inputs(front, field) {
  const number = parsed(field, MOST_U32);
  if (number === null || number < 2 || number > 12 || field !== String(number)) return `inputs should be a number from 2 to 12, not \`${field}\``;
  const levels = parsed(front.fieldsOfLine()[0]) ?? 0;
  let fit = 12;
  while (fit > 2 && levels ** fit > MOST_CELLS) fit -= 1;
  return `${levels} levels with ${number} inputs are ${thousands(levels ** number)} cells, and ${thousands(MOST_CELLS)} is the most: ${fit} inputs fit`;
}

function name(front, field) {
  const earlier = front.fieldsOfLine();
  const own = front.ownField();
  if (own === 'ink') {
    const there = earlier.length === 1 ? 'is 1 name' : `are ${count(earlier.length, 'name')}`;
    return front.due.isTable
      ? `\`ink\` is where a name should be: line ${front.number(2)} says ${count(front.inputs, 'input')}, and there ${there}`
      : "`ink` is no input's name";
  }
  if (earlier.includes(own)) return `the name \`${field}\` is there twice`;
  const rule = 'a name has 1 to 8 lowercase letters and digits, a letter first';
  return field.length > 8 && /^[A-Za-z0-9]*$/.test(field) ? `the name \`${field}\` is too long: ${rule}` : `\`${field}\` is no name: ${rule}`;
}

// Returns the sentence for a row that is not the next in the count.
function row(front) {
  return `this row should begin \`${front.row(front.line - 4)}\`, the next in the count`;
}

// Returns the sentence for a row of a loose sheet whose assignment an earlier line has.
function repeated(front) {
  const line = linesOf(front.sheet.subarray(front.place))[0];
  const levels = fieldsIn(front.due, line).slice(0, front.inputs).join(' ');
  const index = front.indexOf(line);
  const earlier = rowsAbove(front).find(([one]) => one === index);
  return earlier ? `the row \`${levels}\` is already in line ${front.number(earlier[1])}` : `the row \`${levels}\` is already above`;
}

// Returns the rows of a loose sheet above the place's line, each with its line.
function rowsAbove(front) {
  const rows = [];
  for (let k = 3; k < front.line - 1; k += 1) {
    const index = front.indexOf(front.linesBefore[k]);
    if (index !== null) rows.push([index, k + 1]);
  }
  return rows;
}

function gateTable(front, field) {
  const due = front.levels * front.levels;
  const rule = `a gate's table should be ${due} digits from 0 to ${front.levels - 1}`;
  if (!/^[0-9]*$/.test(field)) return `${rule}, not \`${field}\``;
  if (field.length !== due) return `${rule}, and this has ${field.length}`;
  const wrong = [...field].find((digit) => Number(digit) >= front.levels);
  return `${rule}, and this has a ${wrong ?? '?'}`;
}

function unknown(front, field) {
  const last = front.line - 5;
  const gates = last === 0 ? 'there is no gate before the first' : last === 1 ? 'the only earlier gate is 1' : `the earlier gates are 1 to ${last}`;
  return `\`${field}\` is no input and no earlier gate: the inputs are ${list(front.names)}, and ${gates}`;
}

function used(front, field) {
  const k = front.linesBefore.findIndex((line, at) => at >= 4 && fields(line).slice(0, 2).includes(field));
  const place = k < 0 ? 'before' : k + 1 === front.line ? 'in this line' : `in line ${k + 1}`;
  const what = /^[0-9]/.test(field) ? 'gate ' : '';
  return `${what}\`${field}\` is used already, ${place}: no input and no gate is used twice`;
}

// Returns the sentence for gates that no later line refers to.
function unused(front) {
  const numbers = front.unusedGates();
  const gates = numbers.length === 1 ? `gate ${numbers[0]} is` : `gates ${list(numbers.map(String))} are`;
  return `${gates} never used: a later line refers to each gate but the last, which is the output`;
}

function time(front, field) {
  const line = front.fieldsOfLine();
  const [to, from] = [parsed(field, MOST_U32), parsed(line[1], MOST_U32)];
  if (to !== null && from !== null && line.length === 2 && to < from) return `\`to\` is ${to}, which is before \`from\`, ${from}`;
  return `a time should be a whole number of quarter microseconds from 0 to 65535, not \`${field}\``;
}
