// What has likely gone wrong with a refused sheet. A repair is tried on a copy, and the library asked again: if it then gets further, what was repaired is
// the likely cause. Follows rust/command/src/cause.rs.

import { bytesOf, linesOf } from './bytes.mjs';
import { Due, Front } from './front.mjs';
import { judged } from './judged.mjs';
import { Kind } from './kind.mjs';
import { REPAIRS, wideEncoding } from './repairs.mjs';
import { isBlank } from './sentence.mjs';
import { count, list, PROGRAM } from './words.mjs';

// Returns the likely causes of a refusal, each with what to do; none if none of the usual mistakes explains it.
export function causes(sitgurp, due, sheet, refusal, inputs) {
  const words = encoding(sheet) ?? otherSheet(sitgurp, due, sheet);
  return words === null ? usual(sitgurp, due, sheet, refusal, inputs) : [words];
}

// Returns the likely causes of a refusal of CSV.
export function causesInCsv(sitgurp, file, csv, refusal) {
  const words = encoding(file) ?? csv.cause(refusal.place);
  return words === null ? usual(sitgurp, Due.Csv, csv.text, refusal, []) : [words];
}

function encoding(file) {
  const name = wideEncoding(file);
  return name === null ? null : `the file is ${name}; save it as plain text, UTF-8 or ASCII`;
}

// Returns the usual mistakes that explain a refusal. One that the sheet itself does not have is left out, even if mending others leaves it behind.
function usual(sitgurp, due, sheet, refusal, inputs) {
  const found = [];
  let copy = sheet;
  let current = refusal;
  while (current !== null) {
    const front = new Front(due, copy, current, inputs);
    const ofLines = ofRows(front, current.number) ?? ofGates(front, current.number) ?? ofNames(front, current.number);
    if (ofLines !== null) {
      found.push(ofLines);
      break;
    }
    const mended = repaired(sitgurp, due, copy, current, inputs);
    if (mended === null) break;
    const own = mended.repairs.filter((repair) => !isSame(repair.mend(sheet), sheet));
    found.push(...own.map((repair) => repair.words));
    copy = mended.sheet;
    current = mended.refusal;
  }
  return found;
}

function isSame(one, other) {
  return one.length === other.length && one.every((byte, k) => byte === other[k]);
}

// Applies repairs. Answers the sheet they leave, its refusal, and how much was read.
function repairedBy(sitgurp, due, sheet, repairs, inputs) {
  const mended = repairs.reduce((text, repair) => repair.mend(text), sheet);
  const refusal = judged(sitgurp, due, mended, inputs);
  const read = refusal === null ? Infinity : content(mended.subarray(0, refusal.place));
  return { repairs, sheet: mended, refusal, read };
}

// Tries all repairs at once, and then leaves out each that is not needed to get as far. Null if they get no further.
function repaired(sitgurp, due, sheet, fault, inputs) {
  const all = REPAIRS.filter((repair) => repair.sheets.includes(due));
  let best = repairedBy(sitgurp, due, sheet, all, inputs);
  if (best.read <= content(sheet.subarray(0, fault.place))) return null;
  for (const repair of all) {
    const fewer = best.repairs.filter((other) => other !== repair);
    const without = repairedBy(sitgurp, due, sheet, fewer, inputs);
    if (without.read >= best.read) best = without;
  }
  return best;
}

// Returns how many letters and digits have been read, whatever is between them.
function content(bytes) {
  let letters = 0;
  for (const byte of bytes) {
    if ((byte >= 48 && byte <= 57) || (byte >= 65 && byte <= 90) || (byte >= 97 && byte <= 122)) letters += 1;
  }
  return letters;
}

// Returns what to say of a sheet of another kind than the one that is due; null if it is none.
function otherSheet(sitgurp, due, sheet) {
  const other = otherKind(sitgurp, due, sheet);
  if (other === null) return null;
  const made = due === Due.Net && other === Due.Table ? `; \`${PROGRAM} make\` makes the net of a table` : '';
  return `this is ${other.name}, and ${due.name} is due here${made}`;
}

function otherKind(sitgurp, due, sheet) {
  const isGood = (kind) => judged(sitgurp, kind, sheet, []) === null;
  if (due !== Due.Net && isGood(Due.Net)) return Due.Net;
  if ((due === Due.Net || due === Due.Arrivals) && isGood(Due.Table)) return Due.Table;
  const isArrivals = bytesOf('name from to').every((byte, k) => sheet[k] === byte);
  return isArrivals && due !== Due.Arrivals ? Due.Arrivals : null;
}

// Returns what to say of rows that are missing, repeated, or in another order; null if they are not.
function ofRows(front, number) {
  if (number !== Kind.Row || front.due !== Due.Table) return null;
  const due = front.line - 4;
  const lines = linesOf(front.sheet).slice(3);
  const rows = lines.filter((line) => !line.every(isBlank)).map((line) => front.indexOf(line));
  const known = new Set(rows.filter((index) => index !== null));
  const here = rows[due] ?? null;
  if (here === null) return null;
  if (known.size === front.rows() && rows.length === front.rows()) {
    return 'all rows are there, but in another order: count upward, the last input fastest';
  }
  if (!known.has(due) && here === due + 1) {
    return `the row \`${front.row(due)}\` is missing: there are ${count(rows.length, 'row')} where ${front.rows()} are due`;
  }
  if (!known.has(due) && here > due) return `${count(here - due, 'row')} are missing, from \`${front.row(due)}\` to \`${front.row(here - 1)}\``;
  if (here < due) return `the row \`${front.row(here)}\` is there twice, in lines ${here + 4} and ${front.line}`;
  return null;
}

// Returns what to say of more names in line 3 than line 2 says; null if there are not.
function ofNames(front, number) {
  if (number !== Kind.Layout || front.namesTooMany() === null) return null;
  return 'a name has a space in it, which makes it two, or the number of inputs in line 2 is wrong';
}

// Returns what to say of a net that uses every input and ends too early: gates are left that no line joins. Null if it is none.
function ofGates(front, number) {
  if (number !== Kind.UnusedGate) return null;
  const gates = front.references();
  const used = new Set(gates.flat());
  if (!front.names.every((name) => used.has(name))) return null;
  const loose = [...front.unusedGates(), gates.length];
  const numbers = list(loose.map(String));
  const lines = loose.length - 1;
  return lines === 1 ? `the last line is missing, which joins gates ${numbers}` : `the last ${lines} lines are missing, which join gates ${numbers}`;
}
