// Reads files of each kind, or says in the command's words why not: the file, the line and the column, what is due there, the line itself with a caret, and
// the likely cause. Follows rust/command/src/refused.rs.

import { bytesOf, lineStart, positionOf, textOf } from './bytes.mjs';
import { causes, causesInCsv } from './cause.mjs';
import { Csv } from './csv.mjs';
import { excerpt } from './excerpt.mjs';
import { Due, Front } from './front.mjs';
import { Kind } from './kind.mjs';
import { MOST_FILE } from './limits.mjs';
import { Flaw } from './record.mjs';
import { isRefusal } from './refusal.mjs';
import { blankCell, sentence } from './sentence.mjs';
import { narrow } from './wide.mjs';
import { count, fileName, list, operand, PROGRAM, STANDARD, thousands } from './words.mjs';

export class Explanation {
  constructor(file, refusal, parts) {
    this.file = file;
    this.refusal = refusal;
    this.sentence = parts.sentence;
    this.position = parts.position ?? null;
    this.excerpt = parts.excerpt ?? '';
    this.causes = Object.freeze(parts.causes ?? []);
    this.hint = parts.hint ?? null;
    Object.freeze(this);
  }

  toString() {
    const at = this.position ? `${this.position.line}:${this.position.column}:` : '';
    const causes = this.causes.map((cause) => `likely cause: ${cause}\n`);
    return `${fileName(this.file)}:${at} ${this.sentence} (refusal ${this.refusal.number})\n${this.excerpt}${causes.join('')}`;
  }
}

export function isExplanation(answer) {
  return answer instanceof Explanation;
}

// Explains a sheet that is not accepted. `inputs` are the names that an arrival sheet is for.
function ofSheet(sitgurp, due, bytes, file, refusal, inputs = []) {
  const front = new Front(due, bytes, refusal, inputs);
  // a gate that is never used is known at the sheet's end, and shown in its own line
  const place = refusal.number === Kind.UnusedGate ? lineStart(bytes, front.unusedGates()[0] + 3) : refusal.place;
  return new Explanation(file, refusal, {
    sentence: sentence(refusal.number, front),
    position: positionOf(bytes, place),
    excerpt: excerpt(bytes, place),
    causes: causes(sitgurp, due, bytes, refusal, inputs),
    hint: tidyHint(sitgurp, due, bytes, file),
  });
}

// Explains CSV that was turned into a loose table. The place is the one in the file.
function ofCsv(sitgurp, bytes, csv, file, refusal) {
  const front = new Front(Due.Csv, csv.text, refusal, [], csv.shown(refusal.place), csv.lines);
  const isBlank = csv.flaw(refusal.place) === Flaw.Blank;
  const place = csv.source(refusal.place);
  return new Explanation(file, refusal, {
    sentence: isBlank ? blankCell(refusal.number, front) : sentence(refusal.number, front),
    position: positionOf(bytes, place),
    excerpt: excerpt(bytes, place),
    causes: causesInCsv(sitgurp, bytes, csv, refusal),
    hint: csvHint(csv, file),
  });
}

// Returns how a file was read that is refused.
function csvHint(csv, file) {
  const fields = `${csv.separatorWords()} separate the fields of this file`;
  if (csv.inferred === null) return fields;
  const { levels, inputs } = csv.inferred;
  const options = `\`${PROGRAM} tidy --csv --drop NAME${operand(file)}\` leaves a column out, and \`--ink NAME\` says which is the ink`;
  return `${fields}; by its digits and columns it has ${levels} levels and ${count(inputs, 'input')}\n${options}`;
}

// Returns which command reads a table that is laid loosely or is CSV; null if none does.
function tidyHint(sitgurp, due, bytes, file) {
  const isTable = due === Due.Table || due === Due.Loose;
  if (!isTable || !isRefusal(sitgurp.gateLine(bytes, 0))) return null;
  if (due === Due.Table && !isRefusal(sitgurp.tidy(bytes))) return `\`${PROGRAM} tidy${operand(file)}\` writes it as a table sheet`;
  const csv = new Csv(narrow(bytes));
  const command = `\`${PROGRAM} tidy --csv${operand(file)}\``;
  if (bytes.some((byte) => SPREADSHEET.includes(byte)) && !isRefusal(sitgurp.tidy(csv.text))) return `${command} writes it as a table sheet`;
  const isCsv = due === Due.Loose && csv.separatorWords() !== 'spaces';
  return isCsv ? `${command} takes commas, semicolons or tabs between fields` : null;
}

// Bytes that a spreadsheet writes and no sheet has: comma, semicolon, tab, carriage return, quote, and bytes of byte order marks.
const SPREADSHEET = [44, 59, 9, 13, 34, 0xef, 0xfe];

// Returns the bytes of a file, which is not longer than any sheet.
function limited(given) {
  const bytes = bytesOf(given);
  if (bytes.length > MOST_FILE) throw new RangeError(`cannot be a sheet: it is longer than ${MOST_FILE} bytes`);
  return bytes;
}

export function readTable(sitgurp, given, file = STANDARD) {
  const bytes = limited(given);
  const table = sitgurp.table(bytes);
  return isRefusal(table) ? ofSheet(sitgurp, Due.Table, bytes, file, table) : table;
}

export function readNet(sitgurp, given, file = STANDARD) {
  const bytes = limited(given);
  const net = sitgurp.net(bytes);
  return isRefusal(net) ? ofSheet(sitgurp, Due.Net, bytes, file, net) : net;
}

// Reads a loose sheet, or with `csv` what a spreadsheet wrote.
export function readLoose(sitgurp, given, file = STANDARD, csv = false) {
  const bytes = csv ? narrow(limited(given)) : limited(given);
  const cells = csv ? new Csv(bytes) : null;
  const tidied = sitgurp.tidy(cells ? cells.text : bytes);
  if (!isRefusal(tidied)) return sitgurp.table(tidied.sheet);
  return cells ? ofCsv(sitgurp, bytes, cells, file, tidied) : ofSheet(sitgurp, Due.Loose, bytes, file, tidied);
}

export function readArrivals(sitgurp, net, given, delay, file = STANDARD) {
  const bytes = limited(given);
  const settling = sitgurp.arrivals(net, bytes, delay);
  return isRefusal(settling) ? ofSheet(sitgurp, Due.Arrivals, bytes, file, settling, net.names) : settling;
}

// Reads a file of unknown kind, or explains it as the kind that it looks most like.
export function open(sitgurp, given, file = STANDARD) {
  const bytes = limited(given);
  const table = sitgurp.table(bytes);
  if (!isRefusal(table)) return { kind: 'table', table };
  const net = sitgurp.net(bytes);
  if (!isRefusal(net)) return { kind: 'net', net };
  const loose = sitgurp.tidy(bytes);
  if (!isRefusal(loose)) return { kind: 'loose', table: sitgurp.table(loose.sheet) };
  const text = narrow(bytes);
  const csv = new Csv(text);
  const tidied = sitgurp.tidy(csv.text);
  if (!isRefusal(tidied)) return { kind: 'csv', table: sitgurp.table(tidied.sheet), columns: csv.columns };
  if (isWorkbook(bytes)) return new Explanation(file, table, { sentence: WORKBOOK });
  if (isNetLike(bytes)) return ofSheet(sitgurp, Due.Net, bytes, file, net);
  if (csv.separatorWords() !== 'spaces') return ofCsv(sitgurp, text, csv, file, tidied);
  // spaces too many are no mistake in a loose sheet, which is read further then
  const isLoose = table.number === Kind.Layout && loose.place > table.place;
  return isLoose ? ofSheet(sitgurp, Due.Loose, bytes, file, loose) : ofSheet(sitgurp, Due.Table, bytes, file, table);
}

const WORKBOOK = "this is a spreadsheet program's own file: export it as CSV";

// Tells whether bytes are those of a spreadsheet program's own file: a zip archive, or an older workbook.
function isWorkbook(bytes) {
  return [[0x50, 0x4b, 3, 4], [0xd0, 0xcf, 0x11, 0xe0]].some((start) => start.every((byte, k) => bytes[k] === byte));
}

// Tells whether a file has the fourth line of a net sheet.
function isNetLike(bytes) {
  const line = textOf(bytes.subarray(lineStart(bytes, 3), lineStart(bytes, 4)));
  return /^\s*left\s+right\s+table\s*$/i.test(line);
}

// Explains why an accepted table has no tree, none of this number, or open cells.
export function explainTable(table, refusal, file = STANDARD) {
  if (refusal.number === Kind.OpenCell) return ofOpenCells(table, refusal, file);
  const none = 'no tree of two-input gates computes this table';
  const why = `\`${PROGRAM} why${operand(file)}\` says what to change`;
  if (refusal.number === Kind.NoTree) {
    return new Explanation(file, refusal, { sentence: `${none}; at fault are ${list(refusal.inputs)} together`, hint: why });
  }
  if (refusal.number !== Kind.NoSuchTree) return new Explanation(file, refusal, { sentence: refusal.words() });
  const family = table.family();
  const size = isRefusal(family) ? 0 : family.size;
  if (size === 0) return new Explanation(file, refusal, { sentence: `${none}, so it has no number ${refusal.place}`, hint: why });
  const numbers = size === 1 ? 'number 0' : `0 to ${size - 1}`;
  return new Explanation(file, refusal, { sentence: `the table has ${trees(table, size)}, ${numbers}, and none of number ${refusal.place}` });
}

// Returns how many trees a table has: `1 tree`, or `3 trees on a and b` if other inputs never matter. Trees with those are not counted.
function trees(table, size) {
  const words = size === 1 ? '1 tree' : `${size} trees`;
  const unused = table.settled().unused();
  return unused.length === 0 ? words : `${words} on ${list(table.names.filter((_, input) => !unused.includes(input)))}`;
}

function ofOpenCells(table, refusal, file) {
  const bytes = bytesOf(table);
  const open = table.open().length;
  const others = open === 1 ? '' : `, the first of ${thousands(open)}`;
  // behind the row's levels, each with a space after it
  const place = lineStart(bytes, refusal.place + 3) + 2 * table.names.length;
  return new Explanation(file, refusal, {
    sentence: `this cell is open${others}, and a full table is needed here`,
    position: positionOf(bytes, place),
    excerpt: excerpt(bytes, place),
    hint: `\`${PROGRAM} fill${operand(file)}\` finds inks for open cells; \`${PROGRAM} check NET${operand(file)}\` passes over them`,
  });
}

// Returns in what the first lines of two sheets differ; null if they do not.
export function explainHeaders(first, second) {
  const differ = (what, one, other) => `the two differ in ${what}: ${one} against ${other}`;
  const [names, others] = [first.names, second.names];
  if (first.levels !== second.levels) return differ('levels', first.levels, second.levels);
  if (names.length !== others.length) return differ('the number of inputs', names.length, others.length);
  const [one, other] = [names.join(' '), others.join(' ')];
  return one === other ? null : differ("the inputs' names or their order", `\`${one}\``, `\`${other}\``);
}
