// The lines and cells of CSV. Quotes are as in RFC 4180. Follows rust/command/src/csv/record.rs.

const [FEED, RETURN, SPACE, QUOTE, COMMA, POINT, ZERO, NINE] = [10, 13, 32, 34, 44, 46, 48, 57];

// What is wrong with a cell, whatever is due there.
export const Flaw = Object.freeze({ Blank: 'blank', Unclosed: 'unclosed', AfterQuote: 'after quote', QuoteInside: 'quote inside' });

// Lists a cell's bytes, each with its place in the file. Quotes around them are left out, and two quotes inside are one.
export function cellBytes(cell, file) {
  const isQuoted = cell.quoted && cell.flaw === null;
  const [from, to] = isQuoted ? [cell.from + 1, cell.to - 1] : [cell.from, cell.to];
  const bytes = [];
  for (let at = from; at < to; at += isQuoted && file[at] === QUOTE ? 2 : 1) bytes.push([file[at], at]);
  return bytes;
}

// Counts the cells of a line up to the last one that is not blank.
export function usedCells(record) {
  let used = record.cells.length;
  while (used > 0 && record.cells[used - 1].flaw === Flaw.Blank) used -= 1;
  return used;
}

// Reads the lines from a place on, which begins the line of this number. Blank lines are left out.
export function recordsFrom(file, start, first, separator) {
  const records = [];
  let line = first;
  for (let at = start; at < file.length; ) {
    const record = { ...recordAt(file, at, separator), start: at, line };
    line += 1 + file.subarray(at, record.end).reduce((feeds, byte) => feeds + (byte === FEED ? 1 : 0), 0);
    at = record.next;
    if (usedCells(record) > 0) records.push(record);
  }
  return records;
}

// Tells whether the first line says that the size follows: its letters are `levels` and `inputs`, or it has none, so it has no names.
export function saysSize(file, first) {
  const line = Array.from(file.subarray(first.start, first.end), (byte) => String.fromCharCode(byte)).join('');
  const letters = line.replace(/[^A-Za-z0-9\u0080-\u00ff]/g, '').toLowerCase();
  return letters === 'levelsinputs' || /^[0-9]*$/.test(letters);
}

// Returns what a cell without a flaw means in a line without names: a whole number without the zeros behind its point or comma, a word in lowercase.
export function numberBytes(cell, file) {
  const bytes = cellBytes(cell, file).map(([byte]) => (byte >= 65 && byte <= 90 ? byte + 32 : byte));
  const point = bytes.findIndex((byte) => byte === POINT || byte === COMMA);
  const zeros = bytes.slice(point + 1);
  const isWhole = point > 0 && bytes.slice(0, point).every((byte) => byte >= ZERO && byte <= NINE);
  return isWhole && zeros.length > 0 && zeros.every((byte) => byte === ZERO) ? bytes.slice(0, point) : bytes;
}

// Reads the line at a place: its cells, where it ends, and where the next one begins.
function recordAt(file, start, separator) {
  const cells = [];
  let at = start;
  for (;;) {
    const [cell, end] = cellAt(file, at, separator);
    // any number of spaces separates two fields
    if (separator !== SPACE || cell.to > cell.from) cells.push(cell);
    at = end;
    if (file[at] !== separator) break;
    at += 1;
  }
  const length = file[at] === RETURN && file[at + 1] === FEED ? 2 : at === file.length ? 0 : 1;
  return { cells, end: at, next: at + length };
}

// Reads the cell at a place, and answers with it the place behind it: a separator, a line end or the file's end.
export function cellAt(file, start, separator) {
  const isEnd = (at) => at >= file.length || file[at] === separator || file[at] === RETURN || file[at] === FEED;
  const endFrom = (at) => firstFrom(at, isEnd);
  const afterSpaces = (at) => firstFrom(at, (place) => file[place] !== SPACE || isEnd(place));
  const from = afterSpaces(start);
  if (file[from] === QUOTE) return quotedCell(file, from, { isEnd, endFrom, afterSpaces });
  const end = endFrom(from);
  let to = end;
  while (to > from && file[to - 1] === SPACE) to -= 1;
  const flaw = to === from ? Flaw.Blank : file.subarray(from, to).includes(QUOTE) ? Flaw.QuoteInside : null;
  return [{ from, to, quoted: false, flaw }, end];
}

function quotedCell(file, from, { isEnd, endFrom, afterSpaces }) {
  const close = quoteEnd(file, from);
  if (close === null) return [{ from, to: file.length, quoted: true, flaw: Flaw.Unclosed }, file.length];
  if (!isEnd(afterSpaces(close))) {
    const end = endFrom(close);
    return [{ from, to: end, quoted: true, flaw: Flaw.AfterQuote }, end];
  }
  return [{ from, to: close, quoted: true, flaw: close === from + 2 ? Flaw.Blank : null }, afterSpaces(close)];
}

// Returns the first place from one on at which a condition holds.
function firstFrom(start, holds) {
  let at = start;
  while (!holds(at)) at += 1;
  return at;
}

// Returns the place behind the quote that closes the one at a place; two quotes inside stand for one. Null if none does.
function quoteEnd(file, open) {
  let at = open + 1;
  while (at < file.length) {
    if (file[at] !== QUOTE) at += 1;
    else if (file[at + 1] === QUOTE) at += 2;
    else return at + 1;
  }
  return null;
}
