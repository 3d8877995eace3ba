// The usual mistakes in a sheet, each with what mends it. Follows rust/command/src/repairs.rs.

import { bytesOf, join, LINE_FEED, linesOf, SPACE, split } from './bytes.mjs';
import { Due } from './front.mjs';
import { isBlank } from './sentence.mjs';

// Sheets with one space between fields, and sheets that are read byte by byte.
const STRICT = [Due.Table, Due.Net, Due.Arrivals];
const PLAIN = [...STRICT, Due.Loose];
const ALL = [...PLAIN, Due.Csv];

// A usual mistake: the sheets in which it is one, what is said of it, and the bytes without it.
export const REPAIRS = Object.freeze([
  { sheets: PLAIN, words: 'the file begins with a byte order mark; save it as UTF-8 without one', mend: withoutMark },
  { sheets: PLAIN, words: 'lines end in CR LF, as Windows writes them; save the file with LF line ends', mend: (sheet) => replaced(sheet, '\r\n', '\n') },
  { sheets: PLAIN, words: 'tabs separate the fields; put one space between two fields', mend: (sheet) => replaced(sheet, '\t', ' ') },
  { sheets: PLAIN, words: 'commas separate the fields; put one space between two fields', mend: (sheet) => spaced(sheet, ',') },
  { sheets: PLAIN, words: 'semicolons separate the fields; put one space between two fields', mend: (sheet) => spaced(sheet, ';') },
  { sheets: PLAIN, words: 'there are quotes around fields; leave them out', mend: (sheet) => replaced(sheet, '"', '') },
  { sheets: STRICT, words: "there are too many spaces: one between two fields, none at a line's start or end", mend: withoutSpaces },
  { sheets: [Due.Loose], words: 'a line begins with a space; delete it', mend: withoutLeadingSpaces },
  { sheets: ALL, words: 'there are capitals; words and names are in lowercase', mend: lowercase },
  { sheets: ALL, words: 'there is a blank line; delete it', mend: withoutBlankLines },
  { sheets: ALL, words: 'the first line is missing; put `levels inputs` before this one', mend: withFirstLine },
  { sheets: PLAIN, words: 'the last line has no line feed; press Enter at its end', mend: withLastFeed },
]);

// Returns the encoding of a file that is no plain text, if it is one that editors and spreadsheets write; else null.
export function wideEncoding(bytes) {
  const [a, b, c, d] = bytes;
  const isLetter = (byte) => byte >= 32 && byte <= 126;
  if ((a === 0xff && b === 0xfe && c === 0 && d === 0) || (a === 0 && b === 0 && c === 0xfe && d === 0xff)) return 'UTF-32';
  if ((a === 0xff && b === 0xfe) || (a === 0xfe && b === 0xff)) return 'UTF-16';
  // without a mark: the first letters alternate with zeros
  const isWide = (isLetter(a) && b === 0 && isLetter(c) && d === 0) || (a === 0 && isLetter(b) && c === 0 && isLetter(d));
  return isWide ? 'UTF-16' : null;
}

// Returns the sheet with every occurrence of a text replaced by another.
function replaced(sheet, from, to) {
  const [search, instead] = [bytesOf(from), bytesOf(to)];
  const isAt = (at) => search.every((byte, k) => sheet[at + k] === byte);
  const pieces = [];
  let start = 0;
  for (let at = sheet.indexOf(search[0]); at >= 0; at = sheet.indexOf(search[0], at)) {
    if (!isAt(at)) {
      at += 1;
      continue;
    }
    pieces.push(sheet.subarray(start, at));
    at += search.length;
    start = at;
  }
  pieces.push(sheet.subarray(start));
  return join(pieces, instead);
}

const MARK = [0xef, 0xbb, 0xbf];

function withoutMark(sheet) {
  return MARK.every((byte, k) => sheet[k] === byte) ? sheet.subarray(3) : sheet;
}

// Returns the sheet with a space for every such separator, and for one with a space after it.
function spaced(sheet, separator) {
  return replaced(replaced(sheet, `${separator} `, ' '), separator, ' ');
}

function withoutSpaces(sheet) {
  const lines = linesOf(sheet).map((line) => {
    const parts = split(line, SPACE).filter((part) => part.length > 0);
    return join(parts, [SPACE]);
  });
  return join(lines, [LINE_FEED]);
}

function withoutLeadingSpaces(sheet) {
  const lines = linesOf(sheet).map((line) => {
    const start = line.findIndex((byte) => byte !== SPACE);
    return line.subarray(start < 0 ? line.length : start);
  });
  return join(lines, [LINE_FEED]);
}

function lowercase(sheet) {
  return sheet.map((byte) => (byte >= 65 && byte <= 90 ? byte + 32 : byte));
}

function withoutBlankLines(sheet) {
  const lines = linesOf(sheet);
  // every line with its line feed, the last without
  const whole = lines.map((line, k) => (k + 1 < lines.length ? join([line, []], [LINE_FEED]) : line));
  return join(
    whole.filter((line) => !line.every(isBlank)),
    [],
  );
}

function withFirstLine(sheet) {
  const isSecond = sheet[0] >= 50 && sheet[0] <= 57 && sheet[1] === SPACE;
  return isSecond ? join([bytesOf('levels inputs\n'), sheet], []) : sheet;
}

function withLastFeed(sheet) {
  return sheet.length === 0 || sheet[sheet.length - 1] === LINE_FEED ? sheet : join([sheet, []], [LINE_FEED]);
}
