// Sheets as bytes and as text.

const encoder = new TextEncoder();
const decoder = new TextDecoder();

export const LINE_FEED = 10;
export const SPACE = 32;

// Returns the bytes of a sheet that is given as text, bytes, a table or a net.
export function bytesOf(sheet) {
  if (sheet instanceof Uint8Array) return sheet;
  if (typeof sheet === 'string') return encoder.encode(sheet);
  if (sheet && typeof sheet.sheet === 'string') return encoder.encode(sheet.sheet);
  throw new TypeError('a sheet is text, a Uint8Array, a Table or a Net');
}

// Returns the text of bytes that the library has written or accepted, which are ASCII.
export function textOf(bytes) {
  return decoder.decode(bytes);
}

// Splits bytes at every byte of this value, like Rust's `split`: n separators give n + 1 pieces.
export function split(bytes, separator) {
  const pieces = [];
  let start = 0;
  for (let at = bytes.indexOf(separator); at >= 0; at = bytes.indexOf(separator, start)) {
    pieces.push(bytes.subarray(start, at));
    start = at + 1;
  }
  pieces.push(bytes.subarray(start));
  return pieces;
}

// Returns the lines of a sheet without their line feeds.
export function linesOf(bytes) {
  return split(bytes, LINE_FEED);
}

// Joins pieces with a separator between them.
export function join(pieces, separator) {
  const total = pieces.reduce((sum, piece) => sum + piece.length, 0);
  const joined = new Uint8Array(total + separator.length * Math.max(0, pieces.length - 1));
  let at = 0;
  pieces.forEach((piece, k) => {
    if (k > 0) {
      joined.set(separator, at);
      at += separator.length;
    }
    joined.set(piece, at);
    at += piece.length;
  });
  return joined;
}

// Returns line and column of a byte, both from 1.
export function positionOf(bytes, place) {
  const end = Math.min(place, bytes.length);
  let line = 1;
  let start = 0;
  for (let at = bytes.indexOf(LINE_FEED); at >= 0 && at < end; at = bytes.indexOf(LINE_FEED, at + 1)) {
    line += 1;
    start = at + 1;
  }
  return { line, column: end - start + 1 };
}

// Returns where a line begins, counted from 0.
export function lineStart(sheet, line) {
  let start = 0;
  for (let k = 0; k < line; k += 1) {
    const feed = sheet.indexOf(LINE_FEED, start);
    if (feed < 0) return sheet.length;
    start = feed + 1;
  }
  return start;
}
