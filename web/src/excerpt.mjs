// A line of a sheet as it is shown, with a caret under the place. Follows rust/command/src/excerpt.rs.

import { LINE_FEED } from './bytes.mjs';

// The widest line that is shown whole.
const WIDEST = 90;
// How much is shown before the place in a wider one.
const BEFORE = 40;
// The longest field that a sentence shows whole.
const LONGEST = 40;

// Returns the line of a place and a line with a caret below it, both indented; nothing if the line is empty. A place at the line's end is shown as `\n` or
// `<end of file>`, so the caret is always below something.
export function excerpt(sheet, given) {
  const place = Math.min(given, sheet.length);
  const start = place === 0 ? 0 : sheet.lastIndexOf(LINE_FEED, place - 1) + 1;
  const feed = sheet.indexOf(LINE_FEED, start);
  const end = feed < 0 ? sheet.length : feed;
  if (start === end) return '';
  let before = shown(sheet.subarray(start, place));
  let after = shown(sheet.subarray(place, end));
  if (after === '') after = feed < 0 ? '<end of file>' : '\\n';
  if (before.length + after.length > WIDEST) {
    const skipped = Math.max(0, before.length - BEFORE);
    if (skipped > 0) before = `..${before.slice(skipped)}`;
    const room = WIDEST - before.length;
    if (after.length > room) after = `${after.slice(0, room)}..`;
  }
  return `    ${before}${after}\n    ${' '.repeat(before.length)}^\n`;
}

// Returns a field of a sheet as a sentence shows it.
export function field(bytes) {
  return bytes.length > LONGEST ? `${shown(bytes.subarray(0, LONGEST))}..` : shown(bytes);
}

// Returns bytes as text in which everything that is no printable letter is shown in another way, such as `\t`.
function shown(bytes) {
  return Array.from(bytes, letter).join('');
}

function letter(byte) {
  if (byte >= 32 && byte <= 126) return String.fromCharCode(byte);
  if (byte === 9) return '\\t';
  if (byte === 13) return '\\r';
  return `\\x${byte.toString(16).padStart(2, '0')}`;
}
