// A picture of levels, as text and as a portable graymap.

// Reads a picture from text: a line per row, a digit per cell, `.` for level 0. Null if rows differ in length or another letter is there.
export function pictureFromText(text) {
  const lines = textLines(text);
  const width = lines.length > 0 ? lines[0].length : 0;
  if (!lines.every((line) => line.length === width && /^[.0-9]*$/.test(line))) return null;
  const cells = Uint8Array.from(lines.join(''), (letter) => (letter === '.' ? 0 : Number(letter)));
  return { width, height: lines.length, cells };
}

// Writes a picture as text. A level above 9 has no digit and is written `#`.
export function pictureToText({ width, cells }) {
  const letter = (level) => (level === 0 ? '.' : level <= 9 ? String(level) : '#');
  return rowsOf(width, cells)
    .map((row) => `${row.map(letter).join('')}\n`)
    .join('');
}

// Writes a plain portable graymap (P2) of that many levels: level 0 is white and the highest is black.
export function pictureToPgm({ width, height, cells }, levels) {
  const highest = Math.max(0, levels - 1);
  const rows = rowsOf(width, cells).map((row) => `${row.map((level) => Math.max(0, highest - level)).join(' ')}\n`);
  return `P2\n${width} ${height}\n${highest}\n${rows.join('')}`;
}

// Reads a plain portable graymap, in which `#` begins a comment. Null if it is none, or a gray is above the highest.
export function pictureFromPgm(text) {
  const fields = textLines(text)
    .map((line) => line.split('#')[0])
    .join('\n')
    .split(/[ \t\n\r\f]+/)
    .filter((field) => field !== '');
  if (fields[0] !== 'P2' || fields.length < 4 || !fields.slice(1).every((field) => /^\d+$/.test(field))) return null;
  const [width, height, highest, ...grays] = fields.slice(1).map(Number);
  if (highest >= 255 || grays.length !== width * height || grays.some((gray) => gray > highest)) return null;
  return { picture: { width, height, cells: Uint8Array.from(grays, (gray) => highest - gray) }, levels: highest + 1 };
}

// Returns the lines of a text without their ends; a last line may lack its line feed.
function textLines(text) {
  const lines = text.split('\n').map((line) => line.replace(/\r$/, ''));
  if (lines[lines.length - 1] === '') lines.pop();
  return lines;
}

// Returns the rows of a picture as arrays.
function rowsOf(width, cells) {
  const rows = [];
  for (let at = 0; at < cells.length; at += Math.max(1, width)) rows.push(Array.from(cells.subarray(at, at + width)));
  return rows;
}
