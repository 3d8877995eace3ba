// Lists, numbers and names of files in words. Follows rust/command/src/words.rs.

// Returns `a`, `a and b`, `a, b and c`.
export function list(items) {
  if (items.length < 2) return items.join('');
  return `${items.slice(0, -1).join(', ')} and ${items[items.length - 1]}`;
}

// Returns `1 row`, `2 rows`.
export function count(number, one) {
  return number === 1 ? `1 ${one}` : `${thousands(number)} ${one}s`;
}

// Returns `4,096`.
export function thousands(number) {
  return String(number).replace(/\B(?=(\d{3})+$)/g, ',');
}

// Returns a file's name as it is shown: a control character, or one that turns the direction of writing around, is written as `\x1b`.
export function fileName(name) {
  return Array.from(name, (letter) => (isPlain(letter) ? letter : escapedLetter(letter.codePointAt(0)))).join('');
}

function escapedLetter(code) {
  return code < 256 ? `\\x${hex(code)}` : `\\u{${code.toString(16)}}`;
}

const hex = (byte) => byte.toString(16).padStart(2, '0');

function isPlain(letter) {
  return !/[\u0000-\u001f\u007f-\u009f\u200e\u200f\u2028-\u202e\u2066-\u2069]/.test(letter);
}

// Returns how a sheet is named in a command, with a space before it: nothing for standard input, else the name as a shell takes it, in quotes if it needs them.
export function operand(file) {
  if (file === STANDARD) return '';
  const start = file.startsWith('-') ? './' : '';
  if (/^[A-Za-z0-9./_\-+,@%]+$/.test(file)) return ` ${start}${file}`;
  if (Array.from(file).every(isPlain)) return ` ${start}'${file.replace(/'/g, "'\\''")}'`;
  return ` ${start}$'${Array.from(new TextEncoder().encode(file), escapedByte).join('')}'`;
}

// Returns a byte as the shell's `$'..'` takes it.
function escapedByte(byte) {
  const letter = String.fromCharCode(byte);
  if (letter === "'" || letter === '\\') return `\\${letter}`;
  return byte >= 32 && byte <= 126 ? letter : `\\x${hex(byte)}`;
}

export const STANDARD = 'standard input';

// What the command is called in messages.
export const PROGRAM = 'sitgurp';

// Reads a number as Rust's `parse` does for an unsigned type; null if it is none.
export function parsed(text, most = Number.MAX_SAFE_INTEGER) {
  if (text === undefined || !/^\+?[0-9]+$/.test(text)) return null;
  const number = Number(text);
  return number <= most ? number : null;
}

export const MOST_U32 = 2 ** 32 - 1;
