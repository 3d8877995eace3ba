// A document: a table as the page keeps it, { m, n, names, cells, across, down }. It is never changed in place.
// The functions here move inks from one table to another; whether the result is a table is the library's to judge.

import { assignmentOf, isArrangement, usualArrangement } from './geometry.mjs';

// Makes a document. Without a good arrangement it has the usual one.
export function makeDocument(m, names, cells, across = [], down = []) {
  const n = names.length;
  const arrangement = isArrangement(n, across, down) ? { across: [...across], down: [...down] } : usualArrangement(n);
  return { m, n, names: [...names], cells: Uint8Array.from(cells), ...arrangement };
}

// Returns the document with some cells replaced.
export function painted(doc, indexes, ink) {
  const cells = doc.cells.slice();
  for (const index of indexes) cells[index] = ink;
  return { ...doc, cells };
}

// Returns the inks of a table of other levels or inputs: `source` gives the old assignment of a new one.
function inksFrom(doc, m, n, source) {
  const cells = new Uint8Array(m ** n);
  for (let index = 0; index < cells.length; index += 1) {
    const old = source(assignmentOf(m, n, index));
    const ink = doc.cells[old.reduce((place, level) => place * doc.m + level, 0)];
    cells[index] = ink === doc.m ? m : Math.min(ink, m - 1);
  }
  return cells;
}

// Returns the same rule with other levels: an input above the old levels acts as the highest of them.
export function withLevels(doc, m) {
  const cells = inksFrom(doc, m, doc.n, (levels) => levels.map((level) => Math.min(level, doc.m - 1)));
  return makeDocument(m, doc.names, cells, doc.across, doc.down);
}

// Returns a name for a new input that no input has.
export function freeName(names) {
  const letters = 'abcdefghijklmnopqrstuvwxyz';
  return [...letters].find((letter) => !names.includes(letter)) ?? `in${names.length}`;
}

// Returns the table with one more input, which does not matter yet.
export function withInput(doc, name) {
  const cells = inksFrom(doc, doc.m, doc.n + 1, (levels) => levels.slice(0, doc.n));
  const [longer, input] = [doc.across.length <= doc.down.length ? 'across' : 'down', doc.n];
  const lists = { across: doc.across, down: doc.down, [longer]: [...doc[longer], input] };
  return makeDocument(doc.m, [...doc.names, name], cells, lists.across, lists.down);
}

// Returns the table without an input: the cells in which it has level 0.
export function withoutInput(doc, input) {
  const cells = inksFrom(doc, doc.m, doc.n - 1, (levels) => [...levels.slice(0, input), 0, ...levels.slice(input)]);
  const rest = (list) => list.filter((own) => own !== input).map((own) => (own > input ? own - 1 : own));
  const names = doc.names.filter((_, own) => own !== input);
  return makeDocument(doc.m, names, cells, rest(doc.across), rest(doc.down));
}

// Returns a net sheet with other names of its inputs. The first four lines are `levels inputs`, their values, the names, and `left right table`.
export function renamedNet(sheet, names, others) {
  const renamed = (word) => others[names.indexOf(word)] ?? word;
  const [first, values, , columns, ...gates] = sheet.split('\n');
  const lines = gates.map((line) => line.split(' ').map((word, k) => (k < 2 ? renamed(word) : word)).join(' '));
  return [first, values, others.join(' '), columns, ...lines].join('\n');
}

// Returns the assignment of an index in words: `a=0 b=1`.
export function wordsOf(doc, index) {
  const levels = assignmentOf(doc.m, doc.n, index);
  return doc.names.map((name, input) => `${name}=${levels[input]}`).join(' ');
}

// Returns the part of an address that holds a document's table: levels, names and inks, such as `t=2.a.b.0111`.
export function toLink(doc) {
  const inks = Array.from(doc.cells, (ink) => (ink === doc.m ? '-' : ink)).join('');
  return `t=${doc.m}.${doc.names.join('.')}.${inks}`;
}

// Reads what toLink wrote, or returns null. The library judges whether it is a table.
export function fromLink(text) {
  const parts = /^#?t=(\d)\.((?:[a-z0-9]+\.)+)([0-9-]+)$/.exec(text);
  if (!parts) return null;
  const m = Number(parts[1]);
  const names = parts[2].split('.').slice(0, -1);
  const cells = Array.from(parts[3], (sign) => (sign === '-' ? m : Number(sign)));
  return { m, names, cells };
}
