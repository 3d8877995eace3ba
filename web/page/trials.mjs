// Searches that try changed tables with the library, one call per turn, so that they can run in slices.

import { isRefusal } from '../src/sitgurp.mjs';
import { withLevels } from './document.mjs';

// Returns true if the library makes a tree of a table of these cells. Marking answers first, since it needs no sheet; making confirms it.
export function hasTree(lib, { m, n, names }, cells) {
  const marking = lib.marking(m, n, cells);
  if (isRefusal(marking) || marking.whole !== 2) return false;
  return !isRefusal(lib.tableFromInks(m, names, cells).settled());
}

// Tries every change of one cell. Yields { tried, of, found }, found being { index, ink } or null.
export function* singleChanges(lib, doc) {
  const { m, cells } = doc;
  const of = cells.length * (m - 1);
  const changed = cells.slice();
  let tried = 0;
  for (let index = 0; index < cells.length; index += 1) {
    for (let ink = 0; ink < m; ink += 1) {
      if (ink === cells[index]) continue;
      changed[index] = ink;
      tried += 1;
      yield { tried, of, found: hasTree(lib, doc, changed) ? { index, ink } : null };
    }
    changed[index] = cells[index];
  }
}

// Returns how many fillings the open cells of a document have.
export function fillingCount(doc, open) {
  return doc.m ** open.length;
}

// Tries every filling of the open cells. Yields { tried, of, found }, found being the list of inks or null.
export function* fillings(lib, doc, open) {
  const { m } = doc;
  const of = fillingCount(doc, open);
  const cells = doc.cells.slice();
  for (let number = 0; number < of; number += 1) {
    const inks = open.map((_, k) => Math.floor(number / m ** (open.length - 1 - k)) % m);
    open.forEach((index, k) => {
      cells[index] = inks[k];
    });
    yield { tried: number + 1, of, found: hasTree(lib, doc, cells) ? inks : null };
  }
}

// Returns the parts of a group that hold its first input, without the group itself: one for each way to split it in two.
export function partsOf(group) {
  const first = group & -group;
  const parts = [];
  for (let part = first; part < group; part += 1) {
    if ((part & ~group) === 0 && (part & first) !== 0) parts.push(part);
  }
  return parts;
}

// Asks for the levels that every way to split a group needs. Yields after each; returns them, the one that needs fewest first.
export function* splits(lib, doc, group) {
  const { m, n, cells } = doc;
  const ways = [];
  for (const part of partsOf(group)) {
    const parts = [part, group - part];
    const classes = parts.map((own) => lib.multiplicity(m, n, cells, own));
    ways.push({ parts, classes, needs: Math.max(...classes) });
    yield ways.length;
  }
  return ways.sort((a, b) => a.needs - b.needs || a.parts[0] - b.parts[0]);
}

// Returns true if the library takes a sheet of so many levels and inputs: a header that is too large is refused with 2 or 3.
export function fits(lib, m, n) {
  const refusal = lib.table(`levels inputs\n${m} ${n}\n`);
  return isRefusal(refusal) && refusal.number !== 2 && refusal.number !== 3;
}

// Tries the same rule with more levels. Yields after each; returns the fewest levels with which there is a tree, null if no sheet has so many.
export function* moreLevels(lib, doc) {
  for (let m = doc.m + 1; fits(lib, m, doc.n); m += 1) {
    const { names, cells } = withLevels(doc, m);
    const table = lib.tableFromInks(m, names, cells);
    yield m;
    if (!isRefusal(table) && !isRefusal(table.settled())) return m;
  }
  return null;
}
