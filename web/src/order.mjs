// Which columns of a file the sheet has, in which order and under which names. Follows rust/command/src/csv/order.rs, without its options.

import { nearestName, uniqueNames, writtenText } from './names.mjs';
import { cellBytes, Flaw, usedCells } from './record.mjs';

// More inputs than any sheet has. The library refuses a sheet before it reads further names, so they stay as they are written.
const MOST = 64;

const isFilled = (cell) => cell.flaw !== Flaw.Blank;

// Returns the numbers of the kept columns, the ink last; these columns, each with its name in the sheet and as it is written; and how many columns the file
// has. `isSaid` if the file says how many inputs there are: then no column but one called ink is the ink.
export function orderOf(file, names, rows, isSaid) {
  const cells = names.cells.slice(0, usedCells(names));
  const written = cells.map((cell) => (cell.flaw === Flaw.Blank ? '' : writtenText(cellBytes(cell, file).map(([byte]) => byte))));
  const isUsed = cells.map(isFilled);
  for (const row of rows) {
    row.cells.forEach((cell, k) => {
      if (k < cells.length && isFilled(cell)) isUsed[k] = true;
    });
  }
  const all = cells.map((_, k) => k).filter((k) => isUsed[k]);
  const ink = inkOf(written, all) ?? (isSaid ? null : all[all.length - 1] ?? null);
  const others = all.filter((k) => k !== ink);
  const inputs = others.filter((k) => cells[k].flaw === null).slice(0, MOST);
  // a name with a flaw, or a blank one, is for the library to refuse
  const valid = cells.map(() => '');
  uniqueNames(inputs.map((k) => written[k])).forEach((name, input) => {
    valid[inputs[input]] = name;
  });
  if (ink !== null && cells[ink].flaw === null) valid[ink] = 'ink';
  const kept = ink === null ? others : [...others, ink];
  return { kept, columns: kept.map((k) => ({ name: valid[k], written: written[k] })), count: cells.length };
}

// Returns the column that is called ink; null if none is.
function inkOf(written, all) {
  const last = (is) => all.filter((k) => is(written[k])).pop();
  return last((name) => name === 'ink') ?? last((name) => nearestName(name, 0) === 'ink') ?? null;
}
