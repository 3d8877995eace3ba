// Inks of a table sheet, how many classes each group has, and how many levels would do: put together from several calls.

import { bytesOf, textOf } from './bytes.mjs';
import { Kind } from './kind.mjs';
import { MOST_CELLS, MOST_MARKS } from './limits.mjs';
import { isRefusal } from './refusal.mjs';

// Returns the inks of a table sheet in the order of its rows, `levels` for an open cell; or the sheet's refusal. A sheet that is made with no output is refused
// with 16 or 15 if it is accepted, and both leave the cells written. One with open cells is tidied with no output, for the same reason.
export function inksOf(sitgurp, bytes) {
  const cells = new Uint8Array(MOST_CELLS);
  const none = new Uint8Array();
  const answer = sitgurp.answered(sitgurp.calls.call('make', bytes, cells, new Uint8Array(MOST_MARKS), none), 'table', bytes);
  const { number } = answer;
  if (number === Kind.OpenCell) sitgurp.calls.call('tidy', bytes, cells, none);
  else if (number !== Kind.NoTree && number !== Kind.OutputShort) return answer;
  const { levels, inputs } = sizeOf(bytes);
  return cells.slice(0, levels ** inputs);
}

// Returns levels and inputs, from line 2 of an accepted sheet.
function sizeOf(bytes) {
  const [levels, inputs] = textOf(bytes.subarray(0, 32)).split('\n')[1].split(' ').map(Number);
  return { levels, inputs };
}

// Returns the number of classes of every group of a full table sheet; entry 0 is 0.
export function multiplicities(sitgurp, sheet) {
  const bytes = bytesOf(sheet);
  const cells = inksOf(sitgurp, bytes);
  if (isRefusal(cells)) return cells;
  const { levels, inputs } = sizeOf(bytes);
  const counts = [0];
  for (let group = 1; group < 2 ** inputs; group += 1) {
    const count = sitgurp.multiplicity(levels, inputs, cells, group);
    if (isRefusal(count)) return sitgurp.make(sheet);
    counts.push(count);
  }
  return counts;
}

// Returns the fewest levels that the wires between gates would have to carry for a tree, as `fewest_levels` of the Rust crate does.
export function fewestLevels(sitgurp, sheet) {
  const counts = multiplicities(sitgurp, sheet);
  if (isRefusal(counts)) return counts;
  // the fewest that a tree over each group needs; a part has a lower number, so it is there already
  const fewest = [];
  counts.forEach((count, group) => {
    const ofSplits = partsOf(group).map((part) => Math.max(fewest[part], fewest[group - part]));
    // a single input is a leaf
    fewest.push(ofSplits.length === 0 ? 0 : Math.max(count, Math.min(...ofSplits)));
  });
  return fewest[fewest.length - 1];
}

// Returns the parts of a group that hold its first input, without the group itself: one for each way to split it in two, in ascending order.
export function partsOf(group) {
  const first = group & -group;
  const rest = group - first;
  const parts = [];
  for (let part = 0; part !== rest; part = (part - rest) & rest) parts.push(first + part);
  return parts;
}
