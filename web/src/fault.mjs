// Why a table has no tree: the group at fault and every way to split it.

import { partsOf } from './counting.mjs';
import { Kind } from './kind.mjs';
import { isRefusal } from './refusal.mjs';

// Returns the fault of a table; null if it has a tree or an open cell.
export function faultOf(sitgurp, table) {
  const refusal = sitgurp.make(table);
  if (!isRefusal(refusal) || refusal.number !== Kind.NoTree) return null;
  const group = refusal.place;
  const splits = partsOf(group).map((part) => splitOf(table, part, group - part));
  splits.sort((a, b) => a.needs - b.needs || a.parts[0] - b.parts[0]);
  return { refusal, group, names: table.namesOf(group), splits, fewest: table.fewestLevels() };
}

// Returns a way to split a group, with the number of classes of each part.
function splitOf(table, ...parts) {
  const classes = parts.map((part) => table.multiplicity(part));
  return { parts, names: parts.map((part) => table.namesOf(part)), classes, needs: Math.max(...classes) };
}
