// What the library says of a sheet of a kind. Follows `judged` in rust/command/src/refused.rs.

import { Due } from './front.mjs';
import { isRefusal } from './refusal.mjs';

// Returns the refusal of a sheet; null if it is accepted. `inputs` are the names that an arrival sheet is for.
export function judged(sitgurp, due, sheet, inputs) {
  const answer = asked(sitgurp, due, sheet, inputs);
  return isRefusal(answer) ? answer : null;
}

function asked(sitgurp, due, sheet, inputs) {
  switch (due) {
    case Due.Table:
      return sitgurp.table(sheet);
    case Due.Loose:
    case Due.Csv:
      return sitgurp.tidy(sheet);
    case Due.Net:
      return sitgurp.gateLine(sheet, 0);
    default:
      return sitgurp.arrivals(anyNet(inputs), sheet, 0);
  }
}

// Returns a net sheet of these inputs, whatever its levels and gates.
function anyNet(inputs) {
  const lines = inputs.slice(1).map((input, k) => `${k === 0 ? inputs[0] : k} ${input} 0000\n`);
  return `levels inputs\n2 ${inputs.length}\n${inputs.join(' ')}\nleft right table\n${lines.join('')}`;
}
