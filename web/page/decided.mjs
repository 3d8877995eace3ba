// Which cells of the table a gate decides, asked of the library: the net is written with other gate tables, and the library computes its table.

import { isRefusal } from '../src/sitgurp.mjs';

// Returns the sheet of a net whose gates have other digits.
function sheetWith(net, digitsOf) {
  const wire = (side) => (side.input !== undefined ? net.names[side.input] : String(side.gate + 1));
  const lines = net.gates.map((gate, k) => `${wire(gate.left)} ${wire(gate.right)} ${digitsOf(gate, k).join('')}`);
  return `levels inputs\n${net.levels} ${net.names.length}\n${net.names.join(' ')}\nleft right table\n${lines.join('\n')}\n`;
}

// Returns the table that the library computes for a net with other digits.
function inksWith(lib, net, digitsOf) {
  const other = lib.net(sheetWith(net, digitsOf));
  if (isRefusal(other)) throw new Error(other.toString());
  return other.table().inks;
}

// Returns the cells whose ink depends on what a gate gives: with another level from it, the ink would be another.
export function decidedCells(lib, net, gate) {
  const fixed = (level) => (own, k) => (k === gate ? own.digits.map(() => level) : own.digits);
  const tables = Array.from({ length: net.levels }, (_, level) => inksWith(lib, net, fixed(level)));
  const cells = [];
  tables[0].forEach((ink, index) => {
    if (tables.some((table) => table[index] !== ink)) cells.push(index);
  });
  return cells;
}

// Returns the cells that reach one digit of a gate's table. Every gate above passes on which level its wire to this gate has: 1 at the digit, else 0.
export function reachingCells(lib, net, gate, digit) {
  const { levels, gates } = net;
  const next = (own) => gates.findIndex((above) => above.left.gate === own || above.right.gate === own);
  const passing = new Map();
  for (let above = next(gate), below = gate; above >= 0; below = above, above = next(above)) {
    passing.set(above, gates[above].left.gate === below);
  }
  const digitsOf = (own, k) => {
    if (k === gate) return own.digits.map((_, place) => (place === digit ? 1 : 0));
    if (!passing.has(k)) return own.digits;
    return own.digits.map((_, place) => (passing.get(k) ? Math.floor(place / levels) : place % levels));
  };
  const cells = [];
  inksWith(lib, net, digitsOf).forEach((ink, index) => {
    if (ink === 1) cells.push(index);
  });
  return cells;
}

// Returns the inputs below each gate, as groups: bit i is input i.
export function groupsOf(net) {
  const groups = [];
  const below = (side) => (side.input !== undefined ? 1 << side.input : groups[side.gate]);
  for (const gate of net.gates) groups.push(below(gate.left) | below(gate.right));
  return groups;
}
