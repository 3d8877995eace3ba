// Small texts and renamings that the panels hand to the library or to the disk.

// Returns the renaming that inverts the shades of m levels: dark for light.
export function inverted(m) {
  return Array.from({ length: m }, (_, ink) => m - 1 - ink);
}

// Returns a one-to-one renaming in which one ink becomes another: the ink that became it before takes its place.
export function renamedTo(renaming, ink, other) {
  const changed = [...renaming];
  changed[renaming.indexOf(other)] = renaming[ink];
  changed[ink] = other;
  return changed;
}

// Tells whether a renaming leaves every ink as it is.
export function isIdle(renaming) {
  return renaming.every((other, ink) => other === ink);
}

// Returns cells with renamed inks. An open cell stays open.
export function renamedCells(cells, renaming) {
  return cells.map((ink) => renaming[ink] ?? ink);
}

// Returns how a time in microseconds is written in an arrival sheet: in quarters. The library says whether it is a time.
export function quarters(microseconds) {
  const text = String(microseconds).trim();
  return text === '' || Number.isNaN(Number(text)) ? text.replace(/\s/g, '') || '-' : String(Number(text) * 4);
}

// Returns the arrival sheet of some inputs: times are pairs of microseconds, earliest and latest.
export function arrivalSheet(names, times) {
  return `name from to\n${names.map((name, i) => `${name} ${quarters(times[i].from)} ${quarters(times[i].to)}\n`).join('')}`;
}

// Returns a name for a file on disk: what the person typed, without folders, signs that disks refuse, and an ending of ours.
export function fileName(typed, ending) {
  const base = typed.trim().replace(/\.(table|net|svg|png|pgm)$/i, '').replace(/[^\p{L}\p{N}._-]+/gu, '-').replace(/^[-.]+|[-.]+$/g, '');
  return `${base || 'table'}.${ending}`;
}

// Returns an assignment in words: `day=1 near=0`.
export function assignmentText(names, levels) {
  return names.map((name, i) => `${name}=${levels[i]}`).join(' ');
}

// Returns a whole number with commas: 4,096.
export function thousands(number) {
  return String(number).replace(/\B(?=(\d{3})+$)/g, ',');
}

// Returns a number of things in words: `1 row`, `4,096 rows`.
export function counted(number, thing) {
  return `${thousands(number)} ${thing}${Number(number) === 1 ? '' : 's'}`;
}

// Returns where the input of a number is read at first: the cell itself, then the cells around it, above and to the left before the others.
export function usualOffset(input) {
  const near = [[0, 0], [0, -1], [-1, 0], [1, 0], [0, 1], [-1, -1], [1, -1], [-1, 1], [1, 1], [0, -2], [-2, 0], [2, 0]];
  return near[input] ?? [0, 0];
}

// Returns where an input is read, in words: `the cell itself`, `1 left, 2 up`.
export function offsetText(across, down) {
  const parts = [];
  if (across !== 0) parts.push(`${Math.abs(across)} ${across < 0 ? 'left' : 'right'}`);
  if (down !== 0) parts.push(`${Math.abs(down)} ${down < 0 ? 'up' : 'down'}`);
  return parts.join(', ') || 'the cell itself';
}
