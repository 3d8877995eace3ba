// The table as a map: some inputs count across, the others down. A cell of the map is a row and a column; its index is its place in the table.

// Returns how far apart in the table two levels of an input are.
function strides(m, n) {
  return Array.from({ length: n }, (_, input) => m ** (n - 1 - input));
}

// Returns for every row (or column) of an axis what it adds to a cell's index. The first input of the axis counts slowest.
function offsets(m, stride, inputs) {
  let list = [0];
  for (const input of inputs) {
    list = list.flatMap((before) => Array.from({ length: m }, (_, level) => before + level * stride[input]));
  }
  return list;
}

// Returns the arrangement in which a table opens: the first inputs down, the others across, and not taller than wide.
export function usualArrangement(n) {
  const inputs = Array.from({ length: n }, (_, input) => input);
  const down = Math.floor(n / 2);
  return { down: inputs.slice(0, down), across: inputs.slice(down) };
}

// Returns true if the two lists have every input just once, and neither is empty.
export function isArrangement(n, across, down) {
  const all = [...across, ...down].sort((a, b) => a - b);
  return across.length > 0 && down.length > 0 && all.length === n && all.every((input, k) => input === k);
}

// Returns the map of a document: its rows, columns, and the index of every cell.
export function mapOf(doc) {
  const stride = strides(doc.m, doc.n);
  const rowOffsets = offsets(doc.m, stride, doc.down);
  const columnOffsets = offsets(doc.m, stride, doc.across);
  const places = new Uint16Array(doc.cells.length);
  rowOffsets.forEach((down, row) => {
    columnOffsets.forEach((across, column) => {
      places[down + across] = row * columnOffsets.length + column;
    });
  });
  return {
    rows: rowOffsets.length,
    columns: columnOffsets.length,
    index: (row, column) => rowOffsets[row] + columnOffsets[column],
    row: (index) => Math.floor(places[index] / columnOffsets.length),
    column: (index) => places[index] % columnOffsets.length,
  };
}

// Returns the levels of all inputs at an index.
export function assignmentOf(m, n, index) {
  const levels = new Array(n);
  for (let input = n - 1, rest = index; input >= 0; input -= 1, rest = Math.floor(rest / m)) levels[input] = rest % m;
  return levels;
}

// Returns the indices of the cells of a rectangle, its corners included.
export function rectangle(map, from, to) {
  const [top, bottom] = [from.row, to.row].sort((a, b) => a - b);
  const [left, right] = [from.column, to.column].sort((a, b) => a - b);
  const indexes = [];
  for (let row = top; row <= bottom; row += 1) {
    for (let column = left; column <= right; column += 1) indexes.push(map.index(row, column));
  }
  return indexes;
}

// Returns the indices of the cells on the straight line between two cells, both included, so that a quick stroke has no holes.
export function line(map, from, to) {
  const steps = Math.max(Math.abs(to.row - from.row), Math.abs(to.column - from.column), 1);
  const indexes = new Set();
  for (let step = 0; step <= steps; step += 1) {
    const row = Math.round(from.row + ((to.row - from.row) * step) / steps);
    const column = Math.round(from.column + ((to.column - from.column) * step) / steps);
    indexes.add(map.index(row, column));
  }
  return [...indexes];
}

// Moves an input to a place of one of the two axes. Returns the new arrangement, or null if an axis would be empty.
export function moveInput({ across, down }, input, axis, place) {
  const lists = { across: across.filter((own) => own !== input), down: down.filter((own) => own !== input) };
  const list = lists[axis];
  list.splice(Math.max(0, Math.min(place, list.length)), 0, input);
  return lists.across.length > 0 && lists.down.length > 0 ? lists : null;
}
