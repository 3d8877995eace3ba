// Where each box and wire of a tree lies: inputs in a column at the left, the output gate at the right. The same drawing as `sitgurp draw`.
//
// A subtree has a band of the page's height to itself, left's band above right's. So no box lies on another, and a wire meets nothing before it turns in
// the gap before its gate. Inputs that no gate refers to are below the tree.

// A digit's cell in a gate's grid; the room for levels beside and above the grid; for a gate's number; at a gate's right and bottom.
export const CELL = 20;
export const HEADING = 16;
export const TITLE = 24;
export const PADDING = 8;
// The room for what is written under the tree, and for the output's wire and its word.
export const CAPTION = 60;
export const OUTPUT = 72;

const MARGIN = 24;
const INPUT_HEIGHT = 28;
// At least the width of a letter of an input's name.
const LETTER = 9;
const BAND_GAP = 16;
const COLUMN_GAP = 48;
// The distance from a gate's corner, and from its middle, at which a wire that has turned meets it.
const INSET = 12;
// A wire that would turn by no more than this goes straight on.
const LEAST_TURN = 6;
const LEAST_WIDTH = 360;

const half = (number) => Math.floor(number / 2);
const right = (area) => area.x + area.width;

// Returns the height at which a box's wire leaves.
export function middleOf(area) {
  return area.y + half(area.height);
}

// Returns the value of a wire's input or gate.
function at(each, wire) {
  return wire.input !== undefined ? each.inputs[wire.input] : each.gates[wire.gate];
}

// Sets the value of a wire's input or gate.
function set(each, wire, value) {
  if (wire.input !== undefined) each.inputs[wire.input] = value;
  else each.gates[wire.gate] = value;
}

// Returns the output gate as a wire.
function root(net) {
  return { gate: net.gates.length - 1 };
}

// Returns where the band of the k-th unused input begins, below a tree that ends at `bottom`.
function unusedTop(bottom, k) {
  return bottom + (BAND_GAP + INPUT_HEIGHT) * k;
}

// Returns the width and height of every gate of the net.
function gateSize(net) {
  const grid = HEADING + CELL * net.levels;
  return { width: PADDING + grid + PADDING, height: TITLE + grid + PADDING };
}

// Returns the width of every input's box: the longest name decides.
function inputWidth(net) {
  return LETTER * Math.max(0, ...net.names.map((name) => name.length)) + 2 * INSET;
}

// Returns half of what lies between the middles of a gate's left and right.
function halfApart(left, below) {
  return half(left.below + BAND_GAP + below.above + 1);
}

// Returns how far each subtree's band reaches above and below the middle of its root.
function reaches(net) {
  const input = { above: half(INPUT_HEIGHT), below: half(INPUT_HEIGHT) };
  const own = half(gateSize(net).height);
  const each = { inputs: net.names.map(() => input), gates: [] };
  for (const gate of net.gates) {
    const [upper, lower] = [at(each, gate.left), at(each, gate.right)];
    const apart = halfApart(upper, lower);
    each.gates.push({ above: Math.max(own, apart + upper.above), below: Math.max(own, apart + lower.below) });
  }
  return each;
}

// Returns the middle of every box of the tree, from the output gate back to the inputs.
function middles(net, reach) {
  const each = { inputs: net.names.map(() => 0), gates: net.gates.map(() => 0) };
  set(each, root(net), MARGIN + at(reach, root(net)).above);
  for (let own = net.gates.length - 1; own >= 0; own -= 1) {
    const gate = net.gates[own];
    const apart = halfApart(at(reach, gate.left), at(reach, gate.right));
    set(each, gate.left, each.gates[own] - apart);
    set(each, gate.right, each.gates[own] + apart);
  }
  return each;
}

// Returns each gate's column: the one after the later of its left's and its right's.
function columns(net) {
  const each = { inputs: net.names.map(() => -1), gates: [] };
  for (const gate of net.gates) each.gates.push(Math.max(at(each, gate.left), at(each, gate.right)) + 1);
  return each.gates;
}

// Returns the box of every input and gate, from the heights of their middles.
function areas(net, middle) {
  const { width, height } = gateSize(net);
  const first = MARGIN + inputWidth(net) + COLUMN_GAP;
  const column = columns(net);
  const around = (y, x, w, h) => ({ x, y: y - half(h), width: w, height: h });
  return {
    inputs: middle.inputs.map((y) => around(y, MARGIN, inputWidth(net), INPUT_HEIGHT)),
    gates: middle.gates.map((y, gate) => around(y, first + column[gate] * (width + COLUMN_GAP), width, height)),
  };
}

// Returns the height at which a wire that comes at some height meets its gate.
function meeting(height, highest, lowest) {
  const nearest = Math.min(Math.max(height, highest), lowest);
  return Math.abs(nearest - height) <= LEAST_TURN ? height : nearest;
}

// Returns the wires of a gate's left and right. Left's meets the gate above its middle, right's below it.
function paths(gate, own, area) {
  const path = (from, highest, lowest) => {
    const y = middleOf(from);
    return `M ${right(from)} ${y} H ${own.x - half(COLUMN_GAP)} V ${meeting(y, highest, lowest)} H ${own.x}`;
  };
  const [middle, bottom] = [middleOf(own), own.y + own.height];
  return [path(at(area, gate.left), own.y + INSET, middle - INSET), path(at(area, gate.right), middle + INSET, bottom - INSET)];
}

// Returns the drawing's width and height, every box's area, each gate's two wires, and the inputs that are not used.
export function layoutOf(net) {
  const reach = reaches(net);
  const band = at(reach, root(net));
  const bottom = MARGIN + band.above + band.below;
  const unused = net.unused();
  const middle = middles(net, reach);
  unused.forEach((input, k) => {
    middle.inputs[input] = unusedTop(bottom, k) + BAND_GAP + half(INPUT_HEIGHT);
  });
  const area = areas(net, middle);
  return {
    width: Math.max(right(at(area, root(net))) + OUTPUT + MARGIN, LEAST_WIDTH),
    height: unusedTop(bottom, unused.length) + CAPTION + MARGIN,
    bottom: unusedTop(bottom, unused.length) + MARGIN,
    areas: area,
    wires: net.gates.map((gate, k) => paths(gate, area.gates[k], area)),
    unused,
  };
}
