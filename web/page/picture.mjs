// A net drawn as SVG text, byte for byte what `sitgurp draw` writes.

import { CAPTION, CELL, HEADING, OUTPUT, PADDING, TITLE, layoutOf, middleOf } from './layout.mjs';

const STYLE = `text { font-family: 'DejaVu Sans Mono', Menlo, Consolas, monospace; fill: #1f2933; text-anchor: middle; }
.page { fill: #fbfcfd; }
.input { fill: #e6f2ee; stroke: #2f7a63; stroke-width: 1.5; }
.gate { fill: #ffffff; stroke: #3e4c59; stroke-width: 1.5; }
.cell { stroke: #9aa5b1; stroke-width: 0.5; }
.wire { fill: none; stroke: #3e4c59; stroke-width: 1.5; }
.name, .output { font-size: 14px; }
.number { font-size: 12px; font-weight: bold; }
.digit { font-size: 13px; }
.level { font-size: 10px; fill: #616e7c; }
.caption { font-size: 12px; fill: #52606d; text-anchor: start; }
`;
const UNUSED = `.unused { fill: none; stroke: #9aa5b1; stroke-width: 1.5; stroke-dasharray: 4 3; }
`;
// Split in two, since the page's script holds this text and no end tag may be in it.
const END_STYLE = '<' + '/style>';
// The grey of the highest level's cells; level 0 is white.
const DARKEST = 172;
const CAPTION_LINE = 18;

// Returns the grey of a level, on which a digit can be read.
function grey(level, levels) {
  const part = 255 - Math.floor(((255 - DARKEST) * level) / (levels - 1));
  return `rgb(${part},${part},${part})`;
}

const rect = (kind, { x, y, width, height }, more) =>
  `<rect class="${kind}" x="${x}" y="${y}" width="${width}" height="${height}"${more}/>`;
const text = (kind, x, y, words) => `<text class="${kind}" x="${x}" y="${y}" dy="0.35em">${words}</text>`;
const wire = (path) => `<path class="wire" d="${path}"/>`;
const half = (number) => Math.floor(number / 2);

// Returns the elements of an input.
function inputLines(name, area, used) {
  return [rect(used ? 'input' : 'unused', area, ' rx="14"'), text('name', area.x + half(area.width), middleOf(area), name)];
}

// Returns the elements of a gate: its box, number, levels and digits.
function gateLines(net, gate, area) {
  const lines = [rect('gate', area, ' rx="6"'), text('number', area.x + half(area.width), area.y + TITLE / 2, `gate ${gate + 1}`)];
  const [x, y] = [area.x + PADDING + HEADING, area.y + TITLE + HEADING];
  const { levels } = net;
  for (let level = 0; level < levels; level += 1) {
    const along = CELL * level + CELL / 2;
    lines.push(text('level', x - HEADING / 2, y + along, level), text('level', x + along, y - HEADING / 2, level));
  }
  net.gates[gate].digits.forEach((digit, place) => {
    const cell = { x: x + CELL * (place % levels), y: y + CELL * Math.floor(place / levels), width: CELL, height: CELL };
    lines.push(rect('cell', cell, ` fill="${grey(digit, levels)}"`), text('digit', cell.x + CELL / 2, cell.y + CELL / 2, digit));
  });
  return lines;
}

// Returns what is written under the tree.
function captionLines(layout) {
  const words = ['upper wire: left, picks the row', 'lower wire: right, picks the column'];
  if (layout.unused.length > 0) words.push('dashed: an input that is not used');
  const lowest = layout.height - CAPTION / 2;
  return words.map((line, k) => text('caption', layout.areas.inputs[0].x, lowest - CAPTION_LINE * (words.length - 1 - k), line));
}

// Returns a net's drawing as SVG text.
export function svgText(net) {
  const layout = layoutOf(net);
  const { width, height, areas, unused } = layout;
  const last = areas.gates.at(-1);
  const [x, y] = [last.x + last.width, middleOf(last)];
  return [
    `<svg xmlns="http://www.w3.org/2000/svg" role="img" width="${width}" height="${height}" viewBox="0 0 ${width} ${height}">`,
    `<title>A net of ${net.levels} levels and ${net.names.length} inputs</title>`,
    `<style>\n${STYLE}${unused.length > 0 ? UNUSED : ''}${END_STYLE}`,
    `<rect class="page" x="0" y="0" width="${width}" height="${height}"/>`,
    ...layout.wires.flat().map(wire),
    ...net.names.flatMap((name, input) => inputLines(name, areas.inputs[input], !unused.includes(input))),
    ...net.gates.flatMap((_, gate) => gateLines(net, gate, areas.gates[gate])),
    wire(`M ${x} ${y} H ${x + OUTPUT / 2}`),
    text('output', x + (OUTPUT * 3) / 4, y, 'ink'),
    ...captionLines(layout),
    '</svg>\n',
  ].join('\n');
}
