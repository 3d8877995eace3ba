// Pictures of levels: reads graymaps, reduces an image to few cells and few levels, and finds the cells that a stroke passes.
// A picture has width, height and cells, one level per cell, row by row. A gray picture has darkness instead: 0 is white, 1 is black. One from a graymap has
// its grays too, 0 for black.

export const MOST_SIDE = 64;
// A graymap of more pixels is not read.
const MOST_PIXELS = 1 << 24;

// Returns the bytes of a file as text, one character per byte.
function latin(bytes) {
  let text = '';
  for (let start = 0; start < bytes.length; start += 4096) text += String.fromCharCode(...bytes.subarray(start, start + 4096));
  return text;
}

// Reads the header of a graymap: returns its kind, width, height, whitest value and where the pixels start, or null.
function readHeader(text) {
  const space = '(?:[ \\t\\r\\n\\v\\f]|#[^\\n]*\\n)+';
  const header = new RegExp(`^(P[25])${space}(\\d{1,5})${space}(\\d{1,5})${space}(\\d{1,5})[ \\t\\r\\n\\v\\f]`).exec(text);
  if (!header) return null;
  const [width, height, white] = header.slice(2, 5).map(Number);
  const fits = width > 0 && height > 0 && width * height <= MOST_PIXELS && white > 0 && white < 65536;
  return fits ? { plain: header[1] === 'P2', width, height, white, start: header[0].length } : null;
}

// Returns the pixel values of a plain graymap, or null if one is missing or no number.
function plainValues(text, count) {
  const words = text.replace(/#[^\n]*/g, ' ').split(/[ \t\r\n\v\f]+/).filter((word) => word !== '');
  return words.length === count && words.every((word) => /^\d{1,5}$/.test(word)) ? Uint32Array.from(words, Number) : null;
}

// Returns the pixel values of a binary graymap, or null if bytes are missing.
function binaryValues(bytes, count, white) {
  const wide = white > 255;
  if (bytes.length < count * (wide ? 2 : 1)) return null;
  return wide ? Uint16Array.from({ length: count }, (_, i) => bytes[2 * i] * 256 + bytes[2 * i + 1]) : bytes.subarray(0, count);
}

// Reads a portable graymap, plain (P2) or binary (P5): returns a gray picture, or null if it is none.
export function readPgm(bytes) {
  const text = latin(bytes);
  const header = readHeader(text);
  if (!header) return null;
  const { plain, width, height, white, start } = header;
  const values = plain ? plainValues(text.slice(start), width * height) : binaryValues(bytes.subarray(start), width * height, white);
  if (!values || values.some((value) => value > white)) return null;
  return { width, height, darkness: Float64Array.from(values, (value) => (white - value) / white), grays: Uint16Array.from(values), white };
}

// Returns the gray picture of an image's pixels: red, green, blue and opacity, a byte each. What is see-through lies on white.
export function grayOfPixels(width, height, pixels) {
  const darkness = new Float64Array(width * height);
  for (let i = 0; i < darkness.length; i += 1) {
    const light = 0.299 * pixels[4 * i] + 0.587 * pixels[4 * i + 1] + 0.114 * pixels[4 * i + 2];
    darkness[i] = (1 - light / 255) * (pixels[4 * i + 3] / 255);
  }
  return { width, height, darkness };
}

// Returns the sides of a picture made small enough, in the same proportion.
export function fitted(width, height, most = MOST_SIDE) {
  const scale = Math.min(1, most / Math.max(width, height));
  return { width: Math.max(1, Math.round(width * scale)), height: Math.max(1, Math.round(height * scale)) };
}

// Returns a smaller gray picture: each cell is the mean of the pixels that it covers, each counted by the part that it covers.
export function shrink(gray, width, height) {
  const across = spans(gray.width, width);
  const down = spans(gray.height, height);
  const darkness = new Float64Array(width * height);
  for (let y = 0; y < height; y += 1) {
    for (let x = 0; x < width; x += 1) {
      let sum = 0;
      let area = 0;
      for (const [row, high] of down[y]) {
        for (const [column, wide] of across[x]) {
          sum += gray.darkness[row * gray.width + column] * high * wide;
          area += high * wide;
        }
      }
      darkness[y * width + x] = sum / area;
    }
  }
  return { width, height, darkness };
}

// Returns, for each of some cells, which of the longer row of pixels it covers, and how much of each.
function spans(pixels, cells) {
  return Array.from({ length: cells }, (_, cell) => {
    const [from, to] = [(cell * pixels) / cells, ((cell + 1) * pixels) / cells];
    const span = [];
    for (let pixel = Math.floor(from); pixel < Math.ceil(to - 1e-9); pixel += 1) span.push([pixel, Math.min(pixel + 1, to) - Math.max(pixel, from)]);
    return span;
  });
}

// Returns the picture of a gray one by equal steps: every level has the same number of grays, level 0 the lightest. Follows `picture` of
// rust/sitgurp/src/graymap.rs.
export function reduced(gray, levels) {
  const { width, height, grays, white } = gray;
  const cells = grays
    ? Uint8Array.from(grays, (value) => levels - 1 - Math.floor((value * levels) / (white + 1)))
    : Uint8Array.from(gray.darkness, (dark) => Math.min(levels - 1, Math.floor(dark * levels)));
  return { width, height, cells };
}

// Returns a picture of at most 64 cells a side from a gray picture of any size.
export function pictureOf(gray, levels) {
  const { width, height } = fitted(gray.width, gray.height);
  return reduced(width === gray.width && height === gray.height ? gray : shrink(gray, width, height), levels);
}

// Returns a picture with other sides: cells keep their places, new ones have level 0.
export function resized(picture, width, height) {
  const cells = new Uint8Array(width * height);
  for (let y = 0; y < Math.min(height, picture.height); y += 1) {
    for (let x = 0; x < Math.min(width, picture.width); x += 1) cells[y * width + x] = picture.cells[y * picture.width + x];
  }
  return { width, height, cells };
}

// Returns a picture for another number of levels: white stays white, the darkest stays the darkest.
export function relevelled(picture, from, to) {
  return { ...picture, cells: picture.cells.map((level) => Math.round((Math.min(level, from - 1) * (to - 1)) / (from - 1))) };
}

// Returns the cells on a straight way from one cell to another, both included.
export function cellsBetween(from, to) {
  const steps = Math.max(Math.abs(to.x - from.x), Math.abs(to.y - from.y));
  return Array.from({ length: steps + 1 }, (_, i) => {
    const part = steps === 0 ? 0 : i / steps;
    return { x: Math.round(from.x + (to.x - from.x) * part), y: Math.round(from.y + (to.y - from.y) * part) };
  });
}
