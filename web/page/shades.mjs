// The colours of levels: 0 is paper, the highest level is ink.

const PAPER = [250, 249, 246];
const INK = [16, 20, 28];
const DARK_TEXT = '#000000';
const LIGHT_TEXT = '#ffffff';

// The colour under the sign of an open cell.
export const OPEN = '#f3dcc0';

// Returns a colour as `#rrggbb`.
function hex(rgb) {
  return '#' + rgb.map((part) => part.toString(16).padStart(2, '0')).join('');
}

// Returns the colour between paper and ink for a level.
function mix(level, m) {
  const part = level / (m - 1);
  return PAPER.map((paper, k) => Math.round(paper + (INK[k] - paper) * part));
}

// Returns the relative luminance of a colour, as WCAG defines it.
export function luminance(rgb) {
  const [r, g, b] = rgb.map((part) => {
    const c = part / 255;
    return c <= 0.04045 ? c / 12.92 : ((c + 0.055) / 1.055) ** 2.4;
  });
  return 0.2126 * r + 0.7152 * g + 0.0722 * b;
}

// Returns the contrast ratio of two colours.
export function contrast(first, second) {
  const [high, low] = [luminance(first), luminance(second)].sort((a, b) => b - a);
  return (high + 0.05) / (low + 0.05);
}

// Returns the red, green and blue of `#rrggbb`.
export function rgbOf(text) {
  return [1, 3, 5].map((at) => parseInt(text.slice(at, at + 2), 16));
}

// Returns the colour of a level; the level m is an open cell.
export function shade(level, m) {
  return level >= m ? OPEN : hex(mix(level, m));
}

// Returns the colour of a digit on a level's colour: the one of two with more contrast.
export function textOn(level, m) {
  const ground = rgbOf(shade(level, m));
  const dark = contrast(ground, rgbOf(DARK_TEXT));
  return dark >= contrast(ground, rgbOf(LIGHT_TEXT)) ? DARK_TEXT : LIGHT_TEXT;
}

// Returns the sign of a level in a sheet: its digit, or `-` for an open cell.
export function signOf(level, m) {
  return level >= m ? '-' : String(level);
}
