// Reads a picture from a file: text of digits, a graymap, or any image that the browser reads, reduced to the levels.

import { pictureFromText } from '../src/sitgurp.mjs';
import { bytesOf } from './reading.mjs';
import { grayOfPixels, pictureOf, readPgm } from './raster.mjs';

// The longest side at which an image is looked at, in pixels.
const LARGEST = 1024;

// Loads an image file as the browser does. Rejects if it is none.
async function imageOf(file) {
  const address = URL.createObjectURL(file);
  try {
    const image = new Image();
    image.src = address;
    await image.decode();
    return image;
  } finally {
    URL.revokeObjectURL(address);
  }
}

// Returns the gray picture of an image. A drawing without a size of its own gets one.
function grayOf(image) {
  const [wide, high] = [image.naturalWidth || 256, image.naturalHeight || 256];
  const scale = Math.min(1, LARGEST / Math.max(wide, high));
  const canvas = document.createElement('canvas');
  canvas.width = Math.max(1, Math.round(wide * scale));
  canvas.height = Math.max(1, Math.round(high * scale));
  const pen = canvas.getContext('2d', { willReadFrequently: true });
  pen.drawImage(image, 0, 0, canvas.width, canvas.height);
  return grayOfPixels(canvas.width, canvas.height, pen.getImageData(0, 0, canvas.width, canvas.height).data);
}

// Returns the picture in a text of digits, null if the text is none or has a level too many.
function textPicture(bytes, levels) {
  if (bytes.length > 8192 || !bytes.every((byte) => byte === 10 || byte === 13 || byte === 46 || (byte >= 48 && byte <= 57))) return null;
  const picture = pictureFromText(new TextDecoder().decode(bytes).replace(/\r/g, ''));
  return picture?.cells.every((level) => level < levels) ? picture : null;
}

// Returns the picture in a file, or null if it is none.
export async function readPicture(file, levels) {
  const bytes = await bytesOf(file);
  if (bytes === null) return null;
  const plain = textPicture(bytes, levels);
  if (plain) return plain;
  const gray = readPgm(bytes);
  if (gray) return pictureOf(gray, levels);
  try {
    return pictureOf(grayOf(await imageOf(file)), levels);
  } catch {
    return null;
  }
}
