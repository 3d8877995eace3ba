// The proved Sitgurp library for browsers, workers and node. sitgurp.d.ts describes all that is exported here.

import { Sitgurp } from './library.mjs';

export { Explanation, isExplanation } from './explain.mjs';
export { Family } from './family.mjs';
export { Job } from './job.mjs';
export { Kind } from './kind.mjs';
export { Sitgurp } from './library.mjs';
export { MOST_CELLS, MOST_FILE, VERSION } from './limits.mjs';
export { markOf } from './marks.mjs';
export { Net } from './net.mjs';
export { pictureFromPgm, pictureFromText, pictureToPgm, pictureToText } from './picture.mjs';
export { isRefusal, Refusal } from './refusal.mjs';
export { Table } from './table.mjs';

// Compiles and starts the library without blocking. The module imports nothing.
export async function load(source) {
  const module = source instanceof WebAssembly.Module ? source : await WebAssembly.compile(source);
  return new Sitgurp(await WebAssembly.instantiate(module));
}

// Compiles and starts the library at once.
export function loadSync(source) {
  const module = source instanceof WebAssembly.Module ? source : new WebAssembly.Module(source);
  return new Sitgurp(new WebAssembly.Instance(module));
}
