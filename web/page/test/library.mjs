// The library for tests, started from the built module.

import { readFileSync } from 'node:fs';
import { loadSync } from '../../src/sitgurp.mjs';

export const lib = loadSync(readFileSync(new URL('../../../target/web/sitgurp.wasm', import.meta.url)));

// Returns the text of a file of the repository.
export function fileText(path) {
  return readFileSync(new URL(`../../../${path}`, import.meta.url), 'utf8');
}
