// The library as the tests use it: from target/web.

import { readFileSync } from 'node:fs';
import { loadSync } from '../src/sitgurp.mjs';

export const ROOT = new URL('../../', import.meta.url);
export const WASM = readFileSync(new URL('target/web/sitgurp.wasm', ROOT));
export const sitgurp = loadSync(WASM);

// Returns the bytes of an example.
export function example(name) {
  return new Uint8Array(readFileSync(new URL(`examples/${name}`, ROOT)));
}
