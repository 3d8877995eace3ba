// Reads files that a person drops or chooses. A folder, or a file that has gone since, cannot be read.

// Returns the bytes of a file, or null if the browser cannot read it.
export async function bytesOf(file) {
  try {
    return new Uint8Array(await file.arrayBuffer());
  } catch {
    return null;
  }
}

// Returns what to say about a file that cannot be read.
export function unreadable(file) {
  return `${file.name}: the browser cannot read this. It may be a folder.`;
}
