// UTF-16 with a byte order mark, as spreadsheets write "Unicode text", as UTF-8. Follows rust/command/src/csv/wide.rs.

const LOST = '\ufffd';

// Returns a file in UTF-16 with a byte order mark as UTF-8, and any other file as it is.
export function narrow(file) {
  const isLittle = file[0] === 0xff && file[1] === 0xfe && !(file[2] === 0 && file[3] === 0);
  const isBig = file[0] === 0xfe && file[1] === 0xff;
  if (!isLittle && !isBig) return file;
  const letters = [];
  for (let at = 2; at + 1 < file.length; at += 2) {
    letters.push(String.fromCharCode(isBig ? file[at] * 256 + file[at + 1] : file[at] + file[at + 1] * 256));
  }
  // half of a pair is encoded as a letter that is lost
  return new TextEncoder().encode(letters.join('') + (file.length % 2 === 1 ? LOST : ''));
}
