// Valid names from what people write: lowercase letters and digits, a letter first, 8 at most. Names that are written differently stay different.
// Follows rust/command/src/csv/names.rs.

// A plain letter, and after it the letters with accents that become it. Any other letter is left out of a name.
const ACCENTS = [
  'aàáâãäåāăąǎạảấầẩẫậắằẳẵặ', 'cçćĉċč', 'dðďđ', 'eèéêëēĕėęěẹẻẽếềểễệ', 'gĝğġģ', 'hĥħ', 'iìíîïĩīĭįıỉị', 'jĵ', 'kķ', 'lĺļľŀł', 'nñńņňŋ',
  'oòóôõöøōŏőǒọỏốồổỗộớờởỡợơ', 'rŕŗř', 'sśŝşšș', 'tţťŧț', 'uùúûüũūŭůűųụủứừửữựư', 'wŵ', 'yýÿŷỳỵỷỹ', 'zźżž',
];
const PAIRS = { ß: 'ss', æ: 'ae', œ: 'oe', þ: 'th' };
const LONGEST = 8;

// Returns the text of a cell: UTF-8, or else Latin-1, which Windows writes in the west of Europe.
export function writtenText(bytes) {
  try {
    return new TextDecoder('utf-8', { fatal: true, ignoreBOM: true }).decode(Uint8Array.from(bytes));
  } catch {
    return Array.from(bytes, (byte) => String.fromCharCode(byte)).join('');
  }
}

function plainLetters(letter) {
  if (/^[a-z0-9]$/.test(letter)) return letter;
  return PAIRS[letter] ?? ACCENTS.find((letters) => letters.includes(letter))?.[0] ?? '';
}

// Returns the valid name that is nearest to what is written in a column. A name without a plain letter or digit is `in` with the column's number.
export function nearestName(written, column) {
  const name = Array.from(written.toLowerCase(), plainLetters).join('');
  if (name === '') return `in${column}`;
  return (/^[0-9]/.test(name) ? `x${name}` : name).slice(0, LONGEST);
}

const isValid = (name) => /^[a-z][a-z0-9]{0,7}$/.test(name) && name !== 'ink';

// Returns a valid name for each written one: itself if it is valid, or else the nearest, with a number where that is taken. Two that are written alike get one
// name, which the library refuses.
export function uniqueNames(written) {
  const taken = new Set([...written.filter(isValid), 'ink']);
  const names = [];
  written.forEach((one, k) => {
    const earlier = written.indexOf(one);
    if (isValid(one)) names.push(one);
    else if (earlier < k) names.push(names[earlier]);
    else {
      names.push(freeName(nearestName(one, k + 1), taken));
      taken.add(names[k]);
    }
  });
  return names;
}

// Returns a name, with a number at its end where it is taken.
function freeName(name, taken) {
  let free = name;
  for (let number = 2; taken.has(free); number += 1) free = `${name.slice(0, LONGEST - String(number).length)}${number}`;
  return free;
}
