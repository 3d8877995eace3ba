// CSV, as a spreadsheet writes it, turned into a loose table sheet. A file has one separator. The library judges the loose sheet: a cell is never joined
// with another one or split, and what the library must not read as it is becomes a field that no sheet accepts. Follows rust/command/src/csv.rs.

import { field } from './excerpt.mjs';
import { orderOf } from './order.mjs';
import { cellAt, cellBytes, Flaw, numberBytes, recordsFrom, saysSize, usedCells } from './record.mjs';

const [TAB, FEED, RETURN, SPACE, QUOTE, COMMA, ZERO, SEMICOLON] = [9, 10, 13, 32, 34, 44, 48, 59];
const WORDS = { [COMMA]: 'commas', [SEMICOLON]: 'semicolons', [TAB]: 'tabs', [SPACE]: 'spaces' };
// What a blank cell, or a space inside a cell, is in the text. No sheet has this byte.
const NONE = 0;

const CAUSES = {
  [Flaw.Unclosed]: 'no quote closes the one that opens this field',
  [Flaw.AfterQuote]: 'something follows the quote that closes this field; a quote inside quotes is written twice',
  [Flaw.QuoteInside]: 'there is a quote inside this field; put quotes around all of it, and write a quote inside them twice',
};

export class Csv {
  #file;
  // for each byte of the text where it comes from
  #from = new Uint32Array(64);
  #length = 0;
  // how much of the text is not in the file: the first two lines, if they are inferred
  #added = 0;
  // where the next line is due in the file
  #end;

  // Reads CSV. The ink is the column called ink, or else the last one.
  constructor(file) {
    const mark = file[0] === 0xef && file[1] === 0xbb && file[2] === 0xbf ? 3 : 0;
    const [said, length] = separatorSaid(file.subarray(mark)) ?? [null, 0];
    const start = mark + length;
    this.#file = file;
    this.separator = said ?? separatorOf(file.subarray(mark));
    this.text = new Uint8Array(64);
    // for each line of the text its line in the file
    this.lines = [];
    // levels and inputs, if the file does not say them
    this.inferred = null;
    // the columns of the sheet, each with its name there and as it is written
    this.columns = [];
    const records = recordsFrom(file, start, said === null ? 1 : 2, this.separator);
    this.#end = records.length > 0 ? records[records.length - 1].next : start;
    this.#read(records);
    this.text = this.text.subarray(0, this.#length);
  }

  #read(records) {
    const isSaid = records.length === 0 || saysSize(this.#file, records[0]);
    const head = isSaid ? Math.min(2, records.length) : 0;
    for (const record of records.slice(0, head)) this.#putSize(record);
    if (records.length === head) return;
    const [names, ...rows] = records.slice(head);
    const { kept, columns, count } = orderOf(this.#file, names, rows, isSaid);
    if (!isSaid) this.#infer(names, rows, kept);
    this.columns = columns;
    this.#putNames(names, kept);
    for (const row of rows) this.#putRow(row, kept, count);
  }

  // Infers the first two lines: the levels from the highest digit, the inputs from the columns.
  #infer(names, rows, kept) {
    let highest = 1;
    for (const row of rows) {
      for (const cell of keptCells(row, kept)) {
        const bytes = cell === null ? [] : numberBytes(cell, this.#file);
        if (bytes.length === 1 && bytes[0] >= ZERO && bytes[0] <= ZERO + 8) highest = Math.max(highest, bytes[0] - ZERO);
      }
    }
    this.inferred = { levels: highest + 1, inputs: Math.max(0, kept.length - 1) };
    // a name with a flaw may have swallowed others
    const from = names.cells.find((cell) => cell.flaw !== null && cell.flaw !== Flaw.Blank)?.from ?? names.start;
    for (const letter of `levels inputs\n${this.inferred.levels} ${this.inferred.inputs}\n`) this.#push(letter.charCodeAt(0), from);
    this.lines.push(names.line, names.line);
    this.#added = this.#length;
  }

  // Writes one of the two lines with the words `levels` and `inputs` or their numbers. Capitals are as good.
  #putSize(record) {
    const count = Math.max(usedCells(record), Math.min(2, record.cells.length));
    record.cells.slice(0, count).forEach((cell, k) => this.#putCell(k, cell, true));
    this.#putEnd(record);
  }

  // Writes the line of names, the kept columns in order.
  #putNames(record, kept) {
    kept.forEach((column, k) => {
      const cell = record.cells[column];
      const { name } = this.columns[k];
      // a blank cell, or one with a flaw, has no name
      if (name === '') this.#putCell(k, cell, false);
      else this.#putBytes(k, cell.from, Array.from(name, (letter) => letter.charCodeAt(0)));
    });
    this.#putEnd(record);
  }

  // Writes a row: its kept cells in order, and then what follows the last of so many columns.
  #putRow(record, kept, count) {
    const cells = [...keptCells(record, kept), ...record.cells.slice(count, Math.max(count, usedCells(record)))];
    cells.forEach((cell, k) => {
      if (cell === null) this.#putBytes(k, record.end, [NONE]);
      else this.#putCell(k, cell, true);
    });
    this.#putEnd(record);
  }

  // Writes field k of a line: a cell as it is, or the whole number or the lowercase word that it means.
  #putCell(k, cell, isMeant) {
    if (cell.flaw === Flaw.Blank) this.#putBytes(k, cell.from, [NONE]);
    else if (isMeant && cell.flaw === null) this.#putBytes(k, cell.from, numberBytes(cell, this.#file));
    else this.#putBytes(k, cell.from, cellBytes(cell, this.#file).map(([byte]) => byte));
  }

  #putBytes(k, from, bytes) {
    if (k > 0) this.#push(SPACE, from);
    for (const byte of bytes) this.#push(byte === SPACE || byte === FEED || byte === RETURN ? NONE : byte, from);
  }

  #putEnd(record) {
    this.#push(FEED, record.end);
    this.lines.push(record.line);
  }

  #push(byte, from) {
    if (this.#length === this.text.length) {
      const [text, places] = [new Uint8Array(2 * this.#length), new Uint32Array(2 * this.#length)];
      text.set(this.text);
      places.set(this.#from);
      [this.text, this.#from] = [text, places];
    }
    this.text[this.#length] = byte;
    this.#from[this.#length] = from;
    this.#length += 1;
  }

  // Returns what separates the fields, in words.
  separatorWords() {
    return WORDS[this.separator];
  }

  // Returns where a place of the text comes from.
  source(place) {
    return place < this.#length ? this.#from[place] : this.#end;
  }

  // Returns what is wrong with the cell that begins at a place of the text; null if nothing is.
  flaw(place) {
    return this.#cell(place)?.flaw ?? null;
  }

  // Returns the cell that begins at a place of the text as a sentence shows it; null if none begins there.
  shown(place) {
    const cell = this.#cell(place);
    return cell === null ? null : field(Uint8Array.from(cellBytes(cell, this.#file), ([byte]) => byte));
  }

  // Returns why the cell at a place of the text is not what it looks like; null if it is. For inferred lines this is a name with a flaw.
  cause(place) {
    if (place < this.#added) return CAUSES[cellAt(this.#file, this.#from[place], this.separator)[0].flaw] ?? null;
    const cell = this.#cell(place);
    if (cell === null || cell.flaw === Flaw.Blank) return null;
    return cell.flaw === null ? this.#noSeparator(cell, place) : CAUSES[cell.flaw];
  }

  // Returns, for a cell with a space or with another file's separator in it, that these separate nothing here.
  #noSeparator(cell, place) {
    // a name is as good with them
    let end = place;
    while (end < this.#length && this.text[end] !== SPACE && this.text[end] !== FEED) end += 1;
    if (!this.text.subarray(place, end).some((byte) => [COMMA, SEMICOLON, TAB, NONE].includes(byte))) return null;
    const found = cellBytes(cell, this.#file)
      .map(([byte]) => byte)
      .filter((byte) => [COMMA, SEMICOLON, TAB, SPACE, FEED, RETURN].includes(byte));
    if (found.length === 0) return null;
    const byte = found.find((one) => one !== SPACE) ?? SPACE;
    const what = byte === SPACE ? 'a space' : byte === FEED || byte === RETURN ? 'a line end' : `\`${field(Uint8Array.of(byte))}\``;
    return `${this.separatorWords()} separate the fields of this file, so ${what} is part of this field`;
  }

  #cell(place) {
    if (place < this.#added) return null;
    const isStart = place === 0 || this.text[place - 1] === SPACE || this.text[place - 1] === FEED;
    const isField = place < this.#length && this.text[place] !== FEED;
    return isStart && isField ? cellAt(this.#file, this.#from[place], this.separator)[0] : null;
  }
}

// Returns the cells of a row in these columns, of which all but the last rise. One null stands for all that are missing before the last one.
function keptCells(row, kept) {
  const cells = [];
  const last = kept[kept.length - 1];
  let at = 0;
  for (; at < kept.length - 1 && kept[at] < row.cells.length; at += 1) cells.push(row.cells[kept[at]]);
  if (last >= row.cells.length || kept.length === 0) return cells;
  if (at < kept.length - 1) cells.push(null);
  return [...cells, row.cells[last]];
}

// Returns the separator that a first line such as `sep=;` names, with the length of that line; null if it names none.
function separatorSaid(bytes) {
  const end = bytes.findIndex((byte) => byte === RETURN || byte === FEED);
  const length = end < 0 ? bytes.length : end;
  const line = Array.from(bytes.subarray(0, Math.min(length, 8)), (byte) => String.fromCharCode(byte)).join('');
  const found = /^("?)sep=([,;\t ])\1$/i.exec(line);
  if (found === null || line.length !== length) return null;
  const feeds = length === bytes.length ? 0 : bytes[length] === RETURN && bytes[length + 1] === FEED ? 2 : 1;
  return [found[2].charCodeAt(0), length + feeds];
}

// Finds the first comma, semicolon or tab that is not in quotes. A file with none has spaces.
function separatorOf(bytes) {
  let quoted = false;
  let before = FEED;
  for (const byte of bytes) {
    const opens = before === FEED || before === RETURN || before === SPACE;
    if (byte === QUOTE) quoted = !quoted && opens;
    else if (!quoted && (byte === COMMA || byte === SEMICOLON || byte === TAB)) return byte;
    // the second of two quotes inside quotes opens them again
    before = byte === QUOTE ? SPACE : byte;
  }
  return SPACE;
}
