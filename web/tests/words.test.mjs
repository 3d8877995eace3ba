// For refused files the module has the same words, line and caret as the command. SITGURP is the command, SHEETS a folder with the folders `table`, `net` and
// `loose` that the load generator wrote.

import assert from 'node:assert/strict';
import { spawnSync } from 'node:child_process';
import { mkdtempSync, readdirSync, readFileSync, rmSync, writeFileSync } from 'node:fs';
import { tmpdir } from 'node:os';
import { join } from 'node:path';
import { after, test } from 'node:test';
import { isExplanation, isRefusal } from '../src/sitgurp.mjs';
import { pictureOf, readPgm } from '../page/raster.mjs';
import { example, sitgurp } from './library.mjs';

const { SITGURP, SHEETS } = process.env;
const folder = mkdtempSync(join(tmpdir(), 'words-'));
after(() => rmSync(folder, { recursive: true }));

// What each command reads, and the module in its place.
const READERS = {
  make: (bytes) => made(sitgurp.readTable(bytes, 'sheet')),
  settle: (bytes) => sitgurp.readNet(bytes, 'sheet'),
  tidy: (bytes) => sitgurp.readLoose(bytes, 'sheet'),
  'tidy --csv': (bytes) => sitgurp.readLoose(bytes, 'sheet', true),
};

// Makes the tree of a table, or explains why not.
function made(table) {
  if (isExplanation(table)) return table;
  const net = table.settled();
  return isRefusal(net) ? sitgurp.explainTable(table, net, 'sheet') : net;
}

// Returns what the command writes to standard error, and whether it refuses.
function said(words, bytes) {
  writeFileSync(join(folder, 'sheet'), bytes);
  const { status, stderr, error } = spawnSync(SITGURP, words, { cwd: folder, encoding: 'utf8', env: { ...process.env, SITGURP_AS: 'sitgurp' } });
  assert.ok(!error && (status === 0 || status === 1), `${words}: ${error ?? stderr}`);
  return status === 1 ? stderr : '';
}

// Returns what the module says.
function answered(read) {
  if (!isExplanation(read)) return '';
  return `${read}${read.hint === null ? '' : `${read.hint}\n`}`;
}

// Compares the two on these sheets. Answers how many were refused.
function compared(command, sheets) {
  let refused = 0;
  for (const bytes of sheets) {
    const due = said([...command.split(' '), 'sheet'], bytes);
    assert.equal(answered(READERS[command](bytes)), due, `sitgurp ${command} on ${JSON.stringify(new TextDecoder('latin1').decode(bytes))}`);
    if (due !== '') refused += 1;
  }
  return refused;
}

// Returns the sheets that the load generator wrote.
function generated(kind) {
  const files = readdirSync(join(SHEETS, kind)).sort();
  return files.map((file) => new Uint8Array(readFileSync(join(SHEETS, kind, file))));
}

const text = (bytes) => new TextDecoder('latin1').decode(bytes);
const bytes = (words) => Uint8Array.from(words, (letter) => letter.charCodeAt(0));

// Returns a text in UTF-16 with its mark.
function wide(words, isBig) {
  const pairs = [...`\ufeff${words}`].map((letter) => letter.charCodeAt(0)).flatMap((code) => [code & 255, code >> 8]);
  return Uint8Array.from(pairs, (_, k) => pairs[isBig ? k ^ 1 : k]);
}

const csv = (sheet) => sheet.replace(/ /g, ',');

// Mistakes that people make in a sheet.
const MISTAKES = [
  (sheet) => bytes(sheet.replace(/\n/g, '\r\n')),
  (sheet) => bytes(sheet.replace(/\n/g, '\r')),
  (sheet) => bytes(sheet.replace(/ /g, '\t')),
  (sheet) => bytes(sheet.replace(/ /g, ',')),
  (sheet) => bytes(sheet.replace(/ /g, ';').replace(/\n/g, '\r\n')),
  (sheet) => bytes(sheet.replace(/ /g, ', ')),
  (sheet) => bytes(sheet.replace(/([^ \n]+)/g, '"$1"')),
  (sheet) => bytes(`\xef\xbb\xbf${sheet.replace(/([^ \n]+)/g, '"$1"').replace(/ /g, ',')}`),
  (sheet) => bytes(`\xef\xbb\xbf${sheet}`),
  (sheet) => wide(sheet, false),
  (sheet) => wide(sheet, true),
  (sheet) => bytes(sheet.toUpperCase()),
  (sheet) => bytes(sheet.replace(/ /g, '   ')),
  (sheet) => bytes(sheet.replace(/\n/g, ' \n')),
  (sheet) => bytes(sheet.replace(/\n/g, '\n\n')),
  (sheet) => bytes(`${sheet}\n`),
  (sheet) => bytes(`${sheet}0 0 0\n`),
  (sheet) => bytes(sheet.trimEnd()),
  (sheet) => bytes(sheet.slice(0, -2)),
  (sheet) => bytes(sheet.split('\n').slice(1).join('\n')),
  (sheet) => bytes(sheet.split('\n').slice(0, -2).join('\n') + '\n'),
  (sheet) => bytes(sheet.split('\n').filter((_, k) => k !== 4).join('\n')),
  (sheet) => bytes(sheet.split('\n').filter((_, k) => k !== 4 && k !== 5).join('\n')),
  (sheet) => bytes(sheet.split('\n').flatMap((line, k) => (k === 4 ? [line, line] : [line])).join('\n')),
  (sheet) => bytes(sheet.split('\n').slice(0, 3).join('\n')),
  (sheet) => bytes(sheet.split('\n').slice(0, 3).join('\n') + '\n'),
  (sheet) => bytes(sheet.replace('\n2 ', '\n10 ')),
  (sheet) => bytes(sheet.replace(/\n(\d) \d+\n/, '\n$1 13\n')),
  (sheet) => bytes(sheet.replace(/\n(\d) \d+\n/, '\n$1 12\n')),
  (sheet) => bytes(sheet.replace(/\n\d (\d+)\n/, '\n9 $1\n')),
  (sheet) => bytes(sheet.replace('weight', 'weightierthanall')),
  (sheet) => bytes(sheet.replace(' ink', ' tone')),
  (sheet) => bytes(sheet.replace('near', 'weight')),
  (sheet) => bytes(sheet.replace('near ', '')),
  (sheet) => bytes(sheet.replace('near ', 'near far ')),
  (sheet) => bytes(sheet.replace(/\d\n$/, '7\n')),
  (sheet) => bytes(sheet.replace(/\d\n$/, '-\n')),
  (sheet) => bytes(sheet.replace('\n0', '\n\x00\x80')),
  (sheet) => bytes(`${' '.repeat(60)}${sheet}`),
  (sheet) => bytes(sheet.replace(/\n/g, `${' '.repeat(120)}x\n`)),
  (sheet) => bytes(csv(sheet).replace(/\d\n$/, '\n')),
  (sheet) => bytes(csv(sheet).replace('levels,', '5" levels;,')),
  (sheet) => bytes(csv(sheet).replace('levels,', '"le;""vels",')),
  (sheet) => bytes(csv(sheet).replace('levels,', 'levels ";",')),
  (sheet) => bytes(csv(sheet).replace(/\n\d,/g, '\n,')),
  (sheet) => bytes(csv(sheet).replace(/\n(\d+),/g, '\n"",')),
  (sheet) => bytes(csv(sheet).replace('weight', 'my weight')),
  (sheet) => bytes(sheet.replace('weight', 'my weight')),
  (sheet) => bytes(csv(sheet).replace('weight', '"weight')),
  (sheet) => bytes(csv(sheet).replace('weight', '"wei"ght')),
  (sheet) => bytes(csv(sheet).replace('weight', 'wei"ght')),
  (sheet) => bytes(csv(sheet).replace('weight', '"wei""ght"')),
  (sheet) => bytes(csv(sheet).replace('weight,', 'weight;')),
  (sheet) => bytes(csv(sheet).replace(/\n/g, ',,\n') + ',,\n\n'),
  (sheet) => bytes(csv(sheet).replace(/\n/g, '\r\n').replace('weight', '"we\r\night"')),
  (sheet) => bytes(sheet.replace(/\n/g, '\n ')),
  (sheet) => bytes(sheet.replace(/\n/g, '\n\t')),
  (sheet) => wide(sheet, false).subarray(2),
  (sheet) => Uint8Array.from([0xff, 0xfe, 0, 0, ...bytes(sheet)]),
  () => bytes(''),
  () => bytes('\n'),
  () => bytes('name from to\nweight 0 0\n'),
  (sheet) => bytes(sheet),
];

test('damaged sheets of the load generator are refused in the same words', () => {
  const kinds = [['make', 'table'], ['settle', 'net'], ['tidy', 'loose'], ['tidy --csv', 'loose']];
  const counts = kinds.map(([command, kind]) => compared(command, generated(kind)));
  console.log(`refused tables, nets, loose sheets, and these as CSV: ${counts.join(', ')}`);
  assert.ok(counts.every((count) => count >= 40));
});

test('usual mistakes are refused in the same words', () => {
  const commands = {
    'shade.table': ['make', 'tidy', 'tidy --csv'],
    'majority.table': ['make', 'settle'],
    'shade.net': ['settle', 'make'],
    'seven.net': ['settle'],
  };
  let refused = 0;
  for (const [name, given] of Object.entries(commands)) {
    const wrong = MISTAKES.map((mistake) => mistake(text(example(name))));
    for (const command of given) refused += compared(command, wrong);
  }
  console.log(`usual mistakes: ${refused} refused`);
  assert.ok(refused > 300);
});

// Exports of a table with columns of its own, and mistakes in them.
const EXPORTS = [
  (sheet) => sheet,
  (sheet) => sheet.replace('Weight', '"My weight, in mm"').replace('Near', 'Nähe'),
  (sheet) => sheet.replace('Weight', 'a').replace('Near', 'A').replace('Light', 'á'),
  (sheet) => sheet.replace('Weight', '重さ').replace('Near', '2nd near'),
  (sheet) => sheet.replace('Weight', 'Near'),
  (sheet) => sheet.replace('Weight', 'My weight').replace('Near', 'My weight'),
  (sheet) => sheet.replace('Weight', ''),
  (sheet) => sheet.replace('Weight', '"Weight'),
  (sheet) => sheet.replace('Weight', 'We"ight'),
  (sheet) => sheet.replace('Weight', 'Ink'),
  (sheet) => sheet.replace('Tone', 'INK'),
  (sheet) => sheet.replace('Weight,', ''),
  (sheet) => sheet.replace(/\n/g, ',\n'),
  (sheet) => sheet.replace(/\n/g, ',x\n'),
  (sheet) => sheet.replace(/\n/g, '\n\n,,,\n'),
  (sheet) => sheet.replace(/,/g, ',,'),
  (sheet) => sheet.replace(/(\d)/g, '$1.0'),
  (sheet) => sheet.replace(/,/g, ';').replace(/(\d)/g, '$1,0'),
  (sheet) => sheet.replace(/(\d)\n/, '$1.5\n'),
  (sheet) => `sep=;\r\n${sheet.replace(/,/g, ';')}`,
  (sheet) => `sep=;\n${sheet}`,
  (sheet) => `"sep=,"\n${sheet}`,
  (sheet) => `sep=|\n${sheet.replace(/,/g, '|')}`,
  (sheet) => `sep=,\nlevels,inputs\n4,3\n${sheet}`,
  (sheet) => `sep=,\nlevels,inputs\n4,3\n${sheet.replace('Tone', 'ink')}`,
  (sheet) => `sep=,\n\nlevels,inputs\n4,3\n${sheet.replace('Tone', 'ink')}0,0,0,0\n`,
  (sheet) => `Levels,Inputs\n4,2\n${sheet.replace('Tone', 'ink')}`,
  (sheet) => `level,inputs\n4,3\n${sheet}`,
  (sheet) => sheet.replace('\n0', '\n9'),
  (sheet) => sheet.replace('\n0', '\n12'),
  (sheet) => sheet.replace('\n0', '\n'),
  (sheet) => sheet.replace('\n0,0', '\n0;0'),
  (sheet) => sheet.replace('\n0,0', '\n0 0'),
  (sheet) => sheet.replace('\n0,0,0,0', ''),
  (sheet) => sheet.replace('\n0,0,0,0', '\n0,0,0'),
  (sheet) => `${sheet}\n0,0,0,0\n`,
  (sheet) => sheet.split('\n').slice(1).join('\n'),
  (sheet) => sheet.split('\n')[0],
  (sheet) => sheet.split('\n').map((line) => line.split(',').slice(0, 2).join(',')).join('\n'),
  (sheet) => sheet.split('\n').map((line) => line.split(',').reverse().join(',')).join('\n').replace('Tone', 'ink'),
  (sheet) => sheet.split('\n').map((line) => line.split(',').reverse().join(',').slice(0, -1)).join('\n').replace('Tone', 'ink'),
];

test('exports without `levels inputs` are refused in the same words, and read as the same table', () => {
  const rows = text(example('shade.table')).split('\n').slice(3).join('\n').replace(/ /g, ',');
  const sheet = `Weight,Light,Near,Tone\n${rows}`;
  const encoder = new TextEncoder();
  const encodings = [(words) => encoder.encode(words), (words) => wide(words, false), (words) => wide(words, true)];
  let refused = 0;
  for (const change of EXPORTS) {
    for (const encode of encodings) refused += compared('tidy --csv', [encode(change(sheet))]);
    for (const command of ['tidy', 'make']) compared(command, [encoder.encode(change(sheet))]);
    compared('tidy --csv', [bytes(change(sheet).replace('Light', 'L\xe4cht'))]);
  }
  assert.ok(refused > 3 * 20 && refused < 3 * EXPORTS.length, String(refused));
  for (const change of EXPORTS) {
    const table = sitgurp.readLoose(encoder.encode(change(sheet)), 'sheet', true);
    if (isExplanation(table)) continue;
    writeFileSync(join(folder, 'sheet'), change(sheet));
    assert.equal(spawnSync(SITGURP, ['tidy', '--csv', 'sheet'], { cwd: folder, encoding: 'utf8' }).stdout, table.sheet);
  }
});

test('a graymap is the same picture on the page and for the command', () => {
  const net = (levels) => `levels inputs\n${levels} 2\na b\nleft right table\na b ${'0'.repeat(levels * levels)}\n`;
  for (const levels of [2, 3, 4, 7, 9]) {
    writeFileSync(join(folder, 'net'), net(levels));
    for (const white of [1, 5, 8, 100, 255, 256, 1000, 65535]) {
      const grays = Array.from({ length: 64 * 8 }, (_, k) => Math.floor((k * (white + 1)) / 512));
      const raw = grays.flatMap((gray) => (white > 255 ? [gray >> 8, gray & 255] : [gray]));
      const files = [bytes(`P2\n64 8\n${white}\n${grays.join('\n')}\n`), Uint8Array.from([...bytes(`P5\n64 8\n${white}\n`), ...raw])];
      for (const file of files) {
        writeFileSync(join(folder, 'picture'), file);
        const { stdout } = spawnSync(SITGURP, ['glyph', 'net', 'picture', '--source', '--text'], { cwd: folder, encoding: 'utf8' });
        const due = stdout.replace(/\n/g, '').replace(/\./g, '0');
        assert.equal([...pictureOf(readPgm(file), levels).cells].join(''), due, `${levels} levels, white ${white}`);
      }
    }
  }
});

test('files of any name are named in the same way', () => {
  const names = ['a.table', '-a.table', 'my a.table', '-my a', "it's", '\x1b[31m', 'a\nb', 'gr\u00fcn', 'a\u202eb', 'a%+,@_b', '\u0085', '\\'];
  for (const name of names) {
    writeFileSync(join(folder, name), 'x\n');
    const due = said(['make', '--', name], bytes('x\n'));
    assert.equal(answered(sitgurp.readTable('x\n', name)), due);
    const loose = 'levels  inputs\n2 2\na b ink\n0 0 0\n0 1 0\n1 0 0\n1 1 0\n';
    writeFileSync(join(folder, name), loose);
    const hinted = said(['make', '--', name], bytes(loose));
    assert.equal(answered(sitgurp.readTable(loose, name)), hinted);
  }
});

test('arrival sheets are refused in the same words', () => {
  const net = sitgurp.net(example('shade.net'));
  writeFileSync(join(folder, 'net'), net.sheet);
  const good = 'name from to\nweight 0 4\nlight 2 2\nnear 10 12\n';
  const wrong = [good.replace('0 4', '4 0'), good.replace('0 4', '0 65536'), good.replace('0 4', '0 x'), good.replace('0 4', '01 4'), good.replace('0 4', '0')];
  wrong.push(good.replace('light', 'near'), good.replace('near', 'lights'), good.replace('near 10 12\n', ''), `${good}a 0 0\n`, `${good}\n`, good.trimEnd());
  wrong.push(net.sheet, text(example('shade.table')), good.replace(/ /g, '\t'), good.replace(/\n/g, '\r\n'), good.toUpperCase(), `${good}  `, '', 'x');
  wrong.push(good.slice(0, 13), good.slice(0, 20));
  for (const sheet of [good, ...wrong]) {
    const due = said(['arrivals', 'net', 'sheet', '--delay', '3'], bytes(sheet));
    assert.equal(answered(sitgurp.readArrivals(net, bytes(sheet), 3, 'sheet')), due, JSON.stringify(sheet));
    assert.equal(due === '', sheet === good);
  }
});

test('trees that a table does not have, and headers that differ, are refused in the same words', () => {
  const three = sitgurp.tableFromRule(2, ['a', 'b', 'c'], (levels) => levels.reduce((one, other) => one ^ other));
  const one = sitgurp.table(example('shade.table'));
  const none = sitgurp.table(example('majority.table'));
  for (const table of [three, one, none, three.with([[3, 2]]), three.with([[3, 2], [7, 2]])]) {
    for (const number of [0, 1, 3, 9]) {
      const refusal = sitgurp.familyTree(table, number);
      const due = said(['make', 'sheet', '--number', String(number)], bytes(table.sheet));
      assert.equal(isRefusal(refusal) ? answered(sitgurp.explainTable(table, refusal, 'sheet')) : '', due);
    }
  }
  const headers = [[3, ['a', 'b', 'c']], [2, ['a', 'b']], [2, ['b', 'a', 'c']]];
  const others = headers.map(([levels, names]) => sitgurp.tableFromRule(levels, names, () => 0));
  for (const other of [three, ...others]) {
    writeFileSync(join(folder, 'net'), three.settled().sheet);
    const due = said(['check', 'net', 'sheet'], bytes(other.sheet));
    const words = sitgurp.explainHeaders(three, other);
    assert.equal(words === null ? '' : `net and sheet: ${words} (refusal 12)\n`, due);
  }
});
