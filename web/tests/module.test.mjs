// The module's functions, classes and answers, on the examples of the Rust crate's documentation.

import assert from 'node:assert/strict';
import { readFileSync } from 'node:fs';
import { test } from 'node:test';
import { isRefusal, Job, Kind, load, loadSync, markOf, Net, Refusal, Table } from '../src/sitgurp.mjs';
import * as built from '../../target/web/sitgurp.mjs';
import * as source from '../src/sitgurp.mjs';
import { example, ROOT, sitgurp, WASM } from './library.mjs';

const NET = 'levels inputs\n2 3\na b c\nleft right table\na b 0110\n1 c 0110\n';
const MAJORITY = 'levels inputs\n2 3\na b c ink\n0 0 0 0\n0 0 1 0\n0 1 0 0\n0 1 1 1\n1 0 0 0\n1 0 1 1\n1 1 0 1\n1 1 1 1\n';
const sum = sitgurp.tableFromRule(2, ['a', 'b', 'c'], (levels) => levels.reduce((one, other) => (one + other) % 2));

test('the library loads from bytes, from a buffer and from a module, at once and later', async () => {
  const module = new WebAssembly.Module(WASM);
  const buffer = WASM.buffer.slice(WASM.byteOffset, WASM.byteOffset + WASM.byteLength);
  for (const from of [WASM, buffer, module]) {
    for (const started of [loadSync(from), await load(from)]) assert.equal(started.table(MAJORITY).levels, 2);
  }
});

test('the built module exports what its sources export, and the types declare it', () => {
  const names = Object.keys(source).sort();
  assert.deepEqual(Object.keys(built).sort(), names);
  const types = readFileSync(new URL('web/sitgurp.d.ts', ROOT), 'utf8');
  const declared = [...types.matchAll(/^export (?:const|function|class) ([A-Za-z_]+)/gm)].map((found) => found[1]);
  assert.deepEqual(declared.sort(), names);
  assert.equal(built.loadSync(WASM).table(MAJORITY).settled().number, 16);
});

test('every method that the types declare is there, and no other', () => {
  const types = readFileSync(new URL('web/sitgurp.d.ts', ROOT), 'utf8');
  const own = (text) => [...new Set([...text.matchAll(/^ {2}(?:readonly )?([a-zA-Z]+)\??[(:]/gm)].map((found) => found[1]))];
  const shown = { Refusal: sitgurp.table(''), Table: sum, Net: sum.settled(), Family: sum.family(), Job: sum.job(), Explanation: sitgurp.readTable('') };
  for (const [name, value] of [...Object.entries(shown), ['Sitgurp', sitgurp]]) {
    const declared = own(types.split(`export class ${name} `)[1].split('\n}')[0]);
    for (const member of declared) {
      const isOptional = name === 'Refusal' && ['cells', 'marks'].includes(member);
      assert.ok(isOptional || member in value, `${name}.${member}`);
    }
    const methods = Object.getOwnPropertyNames(Object.getPrototypeOf(value)).filter((member) => member !== 'constructor' && member !== 'answered');
    assert.deepEqual(methods.filter((member) => !declared.includes(member)), [], name);
  }
});

test('the constants are those of the header', () => {
  const header = readFileSync(new URL('include/sitgurp.h', ROOT), 'utf8');
  const pascal = (words) => words.split('_').map((word) => word[0] + word.slice(1).toLowerCase()).join('');
  const kinds = [...header.matchAll(/SITGURP_REFUSED_([A-Z_]+) = (\d+)/g)].map(([, name, number]) => [pascal(name), Number(number)]);
  assert.deepEqual(Object.entries(Kind), kinds);
  assert.equal(source.VERSION, header.match(/SITGURP_VERSION "(.*)"/)[1]);
  for (const name of ['MOST_CELLS']) assert.equal(source[name], Number(header.match(new RegExp(`SITGURP_${name} (\\d+)`))[1]));
});

test('a table gives its rows, its tree and all trees', () => {
  const table = sitgurp.tableFromRule(3, ['day', 'near', 'weight'], (levels) => Math.max(...levels));
  assert.ok(table instanceof Table);
  const net = table.settled();
  assert.ok(net instanceof Net);
  assert.equal(net.value([0, 2, 1]), 2);
  assert.deepEqual(net.check(table), { agree: true, cells: table.inks });
  assert.equal(table.ink([1, 0, 2]), 2);
  assert.equal(table.ink([1, 0, 3]), null);
  assert.equal(table.indexOf([0, 0]), null);
  assert.deepEqual(table.assignment(table.indexOf([2, 1, 0])), [2, 1, 0]);
  assert.deepEqual([...table.rows()][5], { levels: [0, 1, 2], ink: 2 });
  assert.deepEqual(sitgurp.table(table.sheet).inks, table.inks);
  const family = sum.family();
  assert.equal(family.size, 3);
  assert.equal(family.tree(0).sheet, sum.settled().sheet);
  const trees = [...family].map((tree) => tree.sheet);
  assert.equal(new Set(trees).size, 3);
  for (const tree of family) assert.equal(tree.table().sheet, sum.sheet);
  const none = family.tree(3);
  assert.deepEqual([none.number, none.place, none.name, none.sheet], [17, 3, 'NoSuchTree', 'neither']);
  assert.equal(family.tree(2n ** 64n - 1n).number, 17);
});

test('open cells are kept, passed over by a check, and refused where a full table is needed', () => {
  const open = sum.with([[0, 2], [7, 2]]);
  assert.deepEqual(open.open(), [0, 7]);
  assert.ok(!open.isFull() && sum.isFull());
  assert.ok(open.sheet.includes('0 0 0 -\n'));
  assert.ok(sum.settled().check(open).agree);
  assert.deepEqual([open.settled().name, open.settled().place, open.settled().sheet], ['OpenCell', 0, 'table']);
  for (const refused of [open.family(), open.job(), open.fewestLevels(), sitgurp.multiplicities(open), open.multiplicity(3)]) {
    assert.equal(refused.name, 'OpenCell');
  }
  assert.equal(sitgurp.fault(open), null);
});

test('a refusal is a value with number, place, name and sheet', () => {
  const refusal = sitgurp.settle('levels inputs\n1 2\n');
  assert.ok(isRefusal(refusal) && refusal instanceof Refusal);
  assert.deepEqual([refusal.number, refusal.place, refusal.name, refusal.sheet], [2, 14, 'Levels', 'net']);
  assert.deepEqual(refusal.position, { line: 2, column: 1 });
  assert.equal(refusal.toString(), 'net sheet: levels is not one digit from 2 to 9 (refusal 2 at byte 14, line 2, column 1)');
  const none = sitgurp.make(MAJORITY);
  assert.deepEqual([none.number, none.place, none.inputs], [16, 7, ['a', 'b', 'c']]);
  assert.deepEqual([...none.cells], [0, 0, 0, 1, 0, 1, 1, 1]);
  assert.deepEqual([...none.marks], [0x28, 0x42]);
  assert.equal(none.toString(), 'no tree of two-input gates computes this table (refusal 16 at group 7: a, b, c)');
  const two = sitgurp.tableFromRule(2, ['a', 'b'], () => 0);
  assert.deepEqual([sitgurp.check(NET, two).number, sitgurp.check(NET, two).sheet], [12, 'neither']);
  assert.equal(sitgurp.check('x', two).sheet, 'net');
  assert.equal(sitgurp.check(NET, 'x').sheet, 'table');
  assert.equal(sitgurp.arrivals(NET, 'x', 0).sheet, 'arrivals');
  assert.throws(() => sitgurp.table(7), TypeError);
  assert.throws(() => new Table({}, sitgurp, MAJORITY, []), TypeError);
  assert.throws(() => new Net({}, sitgurp, NET, []), TypeError);
});

test('a refusal has the words of the Rust crate', () => {
  const crate = readFileSync(new URL('rust/sitgurp/src/refusal.rs', ROOT), 'utf8');
  const words = [...crate.matchAll(/Kind::([A-Za-z]+) => "(.*)",/g)].map(([, name, text]) => [name, text]);
  const due = Object.entries(Kind).map(([name, number]) => [name, new Refusal(number, 0, 'neither', new Uint8Array()).words()]);
  assert.deepEqual(words, [...due, ['Unknown', new Refusal(99, 0, 'neither', new Uint8Array()).words()]]);
});

test('names and sizes that no sheet has are refused', () => {
  assert.equal(sitgurp.tableFromRule(2, ['a', 'a'], () => 0).name, 'Name');
  assert.equal(sitgurp.tableFromRule(2, ['A', 'b'], () => 0).name, 'Name');
  assert.equal(sitgurp.tableFromRule(10, ['a', 'b'], () => 0).name, 'Levels');
  assert.equal(sitgurp.tableFromRule(2, [...'abcdefghijklm'], () => 0).name, 'Inputs');
  assert.equal(sitgurp.tableFromRule(9, ['a', 'b', 'c', 'd'], () => 0).name, 'Inputs');
  assert.equal(sitgurp.tableFromRule(2, ['a', 'b'], () => 7).name, 'Digits');
  assert.equal(sitgurp.tableFromInks(2, ['a', 'b'], [0, 1, 1]).name, 'Digits');
});

test('a net gives its gates, layers and forms', () => {
  const net = sitgurp.net(NET);
  assert.deepEqual(net.gates.map(({ left, right, digits }) => [left, right, [...digits]]), [
    [{ input: 0 }, { input: 1 }, [0, 1, 1, 0]],
    [{ gate: 0 }, { input: 2 }, [0, 1, 1, 0]],
  ]);
  assert.equal(net.layers(), 2);
  assert.equal(net.settled().sheet, 'levels inputs\n2 3\na b c\nleft right table\nb c 0110\na 1 0110\n');
  assert.deepEqual(sitgurp.net('levels inputs\n2 3\na b c\nleft right table\nc a 0001\n').unused(), [1]);
  const chain = sitgurp.net('levels inputs\n2 4\na b c d\nleft right table\na b 0110\n1 c 0110\n2 d 0110\n');
  const { net: shallow, layers } = chain.shallow();
  assert.equal(layers, 2);
  assert.deepEqual(sitgurp.shallower(chain, shallow), { which: 2, sheet: shallow.sheet });
  assert.deepEqual(sitgurp.shallower(chain, chain), { which: 1, sheet: chain.sheet });
  assert.deepEqual(sitgurp.shallower('x', 'y'), { which: 0, sheet: '' });
  assert.equal(sitgurp.gateLine(NET, 1), '1 c 0110');
  assert.equal(sitgurp.gateLine(NET, 2), null);
  assert.deepEqual(sitgurp.gateLines(NET), [sitgurp.gateLine(NET, 0), sitgurp.gateLine(NET, 1)]);
  assert.equal(sitgurp.gateLines('levels').number, 1);
  const [major, minor, patch] = source.VERSION.split('.').map(Number);
  assert.equal(sitgurp.version(), major * 10000 + minor * 100 + patch);
  const times = net.settling('name from to\na 0 4\nb 2 2\nc 10 12\n', 4);
  assert.deepEqual(times, { earliest: 3.5, latest: 4 });
  assert.throws(() => net.settling('name from to\na 0 4\nb 2 2\nc 10 12\n', 256), RangeError);
  const kept = sitgurp.net('levels inputs\n2 3\na b c\nleft right table\nc b 0001\n1 a 0110\n').keep(sum);
  assert.deepEqual([kept.net.sheet, kept.changed], ['levels inputs\n2 3\na b c\nleft right table\nc b 0110\n1 a 0110\n', [1]]);
  const cannot = sitgurp.net('levels inputs\n2 3\na b c\nleft right table\na b 0110\n').keep(sum);
  assert.deepEqual([cannot.name, cannot.place, [...cannot.cells]], ['Wiring', 0, [...sum.inks]]);
});

test('a job marks group by group, gives its marks on the way, and ends as making does', () => {
  const job = sitgurp.openJob(MAJORITY);
  assert.ok(job instanceof Job);
  assert.equal(job.step(), null);
  assert.deepEqual([job.passed, job.groups, job.toGo, job.mark(1), job.mark(2)], [1, 7, 6, 2, null]);
  assert.equal(job.mark(8).name, 'Group');
  assert.deepEqual([job.finish().name, job.finish().place], ['JobUnfinished', 6]);
  assert.deepEqual([...job], [[2, 2], [3, 0], [4, 2], [5, 0], [6, 0], [7, 1]]);
  assert.equal(job.step().name, 'JobDone');
  assert.equal(job.finish().name, 'NoTree');
  assert.deepEqual([...job.marks()], [0, 2, 2, 0, 2, 0, 0, 1]);
});

test('a job runs in slices of time, and leaving a loop keeps it where it is', () => {
  const table = sitgurp.tableFromRule(2, [...'abcdefghijkl'], (levels) => levels.reduce((one, other) => one ^ other));
  const job = table.job();
  for (const [group] of job) if (group === 100) break;
  assert.equal(job.passed, 100);
  let slices = 0;
  while (!job.run(0)) slices += 1;
  assert.ok(slices > 100);
  assert.equal(job.toGo, 0);
  const made = sitgurp.make(table);
  assert.deepEqual(job.finish(), made);
  assert.deepEqual([...job.marks()], [...job.marks().keys()].map((group) => markOf(made.marks, group)));
  assert.ok(job.run(1000));
});

test('classes are counted, and the fewest levels found', () => {
  assert.deepEqual(sitgurp.multiplicities(MAJORITY), [0, 2, 2, 3, 2, 3, 3, 2]);
  assert.equal(sitgurp.fewestLevels(MAJORITY), 3);
  assert.deepEqual(sitgurp.marking(2, 3, Uint8Array.of(0, 0, 0, 1, 0, 1, 1, 1)), { whole: 1, marks: Uint8Array.of(0x28, 0x42) });
  assert.equal(sitgurp.multiplicity(2, 3, Uint8Array.of(0, 0, 0, 1, 0, 1, 1, 1), 6), 3);
  assert.equal(sitgurp.multiplicity(2, 3, new Uint8Array(7), 6).name, 'BareSize');
  const { group, names, splits, fewest } = sitgurp.fault(sitgurp.table(MAJORITY));
  assert.deepEqual([group, names, fewest], [7, ['a', 'b', 'c'], 3]);
  assert.deepEqual(splits.map((split) => [split.names, split.classes, split.needs]), [
    [[['a'], ['b', 'c']], [2, 3], 3],
    [[['a', 'b'], ['c']], [3, 2], 3],
    [[['a', 'c'], ['b']], [3, 2], 3],
  ]);
  assert.equal(sitgurp.fault(sum), null);
});

test('a glyph is printed, with its offsets', () => {
  const net = 'levels inputs\n2 2\nown left\nleft right table\nown left 0110\n';
  const picture = Uint8Array.of(0, 1, 1, 1, 0, 1);
  assert.deepEqual([...sitgurp.glyph(net, 3, 2, picture, [0, 0, -1, 0])], [0, 1, 0, 1, 1, 1]);
  for (const offset of [-3, 3, 255, 256, -256]) assert.equal(sitgurp.glyph(net, 3, 2, picture, [0, 0, offset, 0]).name, 'Offsets');
  assert.equal(sitgurp.glyph(net, 4, 2, picture, [0, 0, -1, 0]).name, 'Picture');
});

test('pictures are read and written as the Rust crate does', () => {
  const { pictureFromText, pictureToText, pictureFromPgm, pictureToPgm } = source;
  const picture = pictureFromText('.12\n3.0\n');
  assert.deepEqual(picture, { width: 3, height: 2, cells: Uint8Array.of(0, 1, 2, 3, 0, 0) });
  assert.equal(pictureToText(picture), '.12\n3..\n');
  assert.equal(pictureFromText('12\n3\n'), null);
  assert.equal(pictureFromText('1x\n33\n'), null);
  assert.equal(pictureToPgm(picture, 4), 'P2\n3 2\n3\n3 2 1\n0 3 3\n');
  assert.deepEqual(pictureFromPgm(pictureToPgm(picture, 4)), { picture, levels: 4 });
  assert.deepEqual(pictureFromPgm('P2 # a comment\n1 1\n# another\n3\n2\n'), { picture: { width: 1, height: 1, cells: Uint8Array.of(1) }, levels: 4 });
  const wrong = ['', 'P5\n1 1\n3\n2\n', 'P2\n1 1\n3\n4\n', 'P2\n2 1\n3\n2\n', 'P2\n1 1\n3\n-1\n', 'P2\n1 1\n255\n2\n'];
  for (const text of wrong) assert.equal(pictureFromPgm(text), null);
  const letter = new TextDecoder().decode(example('letter.pgm'));
  assert.equal(pictureToText(pictureFromPgm(letter).picture), new TextDecoder().decode(example('letter.txt')));
});

test('the examples come out as they are in the repository', () => {
  for (const name of ['shade', 'figure1', 'seven', 'export']) {
    const table = sitgurp.table(example(`${name}.table`));
    assert.equal(table.settled().sheet, new TextDecoder().decode(example(`${name}.net`)));
    assert.equal(table.settled().table().sheet, table.sheet);
  }
});

test('files of every kind are opened', () => {
  assert.equal(sitgurp.open(MAJORITY).kind, 'table');
  assert.equal(sitgurp.open(NET).kind, 'net');
  const rows = MAJORITY.trimEnd().split('\n');
  const shuffled = [...rows.slice(0, 3), ...rows.slice(3).reverse()].join('  \n');
  assert.equal(sitgurp.open(`${shuffled}\n`).kind, 'loose');
  const csv = sitgurp.open(`\ufeff${MAJORITY.replace(/ /g, ',').replace(/\n/g, '\r\n')}`);
  assert.equal(csv.kind, 'csv');
  assert.equal(csv.table.sheet, MAJORITY);
  assert.ok(source.isExplanation(sitgurp.open('x')));
  assert.equal(sitgurp.open(NET.replace('b 0', 'z 0')).refusal.sheet, 'net');
  // what is refused is explained as what it looks most like
  const alike = (text, reader, ...more) => assert.equal(sitgurp.open(text, 'f').toString(), sitgurp[reader](text, 'f', ...more).toString());
  alike(MAJORITY.replace('1 1 1 1\n', '1 1 1 7\n'), 'readTable');
  alike(MAJORITY.replace('1 1 0 1\n', ''), 'readTable');
  alike(MAJORITY.replace('1 1 1 1\n', '1 1 1 7\n').replace(/ /g, '  '), 'readLoose');
  alike(MAJORITY.replace('1 1 1 1\n', '1 1 1 7\n').replace(/ /g, ';'), 'readLoose', true);
  alike(NET.replace('b 0', 'z 0'), 'readNet');
  alike('', 'readTable');
  assert.throws(() => sitgurp.open(new Uint8Array(source.MOST_FILE + 1)), RangeError);
});

test('the memory does not grow from call to call', () => {
  const before = sitgurp.calls.memory.buffer.byteLength;
  for (let k = 0; k < 2000; k += 1) sitgurp.make(MAJORITY);
  assert.equal(sitgurp.calls.memory.buffer.byteLength, before);
});
