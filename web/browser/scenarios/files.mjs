// Scenarios of opening: good files of every kind, and bad ones that change nothing.
import assert from 'node:assert/strict';
import { spawnSync } from 'node:child_process';
import { basename, dirname, join } from 'node:path';

// Returns what the command says about a file, or null if the command is not built. The last line may say what to do next on the command line.
function commandSays(path) {
  if (!process.env.SITGURP) return null;
  const { stderr } = spawnSync(process.env.SITGURP, [path.endsWith('.net') ? 'settle' : 'make', basename(path)], { cwd: dirname(path), encoding: 'utf8' });
  return stderr;
}

// Drops bad files. Each gets words with line and caret, the same as the command's, and the work stays.
async function bad(person) {
  await person.openExample('shade.table');
  const before = await person.sheet();
  const files = [
    ['missing-row.table', 'levels inputs\n2 2\nday near ink\n0 0 0\n1 0 1\n1 1 1\n', /missing-row\.table:5:1: .*\(refusal 5\).*1 0 1 \^/],
    ['large.table', 'levels inputs\n9 9\na b c d e f g h i ink\n', /large\.table:2:3: .*\(refusal 3\)/],
    ['names.table', 'levels inputs\n2 2\nday Near ink\n', /names\.table:3:5: .*\(refusal 4\)/],
    ['bytes.bin', Buffer.from([0, 255, 1, 2, 10, 13, 200]), /bytes\.bin.*refusal 1/],
    ['empty.table', '', /empty\.table.*refusal 1/],
    ['bad.net', 'levels inputs\n2 2\na b\nleft right table\na a 0001\n', /bad\.net:5:3: .*\(refusal 8\)/],
  ];
  for (const [name, content, words] of files) {
    const path = person.file(name, content);
    await person.drop(path);
    await person.reads('#notice', words);
    const shown = await person.tab.run(() => document.querySelector('#notice pre').textContent);
    const said = commandSays(path);
    assert.ok(said === null || said.startsWith(shown.trimEnd()), `the page says:\n${shown}\nand the command:\n${said}`);
    assert.equal(await person.sheet(), before, `${name} changes nothing`);
    if (name === 'missing-row.table') await person.shot('bad-file');
  }
  await person.drop(person.examples);
  await person.reads('#notice', 'the browser cannot read this');
  assert.equal(await person.sheet(), before, 'a folder changes nothing');
  await person.tab.click('#notice button', 'Close');
  assert.equal(await person.text('#notice'), '');
}

// Opens a loose sheet, a CSV file and a net sheet.
async function kinds(person) {
  await person.open();
  await person.drop(join(person.examples, 'export.txt'));
  assert.equal(await person.sheet(), person.example('export.table'));
  const csv = person.example('export.table').split('\n').slice(2).join('\n').replaceAll(' ', ',');
  await person.drop(person.file('sheet.csv', `levels,inputs\n3,2\n${csv}`));
  assert.equal(await person.sheet(), person.example('export.table'));
  await person.drop(join(person.examples, 'figure1.net'));
  assert.equal(await person.sheet(), person.example('figure1.table'));
  await person.reads('#panel-tree', 'All 3 gate tables are as pinned.');
}

// Chooses a file in the file dialog.
async function dialog(person) {
  await person.open();
  await person.tab.choose('#file', [join(person.examples, 'seven.table')]);
  await person.tab.until('the table', (sheet) => window.sitgurp.model.sheet === sheet, person.example('seven.table'));
}

// Pastes a sheet, and then nonsense.
async function paste(person) {
  await person.open();
  const put = (text) => person.tab.run((pasted) => {
    const data = new DataTransfer();
    data.setData('text/plain', pasted);
    document.body.dispatchEvent(new ClipboardEvent('paste', { clipboardData: data, bubbles: true, cancelable: true }));
  }, text);
  await put(person.example('majority.table'));
  await person.settled();
  assert.equal(await person.sheet(), person.example('majority.table'));
  await put('hello');
  await person.reads('#notice', /refusal 1/);
  assert.equal(await person.sheet(), person.example('majority.table'));
}

export const files = [
  ['drop bad files', bad],
  ['open every kind of file', kinds],
  ['choose a file', dialog],
  ['paste a sheet', paste],
];
