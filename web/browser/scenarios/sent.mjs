// Scenarios of a page that the command writes: `sitgurp page mine.table`. They need the command, and are left out if it is not built.
import assert from 'node:assert/strict';
import { execFileSync } from 'node:child_process';
import { join } from 'node:path';
import { fileURLToPath, pathToFileURL } from 'node:url';
import { faint } from '../access.mjs';

// Writes the page of an example and returns its address.
function written(person, example) {
  const file = person.file('sent.html', '');
  const env = { ...process.env, SITGURP_PAGE: fileURLToPath(person.address) };
  execFileSync(process.env.SITGURP, ['page', join(person.examples, example), '-o', file], { env });
  return pathToFileURL(file).href;
}

// Opens a page with a table inside: it starts with that table, and what is painted stays after a reload.
async function inside(person) {
  person.address = written(person, 'figure1.table');
  await person.open();
  assert.equal(await person.sheet(), person.example('figure1.table'));
  await person.clickCell(0);
  const painted = await person.sheet();
  await person.tab.run(() => new Promise((resolve) => setTimeout(resolve, 400)));
  await person.tab.reload();
  await person.ready();
  assert.equal(await person.sheet(), painted);
}

// Opens such pages where scripts are forbidden: table, tree and reasons are there all the same.
async function withoutScripts(person) {
  await person.tab.send('Emulation.setScriptExecutionDisabled', { value: true });
  for (const [example, words] of [['figure1.table', /figure1\.table.*gate 3/s], ['majority.table', /majority\.table.*At fault are a, b and c/s]]) {
    await person.visit(written(person, example));
    assert.match(await person.text('#static'), words);
    assert.equal(await person.tab.run(() => document.getElementById('app').hidden), true);
    for (const scheme of ['light', 'dark']) {
      await person.tab.theme(scheme);
      assert.deepEqual(await faint(person.tab), [], scheme);
      await person.shot(`without-scripts-${scheme}-${example.split('.')[0]}`);
    }
  }
}

export const sent = process.env.SITGURP ? [
  ['a page with a table inside', inside],
  ['without scripts', withoutScripts],
] : [];
