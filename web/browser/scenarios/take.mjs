// Scenarios of the Take-it-away panel.
import assert from 'node:assert/strict';
import { readFileSync, writeFileSync } from 'node:fs';
import { join } from 'node:path';

// Saves every kind of file and looks into it.
async function files(person) {
  await person.openExample('shade.table');
  await person.panel('Take it away');
  await person.tab.fill('#panel-take input', 'my rule', 'Name of the files');
  const take = async (name, file) => {
    await person.tab.click('#panel-take button', name);
    return readFileSync(await person.tab.downloaded(file));
  };
  assert.equal((await take('Table sheet', 'my-rule.table')).toString(), person.example('shade.table'));
  assert.equal((await take('Net sheet', 'my-rule.net')).toString(), person.example('shade.net'));
  assert.match((await take('Tree as SVG', 'my-rule.svg')).toString(), /^<svg [\s\S]*gate 2[\s\S]*<\/svg>\n$/);
  const png = await take('Tree as PNG', 'my-rule.png');
  assert.equal(png.subarray(1, 4).toString(), 'PNG');
  assert.ok(png.readUInt32BE(16) > 300 && png.readUInt32BE(20) > 200, 'the picture is large enough');
  writeFileSync(join(person.tab.screens, 'saved-tree.png'), png);
  await person.shot('take');
}

// Opens the link in another tab: the table is in it, and undo leads back to what was there.
async function link(person) {
  await person.openExample('seven.table');
  await person.panel('Take it away');
  const address = await person.tab.run(() => document.querySelector('textarea[aria-label^="Link"]').value);
  await person.tab.open('about:blank');
  await person.open(address.slice(address.indexOf('#')));
  assert.equal(await person.sheet(), person.example('seven.table'));
}

// Prints on paper.
async function paper(person) {
  await person.openExample('shade.table');
  const { data } = await person.tab.send('Page.printToPDF', { printBackground: true });
  const pdf = Buffer.from(data, 'base64');
  assert.ok(pdf.length > 5000);
  writeFileSync(join(person.tab.screens, 'paper.pdf'), pdf);
  await person.tab.theme('light', 'print');
  await person.tab.resize(794, 1123);
  await person.frame();
  await person.shot('paper');
  assert.ok(await person.tab.shows('svg.tree'), 'the tree is on paper');
  assert.ok((await person.tab.shows('#map')) || (await person.tab.shows('.printed-map')), 'the table is on paper');
}

export const take = [
  ['save files', files],
  ['open a link', link],
  ['print on paper', paper],
];
