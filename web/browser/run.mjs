// Runs the scenarios in Chromium: node run.mjs CHROMIUM PAGE SCREENS EXAMPLES [WORD ..]. With words, only scenarios whose names contain one of them.
// Prints a line for each, and at the end how many passed and failed. The status is 1 if one failed.
import { resolve } from 'node:path';
import { pathToFileURL } from 'node:url';
import { Browser } from './chromium.mjs';
import { Person } from './person.mjs';
import { scenarios } from './scenarios.mjs';

const [program, ...paths] = process.argv.slice(2, 6);
const [file, screens, examples] = paths.map((path) => resolve(path));
const words = process.argv.slice(6);
const address = pathToFileURL(file).href;
// How long one scenario may take, in milliseconds.
const LIMIT = Number(process.env.SCENARIO_SECONDS ?? 180) * 1000;

// Ends with an error if the time is over before a promise is settled.
function within(milliseconds, promise) {
  let timer;
  const late = new Promise((_, reject) => { timer = setTimeout(() => reject(new Error(`took more than ${milliseconds / 1000} seconds`)), milliseconds); });
  return Promise.race([promise, late]).finally(() => clearTimeout(timer));
}

// Returns what is wrong with a tab after a scenario: errors in the page, and requests to anywhere but the pages that the person opened.
function complaints(tab, person) {
  const strange = tab.requests.filter((url) => !person.opened.has(url.split('#')[0]) && !/^(blob|data|about):/.test(url));
  return [...tab.faults.map((fault) => `the page reports: ${fault}`), ...strange.map((url) => `the page requested ${url}`)];
}

// Runs one scenario in a tab of its own. Returns what went wrong, null if nothing.
async function played(browser, [name, scenario]) {
  const tab = await within(LIMIT, browser.tab(screens));
  const person = new Person(tab, address, examples);
  try {
    await within(LIMIT, scenario(person));
    const wrong = complaints(tab, person);
    return wrong.length > 0 ? wrong.join('\n    ') : null;
  } catch (error) {
    await tab.shot(`failed-${name.replace(/\W+/g, '-')}`).catch(() => {});
    return [error.message, ...complaints(tab, person)].join('\n    ');
  } finally {
    await tab.close().catch(() => {});
  }
}

const chosen = scenarios.filter(([name]) => words.length === 0 || words.some((word) => name.includes(word)));
const browser = new Browser(program);
// a run that is stopped leaves no browser and no profile behind
for (const signal of ['SIGINT', 'SIGTERM']) process.once(signal, () => browser.close().finally(() => process.exit(1)));
let failed = 0;
try {
  for (const scenario of chosen) {
    const start = Date.now();
    const wrong = await played(browser, scenario);
    if (wrong) failed += 1;
    console.log(`${wrong ? 'failed' : 'passed'}: ${scenario[0]} (${((Date.now() - start) / 1000).toFixed(1)} s)${wrong ? `\n    ${wrong}` : ''}`);
  }
} finally {
  await browser.close();
}
console.log(`browser: ${chosen.length - failed} passed, ${failed} failed`);
process.exitCode = failed > 0 || chosen.length === 0 ? 1 : 0;
