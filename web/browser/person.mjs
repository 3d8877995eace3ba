// What a person does on the page: opens it, points at cells of the map, reads what it says.
import assert from 'node:assert/strict';
import { mkdtempSync, readFileSync, writeFileSync } from 'node:fs';
import { join } from 'node:path';

export class Person {
  constructor(tab, address, examples) {
    this.tab = tab;
    this.address = address;
    this.examples = examples;
    this.opened = new Set();
  }

  // Opens the page, with a part behind `#` if one is given, and waits until it shows a result.
  async open(fragment = '') {
    await this.visit(this.address + fragment);
    await this.ready();
  }

  // Opens an address and waits until it has loaded.
  async visit(address) {
    this.opened.add(address.split('#')[0]);
    await this.tab.open(address);
  }

  // Opens the page and drops an example onto it.
  async openExample(name) {
    await this.open();
    await this.drop(join(this.examples, name));
  }

  // Waits until the page has started and shows a result.
  async ready() {
    await this.tab.until('the page to start', () => window.sitgurp !== undefined);
    await this.settled();
  }

  // Waits until the library has answered for the table as it is now.
  async settled() {
    await this.tab.until('the result', () => {
      const { model } = window.sitgurp;
      return model.result.state !== 'working' && model.isCurrent(model.result);
    });
    await this.frame();
  }

  // Waits until what has changed is on the screen.
  frame() {
    return this.tab.run(() => new Promise((resolve) => requestAnimationFrame(() => requestAnimationFrame(resolve))).then(() => true));
  }

  // Drops a file onto the page.
  async drop(path) {
    await this.tab.drop('#paint', [path]);
    await this.tab.run(() => new Promise((resolve) => setTimeout(resolve, 60)));
    await this.settled();
  }

  // Writes a file of some bytes into the browser's temporary folder and returns its path.
  file(name, content) {
    const path = join(mkdtempSync(join(this.tab.folder, 'file-')), name);
    writeFileSync(path, content);
    return path;
  }

  // Returns the text of an example.
  example(name) {
    return readFileSync(join(this.examples, name), 'utf8');
  }

  // Returns the table sheet of what is painted.
  sheet() {
    return this.tab.run(() => window.sitgurp.model.sheet);
  }

  // Returns what the page knows about the table: its state, the number of trees, the layers, and the net that is shown.
  result() {
    return this.tab.run(() => {
      const { state, count, layers, net } = window.sitgurp.model.result;
      return { state, count: String(count), layers, net: net?.sheet ?? null };
    });
  }

  // Returns where the cells of some indices are on the screen. If one is outside, the page is scrolled so that the first is in the middle.
  async cells(indexes) {
    await this.tab.until('the map', () => Number(document.getElementById('map')?.dataset.cell) > 0);
    const points = await this.tab.run((wanted) => {
      const map = document.getElementById('map');
      const { doc } = window.sitgurp.model;
      const [left, top, size] = ['left', 'top', 'cell'].map((key) => Number(map.dataset[key]));
      const place = (inputs, index) => inputs.reduce((at, input) => at * doc.m + (Math.floor(index / doc.m ** (doc.n - 1 - input)) % doc.m), 0);
      const all = () => {
        const box = map.getBoundingClientRect();
        const at = (start, inputs, index) => start + (place(inputs, index) + 0.5) * size;
        return wanted.map((index) => ({ x: at(box.left + left, doc.across, index), y: at(box.top + top, doc.down, index) }));
      };
      if (all().some(({ y }) => y < 2 || y > innerHeight - 2)) scrollBy({ top: all()[0].y - innerHeight / 2, behavior: 'instant' });
      return all().map((point) => ({ ...point, inside: document.elementFromPoint(point.x, point.y)?.closest('#map') === map }));
    }, indexes);
    const outside = points.findIndex(({ inside }) => !inside);
    if (outside >= 0) throw new Error(`cell ${indexes[outside]} is not on the screen: ${JSON.stringify(points[outside])}`);
    return points;
  }

  // Clicks on the cell of an index.
  async clickCell(index) {
    const [{ x, y }] = await this.cells([index]);
    await this.tab.clickAt(x, y);
    await this.settled();
  }

  // Draws one stroke through the cells of some indices.
  async strokeCells(indexes) {
    await this.tab.stroke(await this.cells(indexes));
    await this.settled();
  }

  // Chooses the ink of the pen: a digit, or `-` to leave cells open.
  async pen(sign) {
    await this.tab.click('.palette label', sign);
  }

  // Chooses an entry of a list of choices by its value.
  async select(selector, value) {
    await this.tab.find(selector);
    await this.tab.run((wanted, entry) => {
      const list = document.querySelector(wanted);
      if (![...list.options].some((option) => option.value === entry && !option.disabled)) throw new Error(`${entry} is no choice of ${wanted}`);
      list.value = entry;
      list.dispatchEvent(new Event('change', { bubbles: true }));
    }, selector, value);
    await this.settled();
  }

  // Shows a tab of the right column.
  async panel(name) {
    await this.tab.click('#tabs [role=tab]', name);
    await this.frame();
  }

  // Returns the text that an element shows, with single spaces.
  async text(selector) {
    return this.tab.run((wanted) => (document.querySelector(wanted)?.innerText ?? '').replace(/\s+/g, ' ').trim(), selector);
  }

  // Fails unless an element shows a text, now or soon.
  async reads(selector, pattern) {
    for (let turn = 0; ; turn += 1) {
      const text = await this.text(selector);
      if (pattern instanceof RegExp ? pattern.test(text) : text.includes(pattern)) return text;
      if (turn === 120) assert.fail(`${selector} should show ${pattern}, and shows: ${text.slice(0, 400)}`);
      await new Promise((resolve) => setTimeout(resolve, 25));
    }
  }

  // Saves a picture of the page.
  shot(name) {
    return this.tab.shot(name);
  }
}
