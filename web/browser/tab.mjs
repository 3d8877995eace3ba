// A tab of the browser, used like a person uses it: real mouse and key events, files dropped from disk, pictures of what is on the screen.
import { mkdirSync, writeFileSync } from 'node:fs';
import { join } from 'node:path';
import { keyParams } from './keys.mjs';

const pause = (milliseconds) => new Promise((resolve) => setTimeout(resolve, milliseconds));

// Finds an element in the page: the first visible match of a selector, or the one whose name (label or text) equals or begins with the wanted one.
function locate(selector, name, scroll) {
  const nameOf = (element) => (element.getAttribute('aria-label') || element.labels?.[0]?.textContent || element.textContent || element.value || '')
    .replace(/\s+/g, ' ').trim();
  const shown = [...document.querySelectorAll(selector)].filter((element) => element.getClientRects().length > 0);
  const found = name === undefined ? shown[0]
    : shown.find((element) => nameOf(element) === name) ?? shown.find((element) => nameOf(element).startsWith(name));
  if (!found) return null;
  if (scroll) {
    const { top, bottom, left, right } = found.getBoundingClientRect();
    if (top < 0 || left < 0 || bottom > innerHeight || right > innerWidth) found.scrollIntoView({ block: 'center', inline: 'center', behavior: 'instant' });
  }
  const { x, y, width, height } = found.getBoundingClientRect();
  return { x, y, width, height, text: nameOf(found), disabled: Boolean(found.disabled) };
}

export class Tab {
  constructor(parts) {
    Object.assign(this, parts);
    this.downloads = join(this.folder, `downloads-${this.targetId}`);
    this.faults = [];
    this.requests = [];
    this.dialogs = [];
    this.finished = new Map();
    this.names = new Map();
    this.events = [];
    this.loads = 0;
    this.modifiers = 0;
  }

  // Turns on what is listened to, and sends downloads to a folder of the tab's own.
  async prepare() {
    mkdirSync(this.downloads, { recursive: true });
    mkdirSync(this.screens, { recursive: true });
    for (const domain of ['Page', 'Runtime', 'Log', 'Network', 'DOM', 'Accessibility']) await this.send(`${domain}.enable`);
    await this.browserSend('Browser.setDownloadBehavior',
      { behavior: 'allow', downloadPath: this.downloads, browserContextId: this.context, eventsEnabled: true });
    await this.resize(1280, 900);
    await this.theme('light');
  }

  // Notes what the browser reports: faults of the page, requests, downloads and dialogs.
  hear(method, params) {
    if (method === 'Page.loadEventFired') this.loads += 1;
    if (method === 'Runtime.exceptionThrown') this.faults.push(params.exceptionDetails.exception?.description ?? params.exceptionDetails.text);
    if (method === 'Runtime.consoleAPICalled' && params.type === 'error') this.faults.push(params.args.map((arg) => arg.value ?? arg.description).join(' '));
    if (method === 'Log.entryAdded' && params.entry.level === 'error') this.faults.push(params.entry.text);
    if (method === 'Network.requestWillBeSent') this.requests.push(params.request.url);
    if (method === 'Browser.downloadWillBegin' && params.frameId === this.targetId) this.names.set(params.guid, params.suggestedFilename);
    if (method === 'Browser.downloadProgress' && params.state === 'completed') this.finished.set(this.names.get(params.guid), params.guid);
    if (method === 'Tracing.dataCollected') this.events.push(...params.value);
    if (method === 'Tracing.tracingComplete') this.complete();
    if (method === 'Page.javascriptDialogOpening') {
      this.dialogs.push(params.message);
      this.send('Page.handleJavaScriptDialog', { accept: true }).catch(() => {});
    }
  }

  // Opens an address and waits until it has loaded.
  async open(url) {
    const before = this.loads;
    await this.send('Page.navigate', { url });
    await this.#loaded(before);
  }

  // Loads the page again.
  async reload() {
    const before = this.loads;
    await this.send('Page.reload');
    await this.#loaded(before);
  }

  // Waits for one more page than there were before.
  async #loaded(before) {
    for (let turn = 0; this.loads === before; turn += 1) {
      if (turn > 600) throw new Error('the page did not load within 30 seconds');
      await pause(50);
    }
  }

  // Runs a function in the page and returns what it returns.
  async run(code, ...args) {
    const expression = `(${code})(${args.map((arg) => (arg === undefined ? 'undefined' : JSON.stringify(arg))).join(', ')})`;
    const { result, exceptionDetails } = await this.send('Runtime.evaluate', { expression, awaitPromise: true, returnByValue: true });
    if (exceptionDetails) throw new Error(exceptionDetails.exception?.description ?? exceptionDetails.text);
    return result.value;
  }

  // Waits until a function in the page returns something true, and returns it.
  async until(what, code, ...args) {
    for (let turn = 0; turn < 400; turn += 1) {
      const value = await this.run(code, ...args);
      if (value) return value;
      await pause(25);
    }
    throw new Error(`waited 10 seconds for this: ${what}`);
  }

  // Waits for an element that can be seen, scrolls it into view and returns its box.
  async find(selector, name = undefined) {
    for (let turn = 0; turn < 200; turn += 1) {
      const box = await this.run(locate, selector, name, true);
      if (box && box.width > 0) return box;
      await pause(25);
    }
    throw new Error(`not on the page: ${selector}${name === undefined ? '' : ` named "${name}"`}`);
  }

  // Tells whether an element can be seen now.
  async shows(selector, name = undefined) {
    return (await this.run(locate, selector, name, false)) !== null;
  }

  // Sends one mouse event.
  mouse(type, x, y, more = {}) {
    return this.send('Input.dispatchMouseEvent', { type, x, y, modifiers: this.modifiers, ...more });
  }

  // Moves the pointer onto an element.
  async point(selector, name = undefined) {
    const box = await this.find(selector, name);
    await this.mouse('mouseMoved', box.x + box.width / 2, box.y + box.height / 2);
    return box;
  }

  // Clicks in the middle of an element.
  async click(selector, name = undefined) {
    const box = await this.point(selector, name);
    if (box.disabled) throw new Error(`cannot be clicked: ${selector} "${box.text}"`);
    await this.clickAt(box.x + box.width / 2, box.y + box.height / 2);
  }

  // Clicks at a point of the screen.
  async clickAt(x, y) {
    await this.mouse('mouseMoved', x, y);
    await this.mouse('mousePressed', x, y, { button: 'left', buttons: 1, clickCount: 1 });
    await this.mouse('mouseReleased', x, y, { button: 'left', buttons: 0, clickCount: 1 });
  }

  // Presses at the first of some points, moves through the others and lets go. between() runs after each move.
  async stroke(points, between = async () => {}) {
    await this.mouse('mouseMoved', points[0].x, points[0].y);
    await this.mouse('mousePressed', points[0].x, points[0].y, { button: 'left', buttons: 1, clickCount: 1 });
    for (const point of points.slice(1)) {
      await this.mouse('mouseMoved', point.x, point.y, { button: 'left', buttons: 1 });
      await between();
    }
    const last = points[points.length - 1];
    await this.mouse('mouseReleased', last.x, last.y, { button: 'left', buttons: 0, clickCount: 1 });
  }

  // Presses a key, such as 'ArrowLeft' or 'Control+z'.
  async key(name) {
    const params = keyParams(name);
    await this.send('Input.dispatchKeyEvent', { type: params.text ? 'keyDown' : 'rawKeyDown', ...params });
    await this.send('Input.dispatchKeyEvent', { type: 'keyUp', ...params, text: undefined });
  }

  // Types a text key by key.
  async type(text) {
    for (const letter of text) await this.key(letter === '\n' ? 'Enter' : letter);
  }

  // Replaces what a field holds by a text.
  async fill(selector, text, name = undefined) {
    await this.click(selector, name);
    await this.run(() => document.activeElement.select?.());
    await this.send('Input.insertText', { text });
  }

  // Drops files from disk onto the part of an element that can be seen.
  async drop(selector, files) {
    const box = await this.find(selector);
    const data = { items: [], files, dragOperationsMask: 1 };
    const [top, bottom] = [Math.max(box.y, 0), Math.min(box.y + box.height, this.height)];
    const at = { x: box.x + box.width / 2, y: (top + bottom) / 2, data };
    for (const type of ['dragEnter', 'dragOver', 'drop']) await this.send('Input.dispatchDragEvent', { type, ...at });
  }

  // Chooses files in a file field, as the file dialog would.
  async choose(selector, files) {
    const { root } = await this.send('DOM.getDocument');
    const { nodeId } = await this.send('DOM.querySelector', { nodeId: root.nodeId, selector });
    if (!nodeId) throw new Error(`not on the page: ${selector}`);
    await this.send('DOM.setFileInputFiles', { nodeId, files });
  }

  // Waits until a file of that name has been downloaded, and returns its path.
  async downloaded(name) {
    for (let turn = 0; turn < 200; turn += 1) {
      if (this.finished.has(name)) return join(this.downloads, name);
      await pause(25);
    }
    throw new Error(`no file ${name} was downloaded, but: ${[...this.finished.keys()].join(', ') || 'none'}`);
  }

  // Ends a recording of the browser's work and returns its events.
  async traced() {
    const complete = new Promise((resolve) => { this.complete = resolve; });
    await this.send('Tracing.end');
    await complete;
    return this.events.splice(0);
  }

  // Gives the screen a size, in pixels.
  async resize(width, height) {
    this.height = height;
    await this.send('Emulation.setDeviceMetricsOverride', { width, height, deviceScaleFactor: 1, mobile: false });
  }

  // Asks for a light or a dark page, on the screen or on paper.
  async theme(scheme, media = '') {
    await this.send('Emulation.setEmulatedMedia', { media, features: [{ name: 'prefers-color-scheme', value: scheme }] });
  }

  // Saves a picture of the whole page, from top to bottom.
  async shot(name) {
    const { cssContentSize } = await this.send('Page.getLayoutMetrics');
    const width = Math.ceil(cssContentSize.width);
    const height = Math.min(Math.ceil(cssContentSize.height), 6000);
    const { data } = await this.send('Page.captureScreenshot', { captureBeyondViewport: true, clip: { x: 0, y: 0, width, height, scale: 1 } });
    writeFileSync(join(this.screens, `${name}.png`), Buffer.from(data, 'base64'));
  }

  // Closes the tab and forgets what it stored.
  async close() {
    await this.browserSend('Target.disposeBrowserContext', { browserContextId: this.context });
  }
}
