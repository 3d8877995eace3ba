// Starts Chromium and talks to it through its debugging pipe: file descriptors 3 and 4, one JSON message after another, each ended by a zero byte.
// The pipe needs no socket, so this runs in every node from 18 on, with no packages.
import { spawn } from 'node:child_process';
import { mkdtempSync, rmSync } from 'node:fs';
import { tmpdir } from 'node:os';
import { join } from 'node:path';
import { Tab } from './tab.mjs';

const FLAGS = [
  '--headless=new', '--remote-debugging-pipe', '--no-first-run', '--no-default-browser-check', '--disable-extensions', '--disable-gpu',
  '--disable-background-networking', '--disable-component-update', '--disable-sync', '--disable-default-apps', '--disable-dev-shm-usage',
  '--mute-audio', '--hide-scrollbars', '--force-color-profile=srgb', '--disable-features=Translate,MediaRouter,OptimizationHints',
];

// Returns the flags for a profile in that folder. Chromium refuses to run as root inside its sandbox.
function flags(profile) {
  const root = process.getuid && process.getuid() === 0;
  return [...FLAGS, ...(root ? ['--no-sandbox'] : []), `--user-data-dir=${profile}`, 'about:blank'];
}

export class Browser {
  // Starts the program with a new profile in a temporary folder.
  constructor(program) {
    this.folder = mkdtempSync(join(tmpdir(), 'sitgurp-browser-'));
    this.child = spawn(program, flags(join(this.folder, 'profile')), { stdio: ['ignore', 'ignore', 'pipe', 'pipe', 'pipe'] });
    this.errors = '';
    this.number = 0;
    this.waiting = new Map();
    this.listeners = new Map();
    this.rest = [];
    this.child.stderr.on('data', (bytes) => { this.errors = (this.errors + bytes).slice(-4000); });
    this.child.stdio[4].on('data', (bytes) => this.#receive(bytes));
    this.child.stdio[3].on('error', () => {});
    this.ended = new Promise((resolve) => {
      this.child.once('error', (error) => resolve(this.#fail(error)));
      this.child.once('exit', () => resolve(this.#fail(new Error(`Chromium has ended: ${this.errors}`))));
    });
  }

  // Splits what the pipe gives at zero bytes and handles each complete message.
  #receive(bytes) {
    let start = 0;
    for (let end = bytes.indexOf(0); end >= 0; end = bytes.indexOf(0, start)) {
      this.rest.push(bytes.subarray(start, end));
      this.#handle(JSON.parse(Buffer.concat(this.rest).toString('utf8')));
      this.rest = [];
      start = end + 1;
    }
    if (start < bytes.length) this.rest.push(bytes.subarray(start));
  }

  // Gives an answer to the call that waits for it, an event to its tab, and an event of the whole browser to every tab.
  #handle(message) {
    if (message.id !== undefined) {
      const { method, resolve, reject } = this.waiting.get(message.id);
      this.waiting.delete(message.id);
      if (message.error) reject(new Error(`${method}: ${message.error.message}`));
      else resolve(message.result);
    } else if (message.sessionId) {
      this.listeners.get(message.sessionId)?.(message.method, message.params);
    } else {
      for (const listener of this.listeners.values()) listener(message.method, message.params);
    }
  }

  // Ends every waiting call with that error.
  #fail(error) {
    for (const { reject } of this.waiting.values()) reject(error);
    this.waiting.clear();
    this.broken = error;
  }

  // Calls a method of the protocol and returns its result.
  send(method, params = {}, sessionId = undefined) {
    if (this.broken) return Promise.reject(this.broken);
    const id = ++this.number;
    return new Promise((resolve, reject) => {
      this.waiting.set(id, { method, resolve, reject });
      this.child.stdio[3].write(`${JSON.stringify({ id, method, params, sessionId })}\0`);
    });
  }

  // Opens a new tab, in a storage of its own: nothing is left of what other tabs stored.
  async tab(screens) {
    const { browserContextId } = await this.send('Target.createBrowserContext');
    const { targetId } = await this.send('Target.createTarget', { url: 'about:blank', browserContextId });
    const { sessionId } = await this.send('Target.attachToTarget', { targetId, flatten: true });
    const tab = new Tab({ screens, folder: this.folder, context: browserContextId, send: (method, params) => this.send(method, params, sessionId),
      browserSend: (method, params) => this.send(method, params), targetId });
    this.listeners.set(sessionId, (method, params) => tab.hear(method, params));
    await tab.prepare();
    return tab;
  }

  // Ends Chromium and removes its profile.
  async close() {
    const timer = setTimeout(() => this.child.kill('SIGKILL'), 5000);
    await this.send('Browser.close').catch(() => {});
    await this.ended;
    clearTimeout(timer);
    rmSync(this.folder, { recursive: true, force: true, maxRetries: 5, retryDelay: 200 });
  }
}
