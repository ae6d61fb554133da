// A headless Chromium, spoken to over a pipe: its messages are JSON texts that end with a zero byte.
'use strict';
const { spawn } = require('child_process');

class Browser {
  constructor(program, folder) {
    this.calls = new Map();
    this.number = 0;
    this.errors = [];
    const words = ['--headless', '--disable-gpu', '--no-first-run', '--disable-extensions', '--disable-background-networking', '--disable-component-update', '--disable-crash-reporter', '--disable-dev-shm-usage', '--hide-scrollbars', `--user-data-dir=${folder}/profile`, '--remote-debugging-pipe'];
    if (process.getuid() === 0) words.push('--no-sandbox');
    // A group of its own, so that all of it ends with it; and no file outside the folder.
    this.process = spawn(program, words, {
      detached: true, stdio: ['ignore', 'ignore', 'ignore', 'pipe', 'pipe'],
      env: { ...process.env, HOME: folder, TMPDIR: folder, XDG_CONFIG_HOME: folder, XDG_CACHE_HOME: folder },
    });
    this.out = this.process.stdio[3];
    this.out.on('error', () => {});
    this.process.on('error', () => this.lost());
    this.process.on('exit', () => this.lost());
    let parts = [];
    this.process.stdio[4].on('data', (data) => {
      for (let end = data.indexOf(0); end >= 0; end = data.indexOf(0)) {
        parts.push(data.subarray(0, end));
        this.hear(JSON.parse(Buffer.concat(parts).toString()));
        parts = [];
        data = data.subarray(end + 1);
      }
      parts.push(data);
    });
  }

  hear(message) {
    if (message.method === 'Runtime.exceptionThrown') this.errors.push(message.params.exceptionDetails.exception?.description ?? message.params.exceptionDetails.text);
    const call = this.calls.get(message.id);
    if (!call) return;
    this.calls.delete(message.id);
    if (message.error) call.reject(new Error(message.error.message));
    else call.resolve(message.result);
  }

  lost() {
    for (const { reject } of this.calls.values()) reject(new Error('Chromium ended'));
    this.calls.clear();
  }

  call(method, params = {}) {
    return new Promise((resolve, reject) => {
      const id = ++this.number;
      this.calls.set(id, { resolve, reject });
      this.out.write(`${JSON.stringify({ id, method, params, sessionId: this.session })}\0`);
    });
  }

  async open(url) {
    const { targetId } = await this.call('Target.createTarget', { url: 'about:blank' });
    this.session = (await this.call('Target.attachToTarget', { targetId, flatten: true })).sessionId;
    await this.call('Runtime.enable');
    await this.call('Page.enable');
    await this.call('Page.navigate', { url });
  }

  size(width, height, scheme = 'light') {
    return Promise.all([
      this.call('Emulation.setDeviceMetricsOverride', { width, height, deviceScaleFactor: 1, mobile: false }),
      this.call('Emulation.setEmulatedMedia', { features: [{ name: 'prefers-color-scheme', value: scheme }] }),
    ]);
  }

  async value(expression) {
    const { result, exceptionDetails } = await this.call('Runtime.evaluate', { expression, awaitPromise: true, returnByValue: true });
    if (exceptionDetails) throw new Error(exceptionDetails.exception?.description ?? exceptionDetails.text);
    return result.value;
  }

  // Waits until the expression is true.
  async until(expression, seconds = 20) {
    for (const end = Date.now() + 1000 * seconds; Date.now() < end;) {
      if (await this.value(expression).catch(() => false)) return;
      await new Promise((resolve) => setTimeout(resolve, 50));
    }
    throw new Error(`not within ${seconds} seconds: ${expression}`);
  }

  async key(key) {
    await this.call('Input.dispatchKeyEvent', { type: 'keyDown', key, text: key.length === 1 ? key : undefined });
    await this.call('Input.dispatchKeyEvent', { type: 'keyUp', key });
  }

  async click(x, y) {
    await this.call('Input.dispatchMouseEvent', { type: 'mouseMoved', x, y });
    for (const type of ['mousePressed', 'mouseReleased']) await this.call('Input.dispatchMouseEvent', { type, x, y, button: 'left', clickCount: 1 });
  }

  // The middle of the element that the expression gives.
  middle(expression) {
    return this.value(`(() => { const box = (${expression}).getBoundingClientRect(); return [box.left + box.width / 2, box.top + box.height / 2]; })()`);
  }

  async picture() {
    return Buffer.from((await this.call('Page.captureScreenshot', { format: 'png' })).data, 'base64');
  }

  async close() {
    const { process: browser } = this;
    if (browser.pid === undefined) return;
    const ended = new Promise((resolve) => { if (browser.exitCode !== null || browser.signalCode !== null) resolve(); else browser.once('exit', resolve); });
    this.session = undefined;
    this.call('Browser.close').catch(() => {});
    await Promise.race([ended, new Promise((resolve) => setTimeout(resolve, 3000).unref())]);
    try { process.kill(-browser.pid, 'SIGKILL'); } catch { /* all of it has ended */ }
  }
}

module.exports = { Browser };
