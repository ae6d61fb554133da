// Tests of the page in headless Chromium: `node page.js CHROMIUM FOLDER`. It writes to that folder alone.
'use strict';
const fs = require('fs');
const path = require('path');
const assert = require('assert');
const { pathToFileURL } = require('url');
const { Browser } = require('./browser.js');
const examples = require('./examples.js');

const [program, folder] = process.argv.slice(2);
const page = pathToFileURL(path.join(__dirname, '..', 'index.html')).href;
const isShown = (id) => `!document.getElementById(${JSON.stringify(id)}).hidden`;
const textOf = (id) => `document.getElementById(${JSON.stringify(id)}).textContent`;

const box = (tag) => `document.querySelector('.box[data-tag="${tag}"]')`;

async function openText(browser, name, text) {
  await browser.value(`fabric.page.openBytes(${JSON.stringify(name)}, async () => new TextEncoder().encode(${JSON.stringify(text)}))`);
}

async function welcome(browser) {
  await browser.until(`globalThis.fabric?.page && ${isShown('welcome')}`);
  const names = examples.reports().map(({ name }) => name).filter((name) => !name.includes('.'));
  assert.deepStrictEqual(await browser.value(`[...document.querySelectorAll('#example-list a')].map((link) => link.textContent)`), names);
}

// Each example opens, and at the end of the last mount of each surface as many boxes stand as it prints last views.
async function everyExample(browser) {
  for (const { name, bytes } of examples.reports()) {
    const text = bytes.toString('latin1');
    if (name.includes('.')) {
      await openText(browser, name, text);
      assert.ok(await browser.value(isShown('error')), name);
      assert.match(await browser.value(textOf('error-text')), /^Line 1: /);
      continue;
    }
    await browser.value(`location.hash = '#example=${name}'`);
    await browser.until(`${isShown('run')} && ${textOf('name')} === 'examples/${name}.report'`);
    const surfaces = text.split('\n').filter((line) => line.startsWith('views ')).length;
    for (let s = 0; s < surfaces; s++) {
      await browser.value(`fabric.page.goTo(${s}, Infinity, Infinity)`);
      const lines = text.split('\n');
      const from = lines.indexOf(lines.filter((line) => line.startsWith('views '))[s]) + 1;
      const tags = [];
      for (let i = from; lines[i].startsWith('view '); i++) tags.push(lines[i].split(' ')[1]);
      assert.deepStrictEqual(await browser.value(`[...document.querySelectorAll('.box:not(.deleted)')].map((one) => one.dataset.tag)`), tags, name);
    }
  }
}

async function stepped(browser) {
  await browser.value(`location.hash = '#example=reordered-tabs&mount=2&step=0'`);
  await browser.until(`fabric.page.where.mount === 1 && fabric.page.where.step === 0`);
  for (let step = 1; step <= 9; step++) {
    await browser.key('ArrowRight');
    assert.strictEqual(await browser.value('fabric.page.where.step'), step);
    assert.strictEqual(await browser.value(`Number(document.querySelector('#mutations .here u').textContent)`), step);
  }
  assert.ok(await browser.value(`${box(3)}.classList.contains('moved')`));
  await browser.key('Home');
  assert.strictEqual(await browser.value('fabric.page.where.step'), 0);
  await browser.key('End');
  await browser.key('ArrowLeft');
  assert.strictEqual(await browser.value('fabric.page.where.step'), 8);
  assert.ok(await browser.value(`${box(4)}.classList.contains('removed')`));
  await browser.key('PageUp');
  assert.strictEqual(await browser.value('fabric.page.where.mount'), 0);
}

async function clicked(browser) {
  await browser.value(`location.hash = '#example=state-carried-over&mount=2'`);
  await browser.until(`fabric.page.where?.mount === 1 && ${box(2)}`);
  const [x, y] = await browser.middle(box(2));
  await browser.click(x, y);
  assert.strictEqual(await browser.value('fabric.page.where.selected'), 2);
  const details = await browser.value(textOf('detail-list'));
  for (const words of ['scroll', '0, 120; count 1', '320 × 400', 'list']) assert.ok(details.includes(words), details);
  // The mount in the time line.
  const lanes = await browser.value(`(() => { const box = document.getElementById('lane-canvas').getBoundingClientRect(); return [box.left, box.top]; })()`);
  await browser.click(lanes[0] + 132 + 1.5 * 46, lanes[1] + 18 + 22 + 11);
  assert.strictEqual(await browser.value('fabric.page.where.mount'), 0);
  assert.match(await browser.value(textOf('lane-text')), /^Surface 1, mount 1: from 0 to 1 by js, call 1; 4 mutations\.$/);
}

async function searched(browser) {
  await browser.key('/');
  assert.strictEqual(await browser.value('document.activeElement.id'), 'search');
  await browser.key('2');
  await browser.value(`document.getElementById('search-form').requestSubmit()`);
  // A cancelled step, a create, an insert, an update and a last view.
  assert.strictEqual(await browser.value('fabric.page.where.found'), 5);
  for (const mount of [0, 0, 0, 1]) {
    await browser.key('ArrowDown');
    assert.strictEqual(await browser.value('fabric.page.where.mount'), mount);
  }
  await browser.key('Escape');
  assert.ok(await browser.value(`!${isShown('found-part')}`));
}

// What a report says is never markup.
async function labels(browser) {
  const text = 'report 1\nsurface 1\ncommit 1 a 0 complete held 0\nactor a\nstep 0 on 1 admitted 1 tries 1\nmounts 1\ntransaction 0 1 closing\nVIEWinsert 0 2 0\nviews 1\nview 2 in 0 at 0 LAST\nend\n';
  const view = `text frame 0 0 90 90 label=${Buffer.from('<img src=x onerror=alert(1)>').toString('hex')}`;
  await openText(browser, 'label', text.replace('VIEW', `create 2 ${view}\n`).replace('LAST', view));
  await browser.key('ArrowDown');
  assert.ok((await browser.value(textOf('detail-list'))).includes('<img src=x onerror=alert(1)>'));
  assert.strictEqual(await browser.value(`document.querySelectorAll('img').length`), 0);
}

async function broken(browser) {
  const text = examples.reports().find(({ name }) => name === 'first-path').bytes.toString('latin1');
  await openText(browser, 'broken', text.replace('insert 0 3 0', 'insert 0 3 1'));
  assert.ok(await browser.value(isShown('error')));
  assert.match(await browser.value(textOf('error-text')), /^Line 10: /);
  assert.ok((await browser.value(`document.querySelector('#error-lines b').textContent`)).includes('insert 0 3 1'));
  assert.ok(!await browser.value(isShown('run')));
}

// As narrow as 800 points, light and dark: nothing is cut off at the right, and a picture is taken.
async function pictured(browser) {
  await browser.value(`location.hash = '#example=reordered-tabs&mount=2&step=7'`);
  await browser.until(`${isShown('run')} && fabric.page.where.step === 7`);
  for (const [width, scheme] of [[800, 'light'], [800, 'dark'], [1400, 'light'], [1400, 'dark']]) {
    await browser.size(width, 900, scheme);
    await browser.until(`innerWidth === ${width}`);
    assert.ok(await browser.value('document.documentElement.scrollWidth <= innerWidth'), `the page is wider than ${width}`);
    const picture = await browser.picture();
    assert.ok(picture.length > 10000, 'a picture of something');
    fs.writeFileSync(path.join(folder, `page-${width}-${scheme}.png`), picture);
  }
}

// 16 actors with 2,048 steps, and 30 MB.
async function large(browser) {
  const text = require('./large.js').report(30e6);
  fs.writeFileSync(path.join(folder, 'large.report'), text);
  const { root } = await browser.call('DOM.getDocument');
  const { nodeId } = await browser.call('DOM.querySelector', { nodeId: root.nodeId, selector: '#file' });
  const began = Date.now();
  await browser.call('DOM.setFileInputFiles', { nodeId, files: [path.join(folder, 'large.report')] });
  await browser.until(`${isShown('run')} && ${textOf('name')} === 'large.report'`, 60);
  const opened = Date.now() - began;
  const stepping = await browser.value(`(() => { const began = performance.now(); for (let i = 0; i < 20; i++) { fabric.page.goTo(0, 500 + 20 * i, 7); document.body.offsetHeight; } return (performance.now() - began) / 20; })()`);
  console.log(`inspector: a report of ${(text.length / 1e6).toFixed(0)} MB opens in ${(opened / 1000).toFixed(1)} s, and a leap takes ${stepping.toFixed(0)} ms`);
  fs.writeFileSync(path.join(folder, 'page-large.png'), await browser.picture());
}

async function main() {
  const browser = new Browser(program, folder);
  let failed = 0;
  const tests = [welcome, everyExample, stepped, clicked, searched, labels, broken, pictured, large];
  // Whatever hangs, the browser ends.
  const late = setTimeout(() => { console.log('inspector: the page took too long'); browser.close().then(() => process.exit(1)); }, 120000);
  try {
    await browser.open(page);
    await browser.size(1400, 900);
    for (const test of tests) {
      try {
        await test(browser);
      } catch (error) {
        failed += 1;
        console.log(`inspector: ${test.name}: ${error.stack}`);
      }
    }
    if (browser.errors.length > 0) {
      failed += 1;
      console.log(`inspector: errors in the page: ${browser.errors.join('\n')}`);
    }
    console.log(`inspector: ${tests.length} tests of the page in Chromium, ${failed} failed`);
  } catch (error) {
    failed += 1;
    console.log(`inspector: Chromium: ${error.stack}`);
  }
  clearTimeout(late);
  await browser.close();
  process.exit(failed > 0 ? 1 : 0);
}

main();
