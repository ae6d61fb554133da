// Tests of the reader and of the model of the views, without a page.
'use strict';
const fs = require('fs');
const assert = require('assert');
const fabric = require('../views.js');
const examples = require('./examples.js');

const bytesOf = (text) => Buffer.from(text, 'latin1');

function opened(bytes) {
  const report = fabric.readReport(bytes);
  const runs = report.surfaces.map((surface) => new fabric.Playback(report, surface));
  for (const run of runs) fabric.toEnd(run.checking());
  return { report, runs };
}

// The views in the tree, as the report prints its last ones.
function printed(report, views) {
  return views.inOrder().map(({ node, index }) => {
    const text = report.itemText(node.item);
    return `view ${node.tag} in ${node.parent.tag} at ${index} ${text.split(' ').slice(2).join(' ')}`;
  });
}

function lastViews(bytes, surface) {
  const lines = bytes.toString('latin1').split('\n');
  const from = lines.indexOf(`views ${surface}`) + 1;
  const to = lines.findIndex((line, i) => i >= from && !line.startsWith('view '));
  return lines.slice(from, to);
}

// Forward through every step to the last views, and back through every step to nothing; and each place by a leap is
// the same as by steps.
function stepThrough({ report, runs }, bytes) {
  for (const run of runs) {
    const { mounts, id } = run.surface;
    const seen = [];
    for (let m = 0; m < mounts.length; m++) {
      for (let step = 0; step <= mounts[m].count; step++) {
        run.goTo(m, step);
        assert.deepStrictEqual([run.mount, run.step], [m, step]);
        seen.push([m, step, printed(report, run.views).join('\n'), run.views.nodes.size]);
      }
    }
    assert.deepStrictEqual(printed(report, run.views), lastViews(bytes, id), `the views of surface ${id}`);
    for (const [m, step, views, count] of seen.reverse()) {
      run.goTo(m, step);
      assert.strictEqual(printed(report, run.views).join('\n'), views);
      assert.strictEqual(run.views.nodes.size, count);
    }
    assert.strictEqual(run.views.nodes.size, 1, 'the root alone stands at the start');
  }
}

function refused(bytes, line, words) {
  assert.throws(() => opened(bytes), (error) => {
    assert.ok(error instanceof fabric.ReportError, error.stack);
    assert.strictEqual(error.line, line, error.message);
    assert.ok(error.message.includes(words), `“${words}” is not in “${error.message}”`);
    const lines = bytes.toString('latin1').split('\n');
    assert.strictEqual(error.start, bytesOf(lines.slice(0, line - 1).map((one) => `${one}\n`).join('')).length, 'where the line begins');
    return true;
  });
}

const tests = {
  'each example is read, stepped forward and back, and ends at its last views'() {
    const runs = examples.reports().filter(({ name }) => !name.includes('.'));
    assert.ok(runs.length > 0);
    for (const { bytes } of runs) stepThrough(opened(bytes), bytes);
  },

  'what other words print is no report of a run'() {
    for (const { name, bytes } of examples.reports()) if (name.includes('.')) refused(bytes, 1, 'begins with “report 1”');
  },

  'the page has the reports of examples/ as they are'() {
    const stale = fs.readFileSync(examples.file, 'utf8') !== examples.text();
    assert.ok(!stale, 'inspector/examples.js is stale: node inspector/tests/examples.js writes it');
  },

  'a report that is cut anywhere is refused at the line of the cut'() {
    for (const { name, bytes } of examples.reports()) {
      if (name.includes('.')) continue;
      for (let length = 0; length < bytes.length; length++) {
        const cut = bytes.subarray(0, length);
        assert.throws(() => opened(cut), fabric.ReportError, `${name} of ${length} bytes`);
        const lines = cut.toString('latin1').split('\n').length;
        try { fabric.readReport(cut); } catch (error) { assert.ok(error.line <= lines, error.message); }
      }
    }
  },

  'a line that is wrong is named'() {
    const text = fs.readFileSync(`${__dirname}/../../examples/state-carried-over.report`, 'latin1');
    const lineOf = (line) => text.split('\n').indexOf(line) + 1;
    const cases = [
      ['report 1', 'report 2', 'report 1'],
      ['surface 1', 'surface 0', 'a surface is not from 1'],
      ['commit 2 js 2 state held 1', 'commit 3 js 2 state held 1', 'the number of the commit, 2'],
      ['commit 2 js 2 state held 1', 'commit 2 js 2 stade held 1', 'a change should be one of'],
      ['commit 2 js 2 state held 1', 'commit 2 js 2 state held 2', 'held'],
      ['commit 2 js 2 state held 1', 'commit 2 js 3 state held 1', 'admitted'],
      ['step 2 on 1 admitted 2 tries 1', 'step 3 on 1 admitted 2 tries 1', 'the number of the step, 2'],
      ['step 2 on 1 admitted 2 tries 1', 'step 2 on 7 admitted 2 tries 1', 'no surface 7'],
      ['step 2 on 1 admitted 2 tries 1', 'step 2 on 1 admitted 2 tries 0', 'tries'],
      ['step 2 on 1 admitted 2 tries 1', 'step 2 on 1 admitted 02 tries 1', 'zero'],
      ['step 4 on 1 cancelled 3 tries 1 cause 10 Stale 2 1', 'step 4 on 1 cancelled 3 tries 1 cause 10 Stale 2', 'column'],
      ['step 4 on 1 cancelled 3 tries 1 cause 10 Stale 2 1', 'step 4 on 1 cancelled 3 tries 1 cause 9 Stale 2 1', 'Stateless'],
      ['step 6 on 1 mounted 1 4', 'step 6 on 1 mounted 1 3', null],
      ['transaction 1 4 by js 6', 'transaction 2 4 by js 6', 'the base, 1'],
      ['transaction 1 4 by js 6', 'transaction 1 5 by js 6', 'the target'],
      ['create 3 text frame 0 0 320 40 width=320 height=40', 'create 3 test frame 0 0 320 40 width=320 height=40', 'a kind should be one of'],
      ['create 3 text frame 0 0 320 40 width=320 height=40', 'create 3 text frame 0 0 320 40 height=40 width=320', 'order of the props'],
      ['create 3 text frame 0 0 320 40 width=320 height=40', 'create 3 text frame 0 0 320 40 width=320 height=40 opacity=100', 'at its start'],
      ['create 3 text frame 0 0 320 40 width=320 height=40', 'create 3 text frame 0 0 320 40 state 0 0 0 width=320 height=40', 'has no state'],
      ['create 3 text frame 0 0 320 40 width=320 height=40', 'create 3 text frame 0 0 320 40 width=320 height=40 label=fe', 'UTF-8'],
      ['create 3 text frame 0 0 320 40 width=320 height=40', 'create 3 text frame 0 0 320 40 width=320 height=40 ', 'prop or label'],
      ['create 3 text frame 0 0 320 40 width=320 height=40', 'create 2 text frame 0 0 320 40 width=320 height=40', 'there already'],
      ['insert 2 3 0', 'insert 2 3 1', '2 has 0 children'],
      ['insert 2 3 0', 'insert 3 3 0', 'in itself'],
      ['insert 2 3 0', 'paint 2 3 0', 'a mutation, a transaction'],
      ['insert 2 4 1', 'delete 3', 'still in 2'],
      ['insert 2 4 1', 'remove 2 4 0', 'view 3 stands there'],
      ['view 3 in 2 at 0 text frame 0 40 320 40 top=40 width=320 height=40', 'view 3 in 2 at 0 text frame 0 41 320 40 top=40 width=320 height=40', 'another view 3'],
      ['view 3 in 2 at 0 text frame 0 40 320 40 top=40 width=320 height=40', 'view 3 in 2 at 1 text frame 0 40 320 40 top=40 width=320 height=40', 'view 3 in 2 at 0 here'],
      ['end', 'end\nend', null],
    ];
    for (const [line, wrong, words] of cases) {
      const at = lineOf(line);
      assert.ok(at > 0, line);
      const broken = bytesOf(text.replace(`\n${line}\n`, `\n${wrong}\n`).replace(/^report 1\n/, line === 'report 1' ? `${wrong}\n` : 'report 1\n'));
      if (words !== null) refused(broken, at, words);
    }
    // The mount that differs from its step's answer is named where it stands, and what follows after the end too.
    refused(bytesOf(text.replace('mounted 1 4', 'mounted 1 3')), lineOf('transaction 1 4 by js 6'), 'mounted 1 4');
    refused(bytesOf(`${text}end\n`), lineOf('end') + 1, 'nothing should follow');
    refused(bytesOf(text.replace('insert 2 4 1\n', '')), lineOf('transaction 1 4 by js 6'), 'outside the tree');
    refused(bytesOf(text.replace(/view 4 .*\n/, '')), lineOf('views 1'), '3 views');
  },

  'a clip cuts off what lies in it, and the topmost view is the last in host preorder'() {
    const text = 'report 1\nsurface 1\ncommit 1 a 0 complete held 0\nactor a\nstep 0 on 1 admitted 1 tries 1\nmounts 1\ntransaction 0 1 closing\n'
      + 'create 2 view frame 10 10 50 50 clip=1\ncreate 3 text frame 40 0 40 20 z=1\ncreate 4 text frame 60 0 5 5\ncreate 5 scroll frame 0 0 30 30 state 1 0 7 label=c3a9\n'
      + 'insert 0 2 0\ninsert 0 5 1\ninsert 2 4 0\ninsert 2 3 1\n'
      + 'views 1\nview 2 in 0 at 0 view frame 10 10 50 50 clip=1\nview 4 in 2 at 0 text frame 60 0 5 5\nview 3 in 2 at 1 text frame 40 0 40 20 z=1\nview 5 in 0 at 1 scroll frame 0 0 30 30 state 1 0 7 label=c3a9\nend\n';
    const { report, runs: [run] } = opened(bytesOf(text));
    run.goTo(0, Infinity);
    const placed = fabric.places(run.views);
    assert.deepStrictEqual(placed.map((place) => place.tag), [2, 4, 3, 5]);
    assert.deepStrictEqual(placed[2].rect, { x: 50, y: 10, width: 40, height: 20 });
    assert.deepStrictEqual(placed[2].shown, { x: 50, y: 10, width: 10, height: 20 });
    assert.strictEqual(placed[1].shown, null);
    assert.strictEqual(fabric.topmost(placed, 20, 20).tag, 5);
    assert.strictEqual(fabric.topmost(placed, 55, 15).tag, 3);
    assert.strictEqual(fabric.topmost(placed, 65, 15), null);
    assert.deepStrictEqual(placed[3].view.state, { count: 1, x: 0, y: 7 });
    assert.strictEqual(placed[3].view.label, 'é');
    assert.deepStrictEqual(fabric.search(report, 3).map(({ at, last }) => last ?? at), [1, 7, true]);
  },

  'created, updated, moved, removed and deleted views are told apart'() {
    const bytes = fs.readFileSync(`${__dirname}/../../examples/reordered-tabs.report`);
    const { runs: [run] } = opened(bytes);
    run.goTo(1, 5);
    assert.deepStrictEqual(run.changes().get(3), { created: false, updated: true, moved: false, removed: true, deleted: false });
    run.goTo(1, 9);
    assert.deepStrictEqual(run.changes().get(3), { created: false, updated: true, moved: true, removed: false, deleted: false });
    run.goTo(0, 1);
    assert.strictEqual(run.changes().get(2).created, true);
    assert.strictEqual(run.changes().get(3), undefined);
  },
};

let failed = 0;
for (const [name, test] of Object.entries(tests)) {
  try {
    test();
  } catch (error) {
    failed += 1;
    console.log(`inspector: ${name}: ${error.stack}`);
  }
}
console.log(`inspector: ${Object.keys(tests).length - failed} tests of the model passed, ${failed} failed`);
process.exit(failed > 0 ? 1 : 0);
