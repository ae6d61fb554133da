// The reader of a report of `fabric turns` or `fabric run`. It goes over the bytes once and checks every line by the
// form in docs/SCRIPTS.md. The first line that is not of that form ends the reading with a ReportError, which names it.
// Mutations and last views are kept as numbers and as offsets into the bytes; what a view holds is read again when asked.
(function (fabric) {
'use strict';

const NEWLINE = 10, SPACE = 32, MINUS = 45, ZERO = 48, NINE = 57, EQUALS = 61, LETTER_A = 97, LETTER_F = 102;

const KINDS = ['view', 'text', 'image', 'scroll', 'input'];
const CHANGES = ['complete', 'state', 'props', 'size', 'stop', 'suspend', 'resume'];
const STATEFUL = new Set(['scroll', 'input']);

// The props in the order of their table: name, from, to, and the start, at which a prop is not printed.
const ROWS = [
  ['left', -1000000, 1000000, null], ['top', -1000000, 1000000, null],
  ['right', -1000000, 1000000, null], ['bottom', -1000000, 1000000, null],
  ['width', 0, 1000000, null], ['height', 0, 1000000, null],
  ['background', 0, 4294967295, 0], ['border_color', 0, 4294967295, 0],
  ['opacity', 0, 100, 100], ['z', -1000, 1000, null], ['clip', 0, 1, 0], ['collapsable', 0, 1, 1],
  ['pointer', 0, 3, 0], ['border', 0, 100, 0], ['test_mark', 0, 1, 0], ['native_mark', 0, 1, 0],
  ['hidden', 0, 1, 0], ['accessible', 0, 1, 0], ['elevation', 0, 24, 0],
  ['shadow', 0, 4294967295, 0], ['outline', 0, 100, 0], ['outline_color', 0, 4294967295, 0],
].map(([name, low, high, start]) => ({ name, low, high, start, bytes: ascii(name + '=') }));

// The causes of a cancel by their numbers, from 1: the name, and what is carried.
const CAUSES = [
  ['Unkept', 'tag'], ['ChildOfLeaf', 'tag'], ['TwiceTag', 'tag'], ['TooDeep'], ['TooManyNodes'],
  ['KindChanged', 'tag'], ['FamiliesFull'], ['NotMounted', 'tag'], ['Stateless', 'tag'], ['Stale', 'tag', 'count'],
].map(([name, ...carries]) => ({ name, carries }));

// The kinds of items.
const CREATE = 0, DELETE = 1, INSERT = 2, REMOVE = 3, UPDATE = 4, VIEW = 5;
const ITEM_WORDS = ['create', 'delete', 'insert', 'remove', 'update', 'view'];

const HIGHEST_TAG = 2147483647;
const HIGHEST_SURFACE = 1000000;
const LABEL_BYTES = 256;
const MOST_DIGITS = 15; // so that every number is exact

function ascii(text) {
  return Uint8Array.from(text, (letter) => letter.charCodeAt(0));
}

// What is wrong with a report, and in which line, counted from 1. `start` is where that line begins in the bytes.
class ReportError extends Error {
  constructor(line, start, text) {
    super(`line ${line}: ${text}`);
    this.name = 'ReportError';
    this.line = line;
    this.start = start;
    this.text = text;
  }
}

// All mutations and last views of a report in their order, as columns of numbers.
class Items {
  constructor() {
    this.count = 0;
    this.size = 0;
    this.columns(4096);
  }

  columns(size) {
    const grown = (type, old) => {
      const column = new type(size);
      if (old) column.set(old);
      return column;
    };
    this.word = grown(Uint8Array, this.word);
    this.start = grown(Uint32Array, this.start);
    this.tag = grown(Uint32Array, this.tag);
    this.parent = grown(Uint32Array, this.parent);
    this.index = grown(Uint32Array, this.index);
    this.kind = grown(Uint8Array, this.kind);
    this.size = size;
  }

  push(word, start, tag, parent, index, kind) {
    if (this.count === this.size) this.columns(this.size * 2);
    const item = this.count++;
    this.word[item] = word;
    this.start[item] = start;
    this.tag[item] = tag;
    this.parent[item] = parent;
    this.index[item] = index;
    this.kind[item] = kind;
  }
}

// A place in the bytes, and the reading of what a line is made of.
class Lines {
  constructor(bytes, line, at) {
    this.bytes = bytes;
    this.line = line;
    this.start = at;
    this.at = at;
  }

  fail(text) {
    throw new ReportError(this.line, this.start, text);
  }

  // To the next line. Every line ends with a newline, so where no byte is left the report was cut.
  next(expected) {
    this.line += 1;
    this.start = this.at;
    if (this.at >= this.bytes.length) this.fail(`the report is cut: ${expected} should follow`);
  }

  // Whether the text stands here.
  isAt(text) {
    for (let i = 0; i < text.length; i++) {
      if (this.bytes[this.at + i] !== text.charCodeAt(i)) return false;
    }
    return true;
  }

  take(text) {
    if (!this.isAt(text)) return false;
    this.at += text.length;
    return true;
  }

  expect(text) {
    if (!this.take(text)) this.fail(`“${text.trim()}” should stand at column ${this.at - this.start + 1}`);
  }

  end() {
    if (this.bytes[this.at] !== NEWLINE) {
      this.fail(this.at >= this.bytes.length ? 'the line is cut: it has no end' : `the line should end at column ${this.at - this.start + 1}`);
    }
    this.at += 1;
  }

  // A plain decimal from low to high: no sign, no zero before it.
  number(what, low, high) {
    const { bytes } = this;
    const from = this.at;
    let value = 0;
    let byte = bytes[this.at];
    while (byte >= ZERO && byte <= NINE) {
      value = value * 10 + (byte - ZERO);
      byte = bytes[++this.at];
    }
    const digits = this.at - from;
    if (digits === 0) this.fail(`${what} should stand at column ${from - this.start + 1}`);
    if (digits > 1 && bytes[from] === ZERO) this.fail(`${what} begins with a zero`);
    if (digits > MOST_DIGITS || value < low || value > high) this.fail(`${what} is not from ${low} to ${high}`);
    return value;
  }

  signed(what, low, high) {
    if (this.bytes[this.at] !== MINUS) return this.number(what, Math.max(low, 0), high);
    this.at += 1;
    return -this.number(what, 1, -low);
  }

  // One of the words, to the space or newline that follows it.
  oneOf(words, what) {
    for (let i = 0; i < words.length; i++) {
      const word = words[i];
      const after = this.bytes[this.at + word.length];
      if (this.isAt(word) && (after === SPACE || after === NEWLINE)) {
        this.at += word.length;
        return i;
      }
    }
    return this.fail(`${what} should be one of ${words.join(', ')}`);
  }

  // An actor's name: 1 to 32 lower-case letters, digits, `_` and `-`.
  name() {
    const from = this.at;
    while (isNameByte(this.bytes[this.at])) this.at += 1;
    const length = this.at - from;
    if (length < 1 || length > 32) this.fail('an actor’s name has 1 to 32 lower-case letters, digits, _ and -');
    return textOf(this.bytes, from, this.at);
  }

  // KIND frame X Y WIDTH HEIGHT, the state, the props that are not at their start, the label. What is read is kept
  // in `view`, where one is given. The number of the kind is answered.
  view(view) {
    const kind = this.oneOf(KINDS, 'a kind');
    this.expect(' frame ');
    const x = this.signed('x', -1e14, 1e14);
    this.expect(' ');
    const y = this.signed('y', -1e14, 1e14);
    this.expect(' ');
    const width = this.number('a width', 0, 1e14);
    this.expect(' ');
    const height = this.number('a height', 0, 1e14);
    if (view) {
      view.kind = KINDS[kind];
      view.frame = { x, y, width, height };
      view.state = null;
      view.props = [];
      view.label = null;
    }
    this.state(KINDS[kind], view);
    this.props(view);
    return kind;
  }

  // A scroll and an input have a state, and no other kind has.
  state(kind, view) {
    const stands = this.take(' state ');
    if (stands !== STATEFUL.has(kind)) this.fail(stands ? `a view of kind ${kind} has no state` : `a view of kind ${kind} has a state after its frame`);
    if (!stands) return;
    const count = this.number('the count of a state', 0, 1e15);
    this.expect(' ');
    const x = this.signed('the x of a state', -1000000, 1000000);
    this.expect(' ');
    const y = this.signed('the y of a state', -1000000, 1000000);
    if (view) view.state = { count, x, y };
  }

  props(view) {
    const { bytes } = this;
    let row = 0;
    while (bytes[this.at] === SPACE) {
      this.at += 1;
      if (this.take('label=')) {
        this.label(view);
        return;
      }
      row = this.rowFrom(row);
      const { name, low, high, start } = ROWS[row];
      const value = this.signed(name, low, high);
      if (value === start) this.fail(`${name} is at its start, and would not be printed`);
      if (view) view.props.push([name, value]);
      row += 1;
    }
  }

  // The row whose name stands here, which is not above `first` in the table.
  rowFrom(first) {
    for (let row = first; row < ROWS.length; row++) {
      if (this.isRow(ROWS[row].bytes)) return row;
    }
    const known = ROWS.find((row) => this.isRow(row.bytes));
    return this.fail(known ? `${known.name} stands twice, or not in the order of the props` : `a prop or label should stand at column ${this.at - this.start + 1}`);
  }

  isRow(name) {
    const from = this.at;
    for (let i = 0; i < name.length; i++) {
      if (this.bytes[from + i] !== name[i]) return false;
    }
    this.at += name.length;
    return true;
  }

  // The bytes of a label, which is not empty, in lower-case hexadecimal. They are UTF-8.
  label(view) {
    const from = this.at;
    let isPlain = true;
    while (isHex(this.bytes[this.at])) {
      if ((this.at - from) % 2 === 0 && this.bytes[this.at] > 55) isPlain = false;
      this.at += 1;
    }
    const digits = this.at - from;
    if (digits === 0 || digits % 2 === 1 || digits > 2 * LABEL_BYTES) this.fail(`a label has 1 to ${LABEL_BYTES} bytes, of two digits each`);
    if (isPlain && !view) return;
    const label = Uint8Array.from({ length: digits / 2 }, (_, i) => parseInt(textOf(this.bytes, from + 2 * i, from + 2 * i + 2), 16));
    let text;
    try {
      text = new TextDecoder('utf-8', { fatal: true, ignoreBOM: true }).decode(label);
    } catch {
      this.fail('the bytes of the label are no UTF-8');
    }
    if (view) view.label = text;
  }
}

function isNameByte(byte) {
  return (byte >= 97 && byte <= 122) || (byte >= ZERO && byte <= NINE) || byte === 95 || byte === MINUS;
}

function isHex(byte) {
  return (byte >= ZERO && byte <= NINE) || (byte >= LETTER_A && byte <= LETTER_F);
}

function textOf(bytes, from, to) {
  let text = '';
  for (let i = from; i < to; i++) text += String.fromCharCode(bytes[i]);
  return text;
}

// What a report says. Its surfaces and actors are plain objects; `items` has all mutations and last views, and a mount
// or a surface names its own by the first one and their count.
class Report {
  constructor(bytes) {
    this.bytes = bytes;
    this.lines = 0;
    this.surfaces = [];
    this.actors = [];
    this.items = new Items();
  }

  // The bytes of an item's line, without the newline.
  itemText(item) {
    return this.lineText(this.items.start[item]);
  }

  lineText(start) {
    const end = this.bytes.indexOf(NEWLINE, start);
    return textOf(this.bytes, start, end < 0 ? this.bytes.length : end);
  }

  // Where the text of an item's view begins: after two words, and in a last view after six.
  viewStart(item) {
    let spaces = this.items.word[item] === VIEW ? 6 : 2;
    let at = this.items.start[item];
    while (spaces > 0) {
      if (this.bytes[at] === SPACE) spaces -= 1;
      at += 1;
    }
    return at;
  }

  // The view that a create, an update or a last view tells.
  view(item) {
    const view = { tag: this.items.tag[item] };
    new Lines(this.bytes, 0, this.viewStart(item)).view(view);
    return view;
  }

  // Whether two items tell the same view.
  isSameView(a, b) {
    const { bytes } = this;
    let x = this.viewStart(a);
    let y = this.viewStart(b);
    while (bytes[x] === bytes[y]) {
      if (bytes[x] === NEWLINE) return true;
      x += 1;
      y += 1;
    }
    return false;
  }
}

const LINES_A_SLICE = 0x3fff;

// The reading of a report in slices, so that a page stays alive: each step of the generator answers how many bytes
// are read, and it returns the report.
function* reading(bytes) {
  const report = new Report(bytes);
  const lines = new Lines(bytes, 0, 0);
  lines.next('“report 1”');
  if (!lines.take('report 1')) lines.fail('a report of a run begins with “report 1”; this is none');
  lines.end();
  lines.next('a surface, an actor or “end”');
  while (lines.take('surface ')) readSurface(lines, report);
  while (lines.take('actor ')) readActor(lines, report);
  checkCommits(report);
  for (const surface of report.surfaces) {
    if (!lines.take('mounts ')) {
      lines.fail(report.actors.length === 0 ? 'an actor or “mounts” should follow' : `a step, an actor or “mounts ${surface.id}” should follow`);
    }
    yield* readMounts(lines, report, surface);
  }
  checkMounts(report);
  if (!lines.take('end')) lines.fail(report.surfaces.length === 0 ? 'a surface, an actor or “end” should follow' : 'a view or “end” should follow');
  lines.end();
  report.lines = lines.line;
  if (lines.at < bytes.length) {
    lines.line += 1;
    lines.start = lines.at;
    lines.fail('nothing should follow after “end”');
  }
  return report;
}

// `surface ID`, and its commits, numbered from 1.
function readSurface(lines, report) {
  const surface = { id: lines.number('a surface', 1, HIGHEST_SURFACE), line: lines.line, start: lines.start, commits: [], mounts: [], views: null };
  if (report.surfaces.some((other) => other.id === surface.id)) lines.fail(`surface ${surface.id} stands twice`);
  lines.end();
  lines.next('a commit, a surface or an actor');
  while (lines.take('commit ')) {
    const commit = { line: lines.line, start: lines.start };
    const due = surface.commits.length + 1;
    commit.number = lines.number(`the number of the commit, ${due},`, due, due);
    lines.expect(' ');
    commit.actor = lines.name();
    lines.expect(' ');
    commit.call = lines.number('a call', 0, 1e9);
    lines.expect(' ');
    commit.word = CHANGES[lines.oneOf(CHANGES, 'a change')];
    lines.expect(' held ');
    // What an actor holds was there before its commit.
    commit.held = lines.number('the number held', 0, due - 1);
    lines.end();
    surface.commits.push(commit);
    lines.next('a commit, a surface or an actor');
  }
  report.surfaces.push(surface);
}

// `actor NAME`, and its steps, numbered from 0.
function readActor(lines, report) {
  const actor = { name: lines.name(), line: lines.line, start: lines.start, steps: [] };
  if (report.actors.some((other) => other.name === actor.name)) lines.fail(`actor ${actor.name} stands twice`);
  lines.end();
  lines.next('a step, an actor or “mounts”');
  while (lines.take('step ')) {
    const step = { line: lines.line, start: lines.start, actor: actor.name };
    const due = actor.steps.length;
    step.call = lines.number(`the number of the step, ${due},`, due, due);
    lines.expect(' on ');
    step.on = lines.number('a surface', 1, HIGHEST_SURFACE);
    const surface = report.surfaces.find((one) => one.id === step.on);
    if (!surface) lines.fail(`there is no surface ${step.on}`);
    lines.expect(' ');
    readAnswer(lines, step, surface.commits.length);
    lines.end();
    actor.steps.push(step);
    lines.next('a step, an actor or “mounts”');
  }
  report.actors.push(actor);
}

function readAnswer(lines, step, commits) {
  const words = ['held', 'admitted', 'cancelled', 'mounted', 'empty'];
  step.answer = words[lines.oneOf(words, 'an answer')];
  lines.expect(' ');
  switch (step.answer) {
    case 'mounted':
      step.base = lines.number('the base', 0, commits);
      lines.expect(' ');
      step.to = lines.number('the target', 0, commits);
      return;
    case 'admitted':
      step.number = lines.number('the number of the commit', 1, commits);
      break;
    default:
      step.number = lines.number('the number of a commit', 0, commits);
  }
  if (step.answer === 'held' || step.answer === 'empty') return;
  lines.expect(' tries ');
  step.tries = lines.number('the number of tries', 1, 1e15);
  if (step.answer === 'cancelled') readCause(lines, step);
}

function readCause(lines, step) {
  lines.expect(' cause ');
  step.causeNumber = lines.number('the number of the cause', 1, CAUSES.length);
  const { name, carries } = CAUSES[step.causeNumber - 1];
  lines.expect(' ');
  lines.expect(name);
  step.cause = name;
  for (const carried of carries) {
    lines.expect(' ');
    step[carried] = lines.number(`the ${carried} of the cause`, carried === 'tag' ? 1 : 0, carried === 'tag' ? HIGHEST_TAG : 1e15);
  }
}

// `mounts ID`, the transactions, `views ID` and the last views.
function* readMounts(lines, report, surface) {
  lines.number(`surface ${surface.id}`, surface.id, surface.id);
  lines.end();
  lines.next('a transaction or “views”');
  let base = 0;
  while (lines.take('transaction ')) {
    const mount = readTransaction(lines, surface, base);
    surface.mounts.push(mount);
    base = mount.to;
    mount.first = report.items.count;
    lines.next('a mutation, a transaction or “views”');
    while (readMutation(lines, report.items)) {
      lines.next('a mutation, a transaction or “views”');
      if ((lines.line & LINES_A_SLICE) === 0) yield lines.at;
    }
    mount.count = report.items.count - mount.first;
  }
  if (!lines.take('views ')) lines.fail(`a mutation, a transaction or “views ${surface.id}” should follow`);
  lines.number(`surface ${surface.id}`, surface.id, surface.id);
  surface.views = { line: lines.line, start: lines.start, first: report.items.count, count: 0 };
  lines.end();
  lines.next('a view, “mounts” or “end”');
  while (lines.take('view ')) {
    readLastView(lines, report.items);
    lines.next('a view, “mounts” or “end”');
    if ((lines.line & LINES_A_SLICE) === 0) yield lines.at;
  }
  surface.views.count = report.items.count - surface.views.first;
}

// Mounts follow on one another from 0 on, and the closing one is the last.
function readTransaction(lines, surface, base) {
  const mount = { line: lines.line, start: lines.start, number: surface.mounts.length + 1, actor: null, call: null };
  if (base > 0 && surface.mounts[surface.mounts.length - 1].actor === null) lines.fail('nothing is mounted after the closing mount');
  mount.base = lines.number(`the base, ${base},`, base, base);
  lines.expect(' ');
  mount.to = lines.number('the target', base + 1, surface.commits.length);
  if (!lines.take(' closing')) {
    lines.expect(' by ');
    mount.actor = lines.name();
    lines.expect(' ');
    mount.call = lines.number('a call', 0, 1e9);
  }
  lines.end();
  return mount;
}

// A mutation, or nothing where none stands here.
function readMutation(lines, items) {
  const { start } = lines;
  if (lines.take('create ')) readViewOf(lines, items, CREATE, start);
  else if (lines.take('update ')) readViewOf(lines, items, UPDATE, start);
  else if (lines.take('insert ')) readPlace(lines, items, INSERT, start);
  else if (lines.take('remove ')) readPlace(lines, items, REMOVE, start);
  else if (lines.take('delete ')) {
    items.push(DELETE, start, lines.number('a tag', 1, HIGHEST_TAG), 0, 0, 0);
    lines.end();
  } else return false;
  return true;
}

function readViewOf(lines, items, word, start) {
  const tag = lines.number('a tag', 1, HIGHEST_TAG);
  lines.expect(' ');
  const kind = lines.view(null);
  lines.end();
  items.push(word, start, tag, 0, 0, kind);
}

function readPlace(lines, items, word, start) {
  const parent = lines.number('a parent', 0, HIGHEST_TAG);
  lines.expect(' ');
  const tag = lines.number('a tag', 1, HIGHEST_TAG);
  lines.expect(' ');
  const index = lines.number('an index', 0, 1e9);
  lines.end();
  items.push(word, start, tag, parent, index, 0);
}

function readLastView(lines, items) {
  const { start } = lines;
  const tag = lines.number('a tag', 1, HIGHEST_TAG);
  lines.expect(' in ');
  const parent = lines.number('a parent', 0, HIGHEST_TAG);
  lines.expect(' at ');
  const index = lines.number('an index', 0, 1e9);
  lines.expect(' ');
  const kind = lines.view(null);
  lines.end();
  items.push(VIEW, start, tag, parent, index, kind);
}

// Each commit is what a step was answered, and each admitted step is a commit; the same of mounts.
function checkCommits(report) {
  const actors = new Map(report.actors.map((actor) => [actor.name, actor]));
  const surfaces = new Map(report.surfaces.map((surface) => [surface.id, surface]));
  for (const surface of report.surfaces) {
    for (const commit of surface.commits) {
      const step = actors.get(commit.actor)?.steps[commit.call];
      if (!step || step.on !== surface.id || step.answer !== 'admitted' || step.number !== commit.number) {
        throw new ReportError(commit.line, commit.start, `no step ${commit.call} of ${commit.actor} was answered that commit ${commit.number} on surface ${surface.id} is admitted`);
      }
      commit.tries = step.tries;
    }
  }
  for (const { name, steps } of report.actors) {
    for (const step of steps) {
      if (step.answer !== 'admitted') continue;
      const commit = surfaces.get(step.on).commits[step.number - 1];
      if (commit.actor !== name || commit.call !== step.call) {
        throw new ReportError(step.line, step.start, `commit ${step.number} on surface ${step.on} is another step’s`);
      }
    }
  }
}

function checkMounts(report) {
  const mounted = new Map();
  for (const { name, steps } of report.actors) {
    for (const step of steps) if (step.answer === 'mounted') mounted.set(`${name} ${step.call}`, step);
  }
  for (const surface of report.surfaces) {
    for (const mount of surface.mounts) {
      if (mount.actor === null) continue;
      const name = `${mount.actor} ${mount.call}`;
      const step = mounted.get(name);
      if (!step || step.on !== surface.id || step.base !== mount.base || step.to !== mount.to) {
        throw new ReportError(mount.line, mount.start, `no step ${mount.call} of ${mount.actor} was answered that it mounted ${mount.base} ${mount.to} on surface ${surface.id}`);
      }
      mounted.delete(name);
    }
  }
  for (const step of mounted.values()) {
    throw new ReportError(step.line, step.start, `surface ${step.on} has no transaction of this step`);
  }
}

// The whole report at once.
function readReport(bytes) {
  return toEnd(reading(bytes));
}

function toEnd(work) {
  for (;;) {
    const { done, value } = work.next();
    if (done) return value;
  }
}

Object.assign(fabric, { KINDS, ITEM_WORDS, CREATE, DELETE, INSERT, REMOVE, UPDATE, VIEW, ReportError, reading, readReport, toEnd });
})(typeof module === 'object' ? module.exports : (globalThis.fabric ??= {}));
