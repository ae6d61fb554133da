// The page: what is open, where it stands, and what the keys and buttons do. Everything that a report says is put into
// the page as text.
(function (fabric) {
'use strict';

const $ = (id) => document.getElementById(id);
const { Playback, Screen, Timeline, LongList, places } = fabric;

let report = null;
let playbacks = [];
let surface = 0;
let placed = [];
let changes = new Map();
let selected = null;
let hovered = null;
let found = [];
let foundAt = -1;
let opening = 0;

const screen = new Screen($('screen'), $('boxes'), (tag) => { hovered = tag; showDetails(); }, (tag) => select(tag));
const timeline = new Timeline($('lanes'), $('lane-canvas'), $('lane-space'), $('lane-text'), goToItem);
const mutations = new LongList($('mutations'), fillMutation, (at) => goTo(surface, playback().mount, at + 1));
const foundList = new LongList($('found'), fillFound, goToFound);

const playback = () => playbacks[surface];

// ---- Opening

async function openFile(file) {
  if (!file) return;
  $('examples').value = '';
  await openBytes(file.name, () => file.arrayBuffer().then((buffer) => new Uint8Array(buffer)));
}

function openExample(name) {
  const example = fabric.examples.find((one) => one.name === name);
  if (!example) return Promise.resolve(showOnly('welcome'));
  return openBytes(`examples/${name}.report`, async () => new TextEncoder().encode(example.report));
}

// Reads and checks in slices of time, so that the page answers meanwhile; a later opening ends this one.
async function openBytes(name, bytesOf) {
  const mine = ++opening;
  const began = performance.now();
  showOnly(null);
  $('name').textContent = name;
  say(`Reading ${name}…`);
  try {
    const bytes = await bytesOf();
    try {
      const next = await inSlices(fabric.reading(bytes), mine, (at) => say(`Reading ${name}: ${Math.floor(100 * at / bytes.length)} %`));
      const runs = next.surfaces.map((one) => new Playback(next, one));
      for (const run of runs) await inSlices(run.checking(), mine, () => say(`Going over the mutations of surface ${run.surface.id}…`));
      if (mine !== opening) return;
      report = next;
      playbacks = runs;
      say('');
      showRun();
      document.body.dataset.opened = Math.round(performance.now() - began);
    } catch (error) {
      if (!(error instanceof fabric.ReportError)) throw error;
      showError(error, bytes);
    }
  } catch (error) {
    if (error !== CANCELLED) say(`The file could not be read: ${error.message}`);
  }
}

const CANCELLED = {};

async function inSlices(work, mine, progress) {
  let since = performance.now();
  for (;;) {
    const { done, value } = work.next();
    if (mine !== opening) throw CANCELLED;
    if (done) return value;
    if (performance.now() - since > 60) {
      progress(value);
      await new Promise((resolve) => setTimeout(resolve));
      since = performance.now();
    }
  }
}

function say(text) { $('status').textContent = text; }

function showOnly(id) {
  for (const name of ['welcome', 'error', 'run']) $(name).hidden = name !== id;
  $('search-form').hidden = $('keys').hidden = id !== 'run';
  if (id === 'run') return;
  report = null;
  mutations.show(0, -1);
  closeSearch();
}

// The line that is wrong, with those around it.
function showError(error, bytes) {
  showOnly('error');
  say('');
  $('error-text').textContent = `Line ${error.line}: ${error.text}.`;
  const lines = [];
  let at = error.start;
  for (let line = error.line; line > 0 && line >= error.line - 2; line--) {
    lines.unshift([line, at]);
    at = bytes.lastIndexOf(10, at - 2) + 1;
    if (lines[0][1] === 0) break;
  }
  $('error-lines').replaceChildren(...lines.map(([line, start]) => {
    const element = document.createElement(line === error.line ? 'b' : 'span');
    const end = bytes.indexOf(10, start);
    const text = new TextDecoder().decode(bytes.subarray(start, Math.min(end < 0 ? bytes.length : end, start + 400)));
    element.textContent = `${line}  ${text}\n`;
    return element;
  }));
}

function showRun() {
  showOnly('run');
  surface = 0;
  selected = null;
  hovered = null;
  closeSearch();
  $('mounts').dataset.of = '';
  $('surfaces').replaceChildren(...report.surfaces.map((one, s) => option(s, one.id)));
  timeline.show(report);
  if (report.surfaces.length === 0) {
    showEmptyRun();
    return;
  }
  goTo(0, 0, Infinity);
}

function showEmptyRun() {
  screen.shown = null;
  $('boxes').replaceChildren(textIn('p', 'This run has no surfaces.', 'empty'));
  $('detail-list').replaceChildren();
  mutations.show(0, -1);
  for (const id of ['mounts', 'step-text', 'outside', 'mutation-title']) $(id).replaceChildren();
}

function option(value, text) {
  const element = document.createElement('option');
  element.value = value;
  element.textContent = text;
  return element;
}

function textIn(name, text, className = '') {
  const element = document.createElement(name);
  element.textContent = text;
  element.className = className;
  return element;
}

// ---- Where the page stands

function goTo(nextSurface, mount, step) {
  if (!report || report.surfaces.length === 0) return;
  const isOther = nextSurface !== surface || $('mounts').dataset.of !== String(nextSurface);
  surface = nextSurface;
  const run = playback();
  run.goTo(mount, step);
  if (isOther || $('mounts').options.length !== Math.max(1, run.surface.mounts.length)) showMounts(run);
  $('surfaces').value = surface;
  $('mounts').value = run.mount;
  placed = places(run.views);
  changes = run.changes();
  showStep(run);
  showScreen();
  // A step inside a mount is followed; after a leap it is enough that something is in sight.
  if (run.step > 0 && run.step < run.count) screen.bringIntoSight(report.items.tag[itemAt(run.step - 1)]);
  screen.bringSomethingIntoSight();
  showDetails();
  timeline.mark(surface, run.mount);
}

function showMounts(run) {
  const { mounts } = run.surface;
  const options = mounts.map((mount, m) => option(m, `${mount.number}: ${mount.base}→${mount.to} ${mount.actor === null ? 'closing' : `by ${mount.actor}`}`));
  $('mounts').replaceChildren(...(options.length ? options : [option(0, 'none')]));
  $('mounts').dataset.of = surface;
}

function showStep(run) {
  const { step, count, mount } = run;
  $('step-text').textContent = `${step} of ${count}`;
  $('step-first').disabled = step === 0;
  $('step-last').disabled = step === count;
  // Beyond the steps of a mount lie those of the next one.
  $('step-back').disabled = step === 0 && mount === 0;
  $('step-on').disabled = step === count && mount >= run.surface.mounts.length - 1;
  $('mount-back').disabled = mount === 0;
  $('mount-on').disabled = mount >= run.surface.mounts.length - 1;
  const one = run.surface.mounts[mount];
  $('mutation-title').textContent = one ? `Mutations of mount ${one.number} (${one.base}→${one.to}): ${count}` : 'Mutations';
  mutations.show(count, step - 1);
}

function showScreen() {
  const run = playback();
  const now = run.step > 0 ? report.items.tag[itemAt(run.step - 1)] : null;
  screen.show({ placed, before: run.placedBefore ?? new Map(), changes, views: run.views, now, selected });
  for (const note of $('boxes').querySelectorAll('.empty')) note.remove();
  if (placed.length === 0 && screen.byTag.size === 0) $('boxes').append(textIn('p', run.surface.mounts.length === 0 ? 'Nothing was mounted on this surface.' : 'There are no views at this step.', 'empty'));
  showOutside(run);
}

// The views that are made and not in the tree at this step.
function showOutside(run) {
  const outside = [...run.views.nodes.values()].filter((node) => !node.parent && node.tag !== 0).map((node) => node.tag);
  const hidden = placed.filter((place) => !place.shown).map((place) => place.tag);
  const text = [];
  if (outside.length > 0) text.push(`Not in the tree at this step: ${listed(outside)}.`);
  if (hidden.length > 0) text.push(`Clipped away whole: ${listed(hidden)}.`);
  if (text.length === 0) text.push(`${placed.length} ${placed.length === 1 ? 'view' : 'views'} in the tree.`);
  $('outside').textContent = text.join(' ');
}

function listed(tags) {
  return tags.slice(0, 24).join(', ') + (tags.length > 24 ? ` and ${tags.length - 24} more` : '');
}

function itemAt(step) { return playback().surface.mounts[playback().mount].first + step; }

function select(tag) {
  selected = tag;
  hovered = null;
  showScreen();
  showDetails();
  screen.bringIntoSight(tag);
}

// ---- The parts

function showDetails() {
  const tag = hovered ?? selected;
  const rows = tag === null ? [] : detailsOf(tag);
  if (rows.length === 0) {
    $('detail-list').replaceChildren(textIn('dd', tag === null ? 'Point at a view, or click it to keep it here.' : `View ${tag} is not there at this step.`));
    $('detail-list').firstChild.style.gridColumn = '1 / 3';
    return;
  }
  $('detail-list').replaceChildren(...rows.flatMap(([name, value]) => [textIn('dt', name), textIn('dd', value)]));
}

// What the report says of a view, and where that puts it.
function detailsOf(tag) {
  const run = playback();
  const node = run.views.get(tag);
  const place = placed.find((one) => one.tag === tag) ?? (node ? null : run.placedBefore?.get(tag));
  const view = node ? report.view(node.item) : place?.view;
  if (!view) return [];
  const { frame, state } = view;
  const rows = [['tag', String(tag)], ['kind', view.kind]];
  const done = changes.get(tag);
  const words = done ? Object.keys(done).filter((word) => done[word]) : [];
  if (words.length > 0) rows.push(['this mount', words.join(', ')]);
  rows.push(['stands', node && !node.parent ? 'not in the tree' : place ? `in ${place.parent} at ${place.index}${node ? '' : ', before the mount'}` : '–']);
  rows.push(['frame', `${frame.x}, ${frame.y}; ${frame.width} × ${frame.height}`]);
  if (place) {
    const { rect, shown } = place;
    rows.push(['on surface', `${rect.x}, ${rect.y}`]);
    if (!shown) rows.push(['clipped', 'away whole']);
    else if (shown.width !== rect.width || shown.height !== rect.height) rows.push(['clipped', `to ${shown.x}, ${shown.y}; ${shown.width} × ${shown.height}`]);
  }
  if (state) rows.push(['state', `${state.x}, ${state.y}; count ${state.count}`]);
  for (const [name, value] of view.props) rows.push([name, valueText(name, value)]);
  if (view.label !== null) rows.push(['label', view.label]);
  return rows;
}

function valueText(name, value) {
  if (name === 'background' || name === 'shadow' || name.endsWith('color')) return `${value} (#${value.toString(16).padStart(8, '0')}, alpha first)`;
  if (name === 'pointer') return `${value} (${['auto', 'none', 'box-none', 'box-only'][value]})`;
  return String(value);
}

function fillMutation(row, at) {
  const run = playback();
  if (at >= run.step) row.classList.add('later');
  row.append(textIn('u', at + 1), report.itemText(itemAt(at)));
}

// ---- Search

function startSearch(text) {
  const tag = /^[1-9][0-9]{0,9}$/.test(text.trim()) ? Number(text) : 0;
  if (!report) return;
  found = tag ? fabric.search(report, tag) : [];
  foundAt = -1;
  $('found-part').hidden = false;
  $('found-title').textContent = tag ? `Tag ${tag}: ${found.length} ${found.length === 1 ? 'place' : 'places'}` : 'A tag is a number from 1 on';
  if (tag) select(tag);
  foundList.show(found.length, -1);
}

function closeSearch() {
  found = [];
  // What is hidden keeps the focus for a while, and the keys would still go to it.
  if ($('found-part').contains(document.activeElement)) {
    document.activeElement.blur();
    $('screen').focus();
  }
  $('found-part').hidden = true;
  foundList.show(0, -1);
}

function fillFound(row, at) {
  const one = found[at];
  if (one.step) {
    row.append(`cancelled  ${fabric.stepText(one.step)}`);
    return;
  }
  const { id, mounts } = report.surfaces[one.surface];
  const place = one.last ? 'last views' : `mount ${mounts[one.mount].number}, ${one.at + 1}`;
  row.append(`surface ${id}, ${place}: ${report.itemText(one.item)}`);
}

function goToFound(at) {
  const one = found[at];
  if (!one) return;
  foundAt = at;
  if (one.step) timeline.pick(timeline.lanes.flatMap((lane) => lane.items).find((item) => item.step === one.step), false);
  else if (one.last) goTo(one.surface, Infinity, Infinity);
  else goTo(one.surface, one.mount, one.at + 1);
  if (!one.step) select(report.items.tag[one.item]);
  foundList.show(found.length, at);
}

// ---- The time line

// A mount is gone to at its end. A commit or an admitted step is gone to at the first mount that shows it.
function goToItem(item) {
  if (item.type === 'mount') goTo(item.surface, item.m, Infinity);
  else if (item.type === 'commit') goToCommit(item.surface, item.commit.number);
  else {
    const { step } = item;
    const on = report.surfaces.findIndex((one) => one.id === step.on);
    if (step.answer === 'mounted') goTo(on, report.surfaces[on].mounts.findIndex((mount) => mount.base === step.base && mount.to === step.to), Infinity);
    else goToCommit(on, step.number);
  }
}

function goToCommit(on, number) {
  const mount = report.surfaces[on].mounts.findIndex(({ to }) => number <= to);
  if (mount < 0) $('lane-text').textContent += ' No mount reached it.';
  else goTo(on, mount, number === 0 ? 0 : Infinity);
}

// ---- Keys and buttons

function move(name) {
  const run = playback();
  if (!report || !run) return;
  const { mount, step } = run;
  switch (name) {
    case 'step-first': return goTo(surface, mount, 0);
    case 'step-back': return step > 0 || mount === 0 ? goTo(surface, mount, step - 1) : goTo(surface, mount - 1, Infinity);
    case 'step-on': return step < run.count || mount >= run.surface.mounts.length - 1 ? goTo(surface, mount, step + 1) : goTo(surface, mount + 1, 0);
    case 'step-last': return goTo(surface, mount, Infinity);
    case 'mount-back': return goTo(surface, mount - 1, Infinity);
    default: return goTo(surface, mount + 1, Infinity);
  }
}

// The view before or after the chosen one, in host preorder.
function selectBeside(way) {
  const tags = placed.map((place) => place.tag);
  if (tags.length === 0) return;
  const at = tags.indexOf(selected);
  select(tags[at < 0 ? 0 : Math.max(0, Math.min(tags.length - 1, at + way))]);
}

const KEYS = { ArrowLeft: 'step-back', ArrowRight: 'step-on', Home: 'step-first', End: 'step-last', PageUp: 'mount-back', PageDown: 'mount-on' };

function key(event) {
  if (event.ctrlKey || event.altKey || event.metaKey || !report) return;
  const { target } = event;
  if (target.matches('input:not([type=checkbox]), select')) {
    if (event.key === 'Escape') target.blur();
    return;
  }
  if (event.key === '/') {
    event.preventDefault();
    $('search').focus();
    $('search').select();
    return;
  }
  if (event.key === 'Escape') closeSearch();
  const way = { ArrowUp: -1, ArrowDown: 1 }[event.key];
  if (way && target === $('found') && found.length > 0) goToFound(Math.max(0, Math.min(found.length - 1, foundAt + way)));
  else if (way && target === $('mutations')) move(way < 0 ? 'step-back' : 'step-on');
  else if (way) selectBeside(way);
  else if (KEYS[event.key]) move(KEYS[event.key]);
  else return;
  event.preventDefault();
}

for (const id of ['step-first', 'step-back', 'step-on', 'step-last', 'mount-back', 'mount-on']) $(id).addEventListener('click', () => move(id));
for (const id of ['open', 'open-too', 'open-other']) $(id).addEventListener('click', () => $('file').click());
$('file').addEventListener('change', (event) => { openFile(event.target.files[0]); event.target.value = ''; });
$('examples').addEventListener('change', (event) => { openExample(event.target.value); });
$('surfaces').addEventListener('change', (event) => goTo(Number(event.target.value), 0, Infinity));
$('mounts').addEventListener('change', (event) => goTo(surface, Number(event.target.value), Infinity));
$('scale').addEventListener('change', (event) => { screen.scale = event.target.value; screen.draw(); });
$('paint').addEventListener('change', (event) => { screen.paint = event.target.checked; screen.draw(); });
$('zoom-in').addEventListener('click', () => timeline.zoom(2));
$('zoom-out').addEventListener('click', () => timeline.zoom(0.5));
$('zoom-fit').addEventListener('click', () => timeline.zoomFit());
$('found-close').addEventListener('click', closeSearch);
$('search-form').addEventListener('submit', (event) => { event.preventDefault(); startSearch($('search').value); if (!$('found-part').hidden) $('found').focus(); });
document.addEventListener('keydown', key);
new ResizeObserver(() => { if (report) screen.draw(); }).observe($('screen'));

document.addEventListener('dragover', (event) => { event.preventDefault(); document.body.classList.add('dropping'); });
document.addEventListener('dragleave', (event) => { if (!event.relatedTarget) document.body.classList.remove('dropping'); });
document.addEventListener('drop', (event) => {
  event.preventDefault();
  document.body.classList.remove('dropping');
  openFile(event.dataTransfer.files[0]);
});

for (const { name } of fabric.examples) {
  $('examples').append(option(name, name));
  const link = textIn('a', name);
  link.href = `#example=${name}`;
  const item = document.createElement('li');
  item.append(link);
  $('example-list').append(item);
}

// #example=NAME, and where to go: surface=ID, mount=NUMBER, step=NUMBER, select=TAG.
async function goToFragment() {
  const words = new URLSearchParams(location.hash.slice(1));
  if (!words.has('example')) return;
  $('examples').value = words.get('example');
  await openExample(words.get('example'));
  if (!report || report.surfaces.length === 0) return;
  const on = report.surfaces.findIndex((one) => String(one.id) === words.get('surface'));
  const mount = words.has('mount') ? Number(words.get('mount')) - 1 : 0;
  goTo(Math.max(0, on), mount || 0, words.has('step') ? Number(words.get('step')) || 0 : Infinity);
  if (Number(words.get('select')) > 0) select(Number(words.get('select')));
}
addEventListener('hashchange', goToFragment);
goToFragment();

// For the tests.
fabric.page = { openBytes, goTo, get where() { return { surface, mount: playback()?.mount, step: playback()?.step, selected, found: found.length, placed: placed.length }; } };
})(globalThis.fabric ??= {});
