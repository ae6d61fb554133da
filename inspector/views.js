// The model of the host views: what the mutations of a report make of them, step by step, forward and back.
(function (fabric) {
'use strict';

const { CREATE, DELETE, INSERT, REMOVE, UPDATE } = fabric;

// The views of a surface. A node has its tag, the item that tells its view, its parent and its children in their order;
// the root, 0, has no view. A node without a parent is not in the tree: it was created or removed, and not yet inserted.
class Views {
  constructor(report) {
    this.report = report;
    this.root = { tag: 0, item: -1, parent: null, children: [] };
    this.nodes = new Map([[0, this.root]]);
  }

  get(tag) {
    return this.nodes.get(tag);
  }

  // Why a mutation may not be applied, or null.
  refusal(item) {
    const { items } = this.report;
    const tag = items.tag[item];
    const node = this.nodes.get(tag);
    switch (items.word[item]) {
      case CREATE:
        return node ? `view ${tag} is there already` : null;
      case DELETE:
        if (!node) return `there is no view ${tag}`;
        if (node.parent) return `view ${tag} is still in ${node.parent.tag}`;
        return node.children.length > 0 ? `view ${tag} still has children` : null;
      case INSERT: {
        const parent = this.nodes.get(items.parent[item]);
        if (!parent) return `there is no view ${items.parent[item]}`;
        if (!node) return `there is no view ${tag}`;
        if (node.parent) return `view ${tag} is in ${node.parent.tag} already`;
        if (node === parent || this.isBelow(parent, node)) return `view ${tag} would lie in itself`;
        return items.index[item] > parent.children.length ? `${parent.tag} has ${childrenText(parent)}, so nothing can be inserted at ${items.index[item]}` : null;
      }
      case REMOVE: {
        const parent = this.nodes.get(items.parent[item]);
        if (!parent) return `there is no view ${items.parent[item]}`;
        const child = parent.children[items.index[item]];
        if (!child) return `${parent.tag} has ${childrenText(parent)}, so none stands at ${items.index[item]}`;
        return child.tag === tag ? null : `view ${child.tag} stands there`;
      }
      default:
        if (!node) return `there is no view ${tag}`;
        return items.kind[node.item] === items.kind[item] ? null : `view ${tag} is of another kind`;
    }
  }

  isBelow(node, above) {
    for (let parent = node.parent; parent; parent = parent.parent) if (parent === above) return true;
    return false;
  }

  // Applies a mutation that may be applied. The item that told the view before is answered, for takeBack.
  apply(item) {
    const { items } = this.report;
    const tag = items.tag[item];
    const node = this.nodes.get(tag);
    switch (items.word[item]) {
      case CREATE:
        this.nodes.set(tag, { tag, item, parent: null, children: [] });
        return -1;
      case DELETE:
        this.nodes.delete(tag);
        return node.item;
      case INSERT:
        this.put(node, items.parent[item], items.index[item]);
        return -1;
      case REMOVE:
        this.cut(node, items.index[item]);
        return -1;
      default: {
        const before = node.item;
        node.item = item;
        return before;
      }
    }
  }

  // Takes back the mutation that was applied last.
  takeBack(item, before) {
    const { items } = this.report;
    const tag = items.tag[item];
    const node = this.nodes.get(tag);
    switch (items.word[item]) {
      case CREATE:
        this.nodes.delete(tag);
        break;
      case DELETE:
        this.nodes.set(tag, { tag, item: before, parent: null, children: [] });
        break;
      case INSERT:
        this.cut(node, items.index[item]);
        break;
      case REMOVE:
        this.put(node, items.parent[item], items.index[item]);
        break;
      default:
        node.item = before;
    }
  }

  put(node, parentTag, index) {
    const parent = this.nodes.get(parentTag);
    parent.children.splice(index, 0, node);
    node.parent = parent;
  }

  cut(node, index) {
    node.parent.children.splice(index, 1);
    node.parent = null;
  }

  // The nodes in the tree, in host preorder, each with its index and depth.
  inOrder() {
    const found = [];
    const open = [{ node: this.root, index: 0, depth: 0 }];
    while (open.length > 0) {
      const here = open.pop();
      if (here.node !== this.root) found.push(here);
      const { children } = here.node;
      for (let i = children.length - 1; i >= 0; i--) open.push({ node: children[i], index: i, depth: here.depth + 1 });
    }
    return found;
  }

  // All nodes, in three columns: the tree in host preorder. Only taken where each node is in the tree.
  snapshot() {
    const order = this.inOrder();
    return {
      tag: Uint32Array.from(order, ({ node }) => node.tag),
      parent: Uint32Array.from(order, ({ node }) => node.parent.tag),
      item: Uint32Array.from(order, ({ node }) => node.item),
    };
  }

  static from(report, { tag, parent, item }) {
    const views = new Views(report);
    for (let i = 0; i < tag.length; i++) {
      const above = views.nodes.get(parent[i]);
      const node = { tag: tag[i], item: item[i], parent: above, children: [] };
      above.children.push(node);
      views.nodes.set(node.tag, node);
    }
    return views;
  }
}

function childrenText({ children }) {
  return children.length === 1 ? '1 child' : `${children.length} children`;
}

const MUTATIONS_A_SNAPSHOT = 20000;
const MUTATIONS_A_SLICE = 20000;

// The views of one surface at any mount and any step of it. `mount` counts from 0, `step` mutations of it are applied.
// Where a surface has no mount, `mount` is 0 and nothing can be applied.
class Playback {
  constructor(report, surface) {
    this.report = report;
    this.surface = surface;
    this.snapshots = [{ mount: 0, views: new Views(report).snapshot() }];
    this.start(0);
  }

  // Goes over all mounts once: each mutation may be applied, each mount leaves every view in the tree, and the views
  // at the end are those that the report prints last. On the way it takes the snapshots that goTo begins at.
  * checking() {
    const { report, surface } = this;
    const views = new Views(report);
    let since = 0;
    let slice = 0;
    for (let m = 0; m < surface.mounts.length; m++) {
      const mount = surface.mounts[m];
      // A snapshot costs as much as the views that it has.
      if (since > MUTATIONS_A_SNAPSHOT + 4 * views.nodes.size) {
        this.snapshots.push({ mount: m, views: views.snapshot() });
        since = 0;
      }
      for (let i = 0; i < mount.count; i++) {
        const why = views.refusal(mount.first + i);
        if (why) this.fail(mount.line + 1 + i, mount.first + i, why);
        views.apply(mount.first + i);
        slice += 1;
        if (slice % MUTATIONS_A_SLICE === 0) yield slice;
      }
      this.checkNoneOutside(views, mount);
      since += mount.count;
    }
    this.checkLast(views);
  }

  fail(line, item, text) {
    throw new fabric.ReportError(line, this.report.items.start[item], text);
  }

  checkNoneOutside(views, mount) {
    for (const node of views.nodes.values()) {
      if (!node.parent && node !== views.root) {
        throw new fabric.ReportError(mount.line, mount.start, `this transaction leaves view ${node.tag} outside the tree`);
      }
    }
  }

  checkLast(views) {
    const { report, surface } = this;
    const { items } = report;
    const order = views.inOrder();
    for (let i = 0; i < surface.views.count; i++) {
      const item = surface.views.first + i;
      const line = surface.views.line + 1 + i;
      if (i >= order.length) this.fail(line, item, `the mutations leave ${order.length} views, and this is one more`);
      const { node, index } = order[i];
      if (node.tag !== items.tag[item] || node.parent.tag !== items.parent[item] || index !== items.index[item]) {
        this.fail(line, item, `the mutations leave view ${node.tag} in ${node.parent.tag} at ${index} here`);
      }
      if (!report.isSameView(node.item, item)) this.fail(line, item, `the mutations leave another view ${node.tag}: ${report.itemText(node.item)}`);
    }
    if (order.length > surface.views.count) {
      const { line, start } = surface.views;
      throw new fabric.ReportError(line, start, `the mutations leave ${order.length} views, and ${surface.views.count} are printed`);
    }
  }

  start(mount) {
    let from = this.snapshots[0];
    for (const snapshot of this.snapshots) if (snapshot.mount <= mount) from = snapshot;
    this.views = Views.from(this.report, from.views);
    this.mount = from.mount;
    this.open();
    while (this.mount < mount) this.leadOn();
  }

  // The beginning of a mount: nothing to take back, and the views as they are now are those before it.
  open() {
    this.step = 0;
    this.before = [];
    this.placedBefore = null;
  }

  leadOn() {
    const { first, count } = this.surface.mounts[this.mount];
    for (let i = this.step; i < count; i++) this.views.apply(first + i);
    this.mount += 1;
    this.open();
  }

  get count() {
    return this.surface.mounts.length === 0 ? 0 : this.surface.mounts[this.mount].count;
  }

  goTo(mount, step) {
    mount = Math.max(0, Math.min(mount, this.surface.mounts.length - 1));
    if (mount === this.mount + 1) this.leadOn();
    else if (mount !== this.mount) this.start(mount);
    this.keepPlaces();
    step = Math.max(0, Math.min(step, this.count));
    while (this.step < step) this.forward();
    while (this.step > step) this.back();
  }

  // Where the views stand before the mount, for what it removes and deletes.
  keepPlaces() {
    if (this.placedBefore) return;
    const { step } = this;
    while (this.step > 0) this.back();
    this.placedBefore = new Map(places(this.views).map((place) => [place.tag, place]));
    while (this.step < step) this.forward();
  }

  forward() {
    const item = this.surface.mounts[this.mount].first + this.step;
    this.before.push(this.views.apply(item));
    this.step += 1;
  }

  back() {
    this.step -= 1;
    this.views.takeBack(this.surface.mounts[this.mount].first + this.step, this.before.pop());
  }

  // What the mutations of this mount, up to the step, have done to each tag. A view that stood there before and is
  // inserted again was moved; one that was removed and waits for that is removed.
  changes() {
    const { items } = this.report;
    const changes = new Map();
    for (let i = 0; i < this.step; i++) {
      const item = this.surface.mounts[this.mount].first + i;
      const tag = items.tag[item];
      const change = changes.get(tag) ?? { created: false, updated: false, moved: false, removed: false, deleted: false };
      changes.set(tag, change);
      switch (items.word[item]) {
        case CREATE: change.created = true; break;
        case UPDATE: change.updated = true; break;
        case REMOVE: change.removed = true; break;
        case DELETE: change.deleted = true; change.removed = false; break;
        case INSERT: if (change.removed) { change.removed = false; change.moved = true; }
      }
    }
    return changes;
  }
}

// Where each view in the tree is on the surface, in host preorder, which is the order of painting: a later one lies on
// top. A frame is in the host parent. A view with clip 1 clips what lies in it, not itself; `shown` is what that leaves
// of the rectangle, or null.
function places(views) {
  const inside = new Map([[0, { x: 0, y: 0, clip: null }]]);
  return views.inOrder().map(({ node, index, depth }) => {
    const view = views.report.view(node.item);
    const outer = inside.get(node.parent.tag);
    const rect = { x: outer.x + view.frame.x, y: outer.y + view.frame.y, width: view.frame.width, height: view.frame.height };
    const clips = view.props.some(([name, value]) => name === 'clip' && value === 1);
    inside.set(node.tag, { x: rect.x, y: rect.y, clip: clips ? common(rect, outer.clip) : outer.clip });
    return { tag: node.tag, parent: node.parent.tag, index, depth, view, rect, shown: shownOf(rect, outer.clip) };
  });
}

// What two rectangles have in common; null as a clip is everything.
function common(a, b) {
  if (!b) return a;
  const x = Math.max(a.x, b.x);
  const y = Math.max(a.y, b.y);
  return {
    x, y,
    width: Math.max(0, Math.min(a.x + a.width, b.x + b.width) - x),
    height: Math.max(0, Math.min(a.y + a.height, b.y + b.height) - y),
  };
}

// A clip without room shows nothing; a view without room is shown as a line or a point where the clip holds it.
function shownOf(rect, clip) {
  if (!clip) return rect;
  const shown = common(rect, clip);
  const misses = rect.x + rect.width < clip.x || rect.y + rect.height < clip.y || rect.x > clip.x + clip.width || rect.y > clip.y + clip.height;
  const empty = (shown.width === 0 && rect.width > 0) || (shown.height === 0 && rect.height > 0);
  return misses || empty || clip.width === 0 || clip.height === 0 ? null : shown;
}

// The topmost view over a point of the surface: the last in host preorder that holds it and is not clipped there.
function topmost(placed, x, y) {
  for (let i = placed.length - 1; i >= 0; i--) {
    const { shown } = placed[i];
    if (shown && x >= shown.x && y >= shown.y && x < shown.x + shown.width && y < shown.y + shown.height) return placed[i];
  }
  return null;
}

// All items of a tag in the whole run: mutations by surface, mount and step, last views, and the cancelled steps whose
// cause names it.
function search(report, tag) {
  const found = [];
  for (const actor of report.actors) {
    for (const step of actor.steps) if (step.tag === tag) found.push({ step });
  }
  const { items } = report;
  report.surfaces.forEach((surface, s) => {
    surface.mounts.forEach((mount, m) => {
      for (let i = 0; i < mount.count; i++) {
        if (items.tag[mount.first + i] === tag) found.push({ surface: s, mount: m, at: i, item: mount.first + i });
      }
    });
    for (let i = 0; i < surface.views.count; i++) {
      const item = surface.views.first + i;
      if (items.tag[item] === tag) found.push({ surface: s, last: true, item });
    }
  });
  return found;
}

Object.assign(fabric, { Views, Playback, places, topmost, search });
})(typeof module === 'object' ? Object.assign(module.exports, require('./report.js')) : (globalThis.fabric ??= {}));
