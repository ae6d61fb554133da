// The screen: each host view as a box at its place on the surface. The boxes stand in host preorder, so a later one lies
// on top, as in the report; what an ancestor with clip 1 cuts off is cut off here and is not found by the pointer.
(function (fabric) {
'use strict';

const SIGNS = { created: '+', updated: '~', moved: '⇄', removed: '−', deleted: '×' };
const MARGIN = 10;

class Screen {
  // `look(tag)` is called for the view under the pointer, or null; `choose(tag)` for a click.
  constructor(element, boxes, look, choose) {
    Object.assign(this, { element, boxes });
    this.byTag = new Map();
    this.scale = 'fit';
    this.paint = false;
    boxes.addEventListener('mouseover', (event) => look(tagOf(event.target)));
    boxes.addEventListener('mouseleave', () => look(null));
    boxes.addEventListener('click', (event) => {
      const tag = tagOf(event.target);
      if (tag) choose(tag);
    });
  }

  // What is shown: the places of the views now and before the mount, what was done to each tag, and the tags of the
  // mutation applied last and of the view chosen.
  show(shown) {
    this.shown = shown;
    this.draw();
  }

  draw() {
    if (!this.shown) return;
    const { placed, before, changes, views, now, selected } = this.shown;
    const extent = extentOf([...placed, ...before.values()]);
    const scale = this.scale === 'fit' ? fitting(extent, this.element) : Number(this.scale);
    this.boxes.style.width = `${extent.width * scale + 2 * MARGIN}px`;
    this.boxes.style.height = `${extent.height * scale + 2 * MARGIN}px`;
    // What the mount has taken out of the tree stands where it stood before.
    const inTree = new Set(placed.map((place) => place.tag));
    const gone = [...before.values()].filter((place) => !inTree.has(place.tag));
    const covered = coveredLabels(placed, scale);
    const drawn = [];
    // These lie below, so that they hide nothing that stands.
    for (const place of gone) {
      if (place.shown) drawn.push(this.box(place, [views.get(place.tag) ? 'removed' : 'deleted'], scale, extent, true, now, selected));
    }
    for (const place of placed) {
      if (place.shown) drawn.push(this.box(place, marksOf(changes.get(place.tag)), scale, extent, !covered.has(place.tag), now, selected));
    }
    this.arrange(drawn);
  }

  box(place, marks, scale, extent, hasLabel, now, selected) {
    const { tag, rect, shown, view } = place;
    let box = this.byTag.get(tag);
    if (!box) {
      box = document.createElement('div');
      box.dataset.tag = tag;
      this.byTag.set(tag, box);
    }
    const left = (rect.x - extent.x) * scale + MARGIN;
    const top = (rect.y - extent.y) * scale + MARGIN;
    const width = Math.max(rect.width * scale, 2);
    const height = Math.max(rect.height * scale, 2);
    const clips = view.props.some(([name, value]) => name === 'clip' && value === 1);
    const background = this.paint ? view.props.find(([name]) => name === 'background')?.[1] ?? 0 : 0;
    const signs = marks.map((mark) => SIGNS[mark]).join('');
    const label = hasLabel && width >= 22 && height >= 14 ? `${tag}${width >= 80 ? ` ${view.kind}` : ''}${clips && width >= 110 ? ' clips' : ''}` : '';
    const { state } = view;
    const scrolled = state && view.kind === 'scroll' ? `${state.x},${state.y}` : '';
    const look = [left, top, width, height, shown.x, shown.y, shown.width, shown.height, background, signs, label, scrolled, now === tag, selected === tag, clips].join();
    if (box.look === look) return box;
    box.look = look;
    box.className = ['box', clips ? 'clips' : '', Math.min(width, height) < 18 ? 'small' : '', ...marks.slice(-1), now === tag ? 'now' : '', selected === tag ? 'selected' : ''].join(' ');
    box.dataset.kind = view.kind;
    box.style.cssText = `left:${left}px;top:${top}px;width:${width}px;height:${height}px;${clipStyle(rect, shown, scale)}${background >= 16777216 ? `background-color:${cssColor(background)};` : ''}`;
    box.replaceChildren();
    const at = state && view.kind === 'scroll' ? state.y * scale : 0;
    if (at > 0 && at < height) {
      const line = document.createElement('i');
      line.style.top = `${at}px`;
      box.append(line);
    }
    if (label) box.append(textIn('span', scrolled && width >= 150 ? `${label}, scrolled to ${scrolled}` : label));
    if (signs && width >= 14 && height >= 14) box.append(textIn('b', signs));
    return box;
  }

  // Puts the boxes in this order and takes away all others, and touches only what stands otherwise.
  arrange(drawn) {
    const keep = new Set(drawn);
    for (const [tag, box] of this.byTag) {
      if (keep.has(box)) continue;
      box.remove();
      this.byTag.delete(tag);
    }
    let after = this.boxes.firstChild;
    for (const box of drawn) {
      if (box === after) after = after.nextSibling;
      else this.boxes.insertBefore(box, after);
    }
  }

  bringSomethingIntoSight() {
    const { top, bottom, left, right } = this.element.getBoundingClientRect();
    for (const box of this.boxes.children) {
      const here = box.getBoundingClientRect();
      if (here.bottom > top && here.top < bottom && here.right > left && here.left < right) return;
    }
    this.boxes.firstElementChild?.scrollIntoView({ block: 'start', inline: 'start' });
  }

  bringIntoSight(tag) {
    this.byTag.get(tag)?.scrollIntoView({ block: 'nearest', inline: 'nearest' });
  }
}

function tagOf(target) {
  return Number(target.closest('.box')?.dataset.tag) || null;
}

function textIn(name, text) {
  const element = document.createElement(name);
  element.textContent = text;
  return element;
}

// The last mark gives the border, and the signs tell all of them.
function marksOf(change) {
  if (!change) return [];
  return ['updated', 'moved', 'created'].filter((mark) => change[mark]);
}

// The part of the surface that has views in it, and its origin. A report does not tell the size of a surface.
function extentOf(places) {
  let left = 0, top = 0, right = 1, bottom = 1;
  for (const { shown } of places) {
    if (!shown) continue;
    left = Math.min(left, shown.x);
    top = Math.min(top, shown.y);
    right = Math.max(right, shown.x + shown.width);
    bottom = Math.max(bottom, shown.y + shown.height);
  }
  return { x: left, y: top, width: right - left, height: bottom - top };
}

// The whole width is seen, and all of the height where it is not much more than that.
function fitting(extent, element) {
  const wide = (element.clientWidth - 2 * MARGIN - 16) / extent.width;
  const high = (element.clientHeight - 2 * MARGIN - 4) / extent.height;
  return Math.min(8, wide, Math.max(high, wide / 4));
}

// The tags whose label a view above them would cover.
function coveredLabels(placed, scale) {
  const covered = new Set();
  const rects = new Map(placed.map((place) => [place.tag, place.rect]));
  for (const { parent, rect } of placed) {
    const outer = rects.get(parent);
    if (outer && (rect.y - outer.y) * scale < 13 && (rect.x - outer.x) * scale < 60) covered.add(parent);
  }
  return covered;
}

function clipStyle(rect, shown, scale) {
  if (shown.x === rect.x && shown.y === rect.y && shown.width === rect.width && shown.height === rect.height) return '';
  const sides = [shown.y - rect.y, rect.x + rect.width - shown.x - shown.width, rect.y + rect.height - shown.y - shown.height, shown.x - rect.x];
  return `clip-path:inset(${sides.map((side) => `${side * scale}px`).join(' ')});`;
}

// A color is alpha, red, green and blue, a byte each.
function cssColor(number) {
  const byte = (shift) => Math.floor(number / 2 ** shift) % 256;
  return `rgb(${byte(16)} ${byte(8)} ${byte(0)} / ${byte(24) / 255})`;
}

Object.assign(fabric, { Screen, cssColor, SIGNS });
})(globalThis.fabric ??= {});
