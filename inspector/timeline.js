// The time line: a lane of commits and a lane of mounts for each surface, and a lane of steps for each actor. A report
// tells no common time, so a surface's lanes go by its commits' numbers and an actor's by its steps'. Only what is in
// sight is drawn; where steps are narrower than a few points, several share a bar.
(function (fabric) {
'use strict';

const GUTTER = 132;
const LANE = 22;
const RULER = 18;
const WIDEST = 46;

class Timeline {
  constructor(element, canvas, space, text, choose) {
    Object.assign(this, { element, canvas, space, text, choose });
    this.lanes = [];
    this.unit = 1;
    this.cursor = null;
    this.here = null;
    element.addEventListener('scroll', () => this.draw());
    canvas.addEventListener('click', (event) => this.click(event));
    canvas.addEventListener('mousemove', (event) => this.hover(event));
    canvas.addEventListener('mouseleave', () => this.tell(this.cursor));
    element.addEventListener('keydown', (event) => this.key(event));
    element.addEventListener('wheel', (event) => {
      if (!event.ctrlKey) return;
      event.preventDefault();
      this.zoom(event.deltaY < 0 ? 1.25 : 0.8, event.offsetX);
    }, { passive: false });
    new ResizeObserver(() => this.resized()).observe(element);
    matchMedia('(prefers-color-scheme: dark)').addEventListener('change', () => this.draw());
  }

  show(report) {
    this.lanes = [];
    report.surfaces.forEach((surface, s) => {
      this.lanes.push({ name: `surface ${surface.id}`, items: surface.commits.map((commit) => ({ type: 'commit', commit, surface: s, from: commit.number - 0.5, to: commit.number + 0.5 })) });
      this.lanes.push({ name: '· mounts', items: surface.mounts.map((mount, m) => ({ type: 'mount', mount, m, surface: s, from: mount.base + 0.5, to: mount.to + 0.5 })) });
    });
    for (const actor of report.actors) {
      this.lanes.push({ name: actor.name, items: actor.steps.map((step) => ({ type: 'step', step, from: step.call - 0.5, to: step.call + 0.5 })) });
    }
    this.lanes.forEach((lane, l) => lane.items.forEach((item, i) => { item.lane = l; item.at = i; }));
    this.length = 1 + Math.max(1, ...this.lanes.map((lane) => (lane.items.length ? lane.items[lane.items.length - 1].to : 0)));
    this.surfaceIds = report.surfaces.map((surface) => surface.id);
    this.cursor = null;
    this.here = null;
    this.fit = true;
    this.element.scrollTop = 0;
    this.resized();
    this.tell(null);
  }

  get wide() { return Math.max(50, this.element.clientWidth - GUTTER - 8); }

  resized() {
    this.element.style.height = `${this.lanes.length * LANE + RULER + 14}px`;
    if (this.fit) this.unit = Math.min(WIDEST, this.wide / (this.length || 1));
    this.layout();
  }

  layout() {
    this.space.style.width = `${GUTTER + this.length * this.unit}px`;
    this.space.style.height = `${RULER + this.lanes.length * LANE}px`;
    this.draw();
  }

  zoom(factor, around = GUTTER + this.wide / 2) {
    const at = (this.element.scrollLeft + around - GUTTER) / this.unit;
    const least = Math.min(WIDEST, this.wide / this.length);
    this.unit = Math.max(least, Math.min(WIDEST, this.unit * factor));
    this.fit = this.unit === least;
    this.layout();
    this.element.scrollLeft = at * this.unit + GUTTER - around;
    this.draw();
  }

  zoomFit() {
    this.fit = true;
    this.resized();
  }

  // What is shown on the screen: that mount is marked.
  mark(surface, mount) {
    this.here = this.lanes.flatMap((lane) => lane.items).find((item) => item.type === 'mount' && item.surface === surface && item.m === mount) ?? null;
    if (this.here) this.bringIntoSight(this.here);
    this.draw();
  }

  bringIntoSight(item) {
    const { element } = this;
    const left = (item.from + 0.5) * this.unit;
    const right = (item.to + 0.5) * this.unit;
    if (left < element.scrollLeft) element.scrollLeft = left - 20;
    else if (right > element.scrollLeft + this.wide) element.scrollLeft = right - this.wide + 20;
    const top = item.lane * LANE;
    const high = element.clientHeight - RULER;
    if (top < element.scrollTop) element.scrollTop = top;
    else if (top + LANE > element.scrollTop + high) element.scrollTop = top + LANE - high;
  }

  colors() {
    const style = getComputedStyle(document.documentElement);
    return Object.fromEntries(['ink', 'soft', 'line', 'panel', 'focus', 'here', 'created', 'updated', 'moved', 'removed', 'deleted'].map((name) => [name, style.getPropertyValue(`--${name}`).trim()]));
  }

  draw() {
    const { element, canvas } = this;
    const width = element.clientWidth;
    const height = element.clientHeight;
    if (width === 0 || height === 0) return;
    const dots = globalThis.devicePixelRatio || 1;
    if (canvas.width !== Math.round(width * dots) || canvas.height !== Math.round(height * dots)) {
      canvas.width = Math.round(width * dots);
      canvas.height = Math.round(height * dots);
      canvas.style.width = `${width}px`;
      canvas.style.height = `${height}px`;
    }
    const paint = canvas.getContext('2d');
    paint.setTransform(dots, 0, 0, dots, 0, 0);
    const colors = this.colors();
    paint.fillStyle = colors.panel;
    paint.fillRect(0, 0, width, height);
    paint.font = '12px system-ui, sans-serif';
    paint.textBaseline = 'middle';
    const first = Math.max(0, Math.floor(element.scrollTop / LANE));
    const last = Math.min(this.lanes.length, Math.ceil((element.scrollTop + height) / LANE));
    for (let l = first; l < last; l++) this.drawLane(paint, colors, l, width);
    this.drawRuler(paint, colors, width);
  }

  // A number stands in the middle of its unit; the first is 0.
  x(position) { return GUTTER + (position + 0.5) * this.unit - this.element.scrollLeft; }
  y(lane) { return RULER + lane * LANE - this.element.scrollTop; }

  drawRuler(paint, colors, width) {
    paint.fillStyle = colors.panel;
    paint.fillRect(0, 0, width, RULER);
    paint.fillStyle = colors.soft;
    paint.fillText('number', 4, RULER / 2);
    let every = 1;
    for (let i = 0; every * this.unit < 44; i++) every *= i % 3 === 1 ? 2.5 : 2; // 1, 2, 5, 10, 20, 50, …
    const from = Math.max(0, Math.floor(this.element.scrollLeft / this.unit / every) * every);
    for (let n = from; this.x(n) < width; n += every) {
      if (this.x(n) >= GUTTER && n < this.length) {
        paint.textAlign = 'center';
        paint.fillText(String(n), this.x(n), RULER / 2);
      }
    }
    paint.textAlign = 'left';
  }

  drawLane(paint, colors, l, width) {
    const lane = this.lanes[l];
    const y = this.y(l);
    paint.save();
    paint.beginPath();
    paint.rect(GUTTER, 0, width - GUTTER, 1e5);
    paint.clip();
    paint.strokeStyle = colors.line;
    paint.lineWidth = 1;
    paint.beginPath();
    paint.moveTo(GUTTER, y + LANE - 0.5);
    paint.lineTo(width, y + LANE - 0.5);
    paint.stroke();
    let upTo = -1;
    for (let i = this.firstInSight(lane); i < lane.items.length; i++) {
      const item = lane.items[i];
      const left = this.x(item.from);
      const right = this.x(item.to);
      if (left > width) break;
      // What is narrower than three points shares a bar; what is cancelled or chosen is drawn all the same.
      const matters = item === this.cursor || item === this.here || item.step?.answer === 'cancelled';
      if (right <= upTo && !matters) continue;
      upTo = Math.max(right, left + 3);
      this.drawItem(paint, colors, item, left, Math.max(3, right - left), y);
    }
    paint.restore();
    paint.fillStyle = colors.panel;
    paint.fillRect(0, y, GUTTER, LANE);
    paint.fillStyle = lane.name.startsWith('·') ? colors.soft : colors.ink;
    paint.fillText(lane.name, 4, y + LANE / 2, GUTTER - 10);
  }

  firstInSight(lane) {
    const from = this.element.scrollLeft / this.unit - 2;
    let low = 0;
    let high = lane.items.length;
    while (low < high) {
      const middle = (low + high) >> 1;
      if (lane.items[middle].to < from) low = middle + 1;
      else high = middle;
    }
    return low;
  }

  drawItem(paint, colors, item, left, width, y) {
    const { color, sign, filled } = lookOf(item, colors);
    const gap = width > 6 ? 1 : 0;
    paint.fillStyle = color;
    paint.strokeStyle = color;
    paint.lineWidth = 1.5;
    if (filled) paint.fillRect(left + gap, y + 3, width - 2 * gap, LANE - 7);
    else paint.strokeRect(left + gap + 1, y + 4, Math.max(1, width - 2 * gap - 2), LANE - 9);
    if (paint.measureText(sign).width + 4 <= width) {
      paint.fillStyle = filled ? colors.panel : color;
      paint.textAlign = 'center';
      paint.fillText(sign, left + width / 2, y + LANE / 2 - 0.5);
      paint.textAlign = 'left';
    }
    if (item === this.here || item === this.cursor) {
      paint.strokeStyle = item === this.here ? colors.focus : colors.ink;
      paint.lineWidth = 3;
      paint.strokeRect(left, y + 1.5, width, LANE - 4);
    }
  }

  at(event) {
    const box = this.canvas.getBoundingClientRect();
    const x = event.clientX - box.left;
    const y = event.clientY - box.top;
    if (y < RULER || x < GUTTER) return null;
    const lane = this.lanes[Math.floor((y - RULER + this.element.scrollTop) / LANE)];
    if (!lane) return null;
    const position = (x - GUTTER + this.element.scrollLeft) / this.unit - 0.5;
    return lane.items.find((item) => position >= item.from && position < Math.max(item.to, item.from + 3 / this.unit)) ?? null;
  }

  hover(event) {
    const item = this.at(event);
    this.canvas.style.cursor = item ? 'pointer' : '';
    this.tell(item ?? this.cursor);
  }

  click(event) {
    const item = this.at(event);
    if (item) this.pick(item, true);
  }

  pick(item, go) {
    this.cursor = item;
    this.bringIntoSight(item);
    this.tell(item);
    this.draw();
    if (go) this.choose(item);
  }

  key(event) {
    if (event.ctrlKey || event.altKey || event.metaKey) return;
    const current = this.cursor ?? this.here ?? this.lanes.find((lane) => lane.items.length)?.items[0];
    if (!current) return;
    let next = null;
    const { items } = this.lanes[current.lane];
    switch (event.key) {
      case 'ArrowLeft': next = items[Math.max(0, current.at - 1)]; break;
      case 'ArrowRight': next = items[Math.min(items.length - 1, current.at + 1)]; break;
      case 'Home': next = items[0]; break;
      case 'End': next = items[items.length - 1]; break;
      case 'ArrowUp': next = this.beside(current, -1); break;
      case 'ArrowDown': next = this.beside(current, 1); break;
      case 'Enter': this.pick(current, true); break;
      case '+': this.zoom(1.5); break;
      case '-': this.zoom(1 / 1.5); break;
      default: return;
    }
    event.preventDefault();
    event.stopPropagation();
    if (next) this.pick(next, false);
  }

  // The item nearest to this one on the next lane that has any.
  beside(item, way) {
    for (let l = item.lane + way; l >= 0 && l < this.lanes.length; l += way) {
      const { items } = this.lanes[l];
      if (items.length === 0) continue;
      return items.find((other) => other.to > item.from) ?? items[items.length - 1];
    }
    return item;
  }

  tell(item) {
    this.text.textContent = item ? this.textOf(item) : 'Point at a commit, a mount or a step to read it; a click goes there. C complete, S state, P props, Z size, X stop, ‖ suspend, ▸ resume, and the tries where there were several; ✓ admitted, × cancelled, m mounted, 0 nothing newer, h held.';
  }

  textOf(item) {
    if (item.type === 'commit') {
      const { number, actor, call, word, held, tries } = item.commit;
      return `Surface ${this.surfaceIds[item.surface]}, commit ${number}: ${word} by ${actor}, call ${call}; held ${held}; ${tries === 1 ? '1 try' : `${tries} tries`}.`;
    }
    if (item.type === 'mount') {
      const { number, base, to, count, actor, call } = item.mount;
      return `Surface ${this.surfaceIds[item.surface]}, mount ${number}: from ${base} to ${to} ${actor === null ? 'at the closing' : `by ${actor}, call ${call}`}; ${count === 1 ? '1 mutation' : `${count} mutations`}.`;
    }
    return fabric.stepText(item.step);
  }
}

// A step's answer as a sentence.
fabric.stepText = function stepText(step) {
  const head = `${step.actor}, step ${step.call} on surface ${step.on}:`;
  const tries = step.tries === 1 ? '1 try' : `${step.tries} tries`;
  switch (step.answer) {
    case 'held': return `${head} held ${step.number}.`;
    case 'admitted': return `${head} admitted as commit ${step.number}; ${tries}.`;
    case 'mounted': return `${head} mounted from ${step.base} to ${step.to}.`;
    case 'empty': return `${head} a mount that found nothing newer than ${step.number}.`;
    default: {
      const carried = (step.tag === undefined ? '' : `, tag ${step.tag}`) + (step.count === undefined ? '' : `, count ${step.count}`);
      return `${head} cancelled at ${step.number}; ${tries}; cause ${step.causeNumber} ${step.cause}${carried}.`;
    }
  }
};

// Kinds of items differ by sign and form, not by color alone.
function lookOf(item, colors) {
  if (item.type === 'commit') {
    const sign = { complete: 'C', state: 'S', props: 'P', size: 'Z', stop: 'X', suspend: '‖', resume: '▸' }[item.commit.word];
    return { color: item.commit.tries > 1 ? colors.updated : colors.ink, sign: item.commit.tries > 1 ? `${sign}${item.commit.tries}` : sign, filled: true };
  }
  if (item.type === 'mount') return { color: colors.moved, sign: `${item.mount.base}→${item.mount.to}`, filled: false };
  switch (item.step.answer) {
    case 'held': return { color: colors.soft, sign: 'h', filled: false };
    case 'admitted': return { color: colors.soft, sign: '✓', filled: true };
    case 'mounted': return { color: colors.moved, sign: 'm', filled: true };
    case 'empty': return { color: colors.removed, sign: '0', filled: false };
    default: return { color: colors.deleted, sign: '×', filled: true };
  }
}

fabric.Timeline = Timeline;
})(globalThis.fabric ??= {});
