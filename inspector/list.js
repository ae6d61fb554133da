// A list of many rows of one height, of which only those in sight are in the page.
(function (fabric) {
'use strict';

const ROW = 20;
const HIGHEST = 15000000; // what a browser still scrolls

class LongList {
  // `fill(row, i)` writes row i; `choose(i)` is called by a click and by Enter.
  constructor(element, fill, choose) {
    this.element = element;
    this.fill = fill;
    this.count = 0;
    this.space = document.createElement('div');
    element.append(this.space);
    element.addEventListener('scroll', () => this.draw());
    element.addEventListener('click', (event) => {
      const row = event.target.closest('.row');
      if (row) choose(Number(row.dataset.at));
    });
    new ResizeObserver(() => this.draw()).observe(element);
  }

  show(count, here) {
    this.count = count;
    this.here = here;
    this.space.style.height = `${Math.min(count * ROW, HIGHEST)}px`;
    this.bringIntoSight(here);
    this.draw();
  }

  bringIntoSight(at) {
    if (at < 0) return;
    const { element } = this;
    const top = at * ROW;
    if (top < element.scrollTop) element.scrollTop = top;
    else if (top + ROW > element.scrollTop + element.clientHeight) element.scrollTop = top + ROW - element.clientHeight;
  }

  draw() {
    const { element, count } = this;
    const first = Math.max(0, Math.floor(element.scrollTop / ROW) - 2);
    const last = Math.min(count, first + Math.ceil(element.clientHeight / ROW) + 5);
    const rows = [];
    for (let at = first; at < last; at++) {
      const row = document.createElement('div');
      row.className = 'row';
      row.dataset.at = at;
      row.setAttribute('role', 'option');
      row.setAttribute('aria-posinset', at + 1);
      row.setAttribute('aria-setsize', count);
      row.setAttribute('aria-selected', at === this.here);
      row.style.top = `${at * ROW}px`;
      if (at === this.here) row.classList.add('here');
      this.fill(row, at);
      rows.push(row);
    }
    this.space.replaceChildren(...rows);
  }
}

fabric.LongList = LongList;
})(globalThis.fabric ??= {});
