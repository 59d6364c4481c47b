// Draft against clock time: what the water allows, with what the ship sails, and the slots that are asked for.
import {shape} from './shapes.js';

const BOX = {left: 52, top: 12, wide: 900, high: 250};
const HEIGHT = 300;

export class Curve {
  /** `chosen(slot)` is told the slot that is pointed at or reached with the arrows. */
  constructor(host, legend, chosen) {
    Object.assign(this, {host, legend, chosen, slot: 0});
    host.addEventListener('pointermove', (event) => this.pointed(event));
    host.addEventListener('pointerdown', (event) => this.pointed(event));
    host.addEventListener('keydown', (event) => this.key(event));
  }

  show({name, clock, at}) {
    Object.assign(this, {clock, at});
    const drafts = at.flatMap((one) => [one.draft, one.allowed]).filter((one) => one !== null);
    const most = Math.max(...at.map((one) => one.draft ?? 0));
    this.low = Math.floor((Math.min(...drafts, most || 100) - 20) / 50) * 50;
    this.high = Math.ceil((Math.max(...drafts, this.low + 100) + 10) / 50) * 50;
    this.host.setAttribute('aria-label', `Draft of ${name} by the clock, slot`);
    this.host.setAttribute('aria-valuemin', at[0]?.slot ?? 0);
    this.host.setAttribute('aria-valuemax', at.at(-1)?.slot ?? 0);
    const svg = shape('svg', {viewBox: `0 0 ${BOX.left + BOX.wide + 12} ${HEIGHT}`, 'aria-hidden': 'true'});
    this.marks = shape('g', {});
    this.cursor = shape('path', {class: 'cursor'});
    svg.append(...this.axes(), this.marks, this.steps('allowed', 'allowed'), this.steps('draft', 'sails'), this.cursor);
    this.host.replaceChildren(svg);
    this.svg = svg;
  }

  x(slot) { return BOX.left + slot * BOX.wide / this.clock.length; }

  y(draft) { return BOX.top + BOX.high * (this.high - draft) / (this.high - this.low); }

  axes() {
    const parts = [], step = this.high - this.low > 400 ? 100 : 50;
    for (let draft = this.low; draft <= this.high; draft += step) {
      parts.push(shape('path', {class: 'grid', d: `M${BOX.left} ${this.y(draft)}h${BOX.wide}`}),
        shape('text', {x: BOX.left - 6, y: this.y(draft) + 4, 'text-anchor': 'end'}, (draft / 100).toFixed(2)));
    }
    const each = Math.max(1, Math.ceil(this.clock.length / 12));
    for (let slot = 0; slot < this.clock.length; slot += each) {
      parts.push(shape('path', {class: 'grid', d: `M${this.x(slot)} ${BOX.top}v${BOX.high}`}),
        shape('text', {x: this.x(slot), y: BOX.top + BOX.high + 16, 'text-anchor': 'middle'}, this.clock[slot]));
    }
    parts.push(shape('text', {x: 4, y: BOX.top + 4, class: 'm'}, 'm'));
    return parts;
  }

  /** A path of steps over the slots that have such a draft. */
  steps(member, kind) {
    let path = '', last = null;
    for (const one of this.at) {
      const draft = one[member];
      const joined = last === one.slot - 1 ? 'V' : `M${this.x(one.slot).toFixed(1)} `;
      if (draft !== null) path += `${joined}${this.y(draft).toFixed(1)}H${this.x(one.slot + 1).toFixed(1)}`;
      last = draft === null ? null : one.slot;
    }
    return shape('path', {class: kind, d: path || 'M0 0'});
  }

  /** Shades the slots in which she may sail with a draft, and draws its line. */
  mark(spans, draft) {
    const parts = spans.map(([first, last]) => shape('rect',
      {class: 'fits', x: this.x(first), y: BOX.top, width: this.x(last + 1) - this.x(first), height: BOX.high}));
    if (draft !== undefined && draft <= this.high) parts.push(shape('path', {class: 'wanted', d: `M${BOX.left} ${this.y(draft)}h${BOX.wide}`}));
    this.marks.replaceChildren(...parts);
  }

  point(slot) {
    const at = this.at.find((one) => one.slot === slot);
    this.slot = slot;
    this.cursor.setAttribute('d', `M${this.x(slot + 0.5)} ${BOX.top}v${BOX.high}`);
    this.host.setAttribute('aria-valuenow', slot);
    this.host.setAttribute('aria-valuetext', at?.said ?? this.clock[slot]);
  }

  pointed(event) {
    if (!this.svg) return;
    const point = new DOMPoint(event.clientX, event.clientY).matrixTransform(this.svg.getScreenCTM().inverse());
    this.reach(Math.floor((point.x - BOX.left) * this.clock.length / BOX.wide));
  }

  key(event) {
    const step = {ArrowLeft: -1, ArrowDown: -1, ArrowRight: 1, ArrowUp: 1, PageUp: 4, PageDown: -4}[event.key];
    const to = step ? this.slot + step : {Home: -Infinity, End: Infinity}[event.key];
    if (to === undefined) return;
    event.preventDefault();
    this.reach(to);
  }

  reach(slot) {
    if (!this.at?.length) return;
    const within = Math.max(this.at[0].slot, Math.min(this.at.at(-1).slot, slot));
    if (within !== this.slot) this.chosen(within);
  }
}
