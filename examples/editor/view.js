// Which units the timeline shows, and where.

export const [FEWEST, MOST] = [20, 2000];

export class View {
  constructor() {
    [this.first, this.count, this.width] = [0, 60, 1000]; // the place at the left edge, a fraction too; units a page; pixels
  }

  get unit() { return this.width / this.count; }

  x(place) { return (place - this.first) * this.unit; }

  at(x) { return this.first + x / this.unit; }

  /** Keeps what is shown within a stream of so many units. */
  clamp(length) {
    this.count = Math.max(FEWEST, Math.min(MOST, this.count));
    this.first = Math.max(0, Math.min(this.first, length - this.count));
  }

  /** Shows fewer or more units; the place at x stays where it is. */
  zoom(factor, x, length) {
    const place = this.at(x);
    this.count = Math.max(FEWEST, Math.min(MOST, this.count * factor));
    this.first = place - x / this.unit;
    this.clamp(length);
  }

  /** Moves as little as brings a place onto the page, with a margin beside it. */
  bring(place, length) {
    const margin = Math.min(this.count / 8, 12);
    if (place < this.first + margin) this.first = place - margin;
    if (place + 1 > this.first + this.count - margin) this.first = place + 1 + margin - this.count;
    this.clamp(length);
  }

  /** The places of the page, those that are cut by its edges too. */
  range(length) {
    return [Math.max(0, Math.floor(this.first)), Math.min(length, Math.ceil(this.first + this.count))];
  }

  /** Every how many units there is room for a thumbnail, and how wide it is. */
  thumbnail(aspect, height) {
    const widest = Math.round(aspect * height);
    const stride = this.unit >= 44 ? 1 : Math.max(1, Math.round(widest / this.unit));
    return { stride, width: Math.min(widest, stride * this.unit - 3) };
  }
}
