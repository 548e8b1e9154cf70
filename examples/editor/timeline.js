// Draws the units of the page: in output order with time codes, and below in stream order, each row with thumbnails.

import { timeCode } from "./stream.js";

const RULER = 20, THUMB = 54, BOX = 20, GAP = 24, NAMES = 16;
const ROWS = { output: RULER, boxes: RULER + THUMB + 14 + GAP, units: RULER + THUMB + 14 + GAP + BOX + 2 };
const HATCH = 5; // what is altered is hatched by lines so far apart
const LINES = 90; // up to so many units, lines lead from each unit to its picture

/** A canvas for screens of any density: its context, cleared, with its size in points. */
export function prepared(canvas) {
  const { clientWidth: width, clientHeight: height } = canvas;
  const ratio = devicePixelRatio;
  if (canvas.width !== Math.round(width * ratio)) canvas.width = Math.round(width * ratio);
  if (canvas.height !== Math.round(height * ratio)) canvas.height = Math.round(height * ratio);
  const draw = canvas.getContext("2d");
  draw.setTransform(ratio, 0, 0, ratio, 0, 0);
  draw.clearRect(0, 0, width, height);
  return { draw, width, height };
}

/** The page's colours, which follow the reader's preference. */
export function colours() {
  const style = getComputedStyle(document.documentElement);
  return new Proxy({}, { get: (_, name) => style.getPropertyValue(`--${name}`) });
}

export class Timeline {
  constructor(canvas, editor) {
    [this.canvas, this.editor] = [canvas, editor];
  }

  /** Which row a height is in. */
  row(y) { return y < ROWS.boxes - GAP / 2 ? "output" : "units"; }

  /** The position at the left edge of the page: as many pictures as the units before it have. */
  get firstPosition() {
    const { stream, view } = this.editor;
    return stream.shownBefore[Math.floor(view.first)] + view.first % 1;
  }

  /** Where the thumbnails are: of each its unit's place, its row and its box. */
  thumbnails() {
    const { stream, view, pictures } = this.editor;
    const { stride, width } = view.thumbnail(pictures.aspect, THUMB);
    const [begin, end] = view.range(stream.length);
    const height = width / pictures.aspect;
    const found = [];
    const add = (row, place, index, x) => {
      const top = row === "output" ? ROWS.output + (THUMB - height) : ROWS.units;
      if (index % stride === 0 && x < view.width) found.push({ row, place, x: x + 1, y: top, width, height });
    };
    for (let place = begin - begin % stride; place < end; place++) add("units", place, place, view.x(place));
    const first = Math.floor(this.firstPosition);
    for (let position = first - first % stride; position < Math.min(stream.pictures, first + view.count + 1); position++) {
      add("output", stream.atPosition[position], position, (position - this.firstPosition) * view.unit);
    }
    return found;
  }

  draw() {
    const { view } = this.editor;
    const { draw, width } = prepared(this.canvas);
    view.width = width;
    [this.pen, this.colours] = [draw, colours()];
    draw.font = "11px system-ui, sans-serif";
    draw.textBaseline = "middle";
    this.drawChosen();
    this.drawRuler();
    this.drawLines();
    this.drawBoxes();
    for (const box of this.thumbnails()) this.drawThumbnail(box);
    this.drawStarts();
    this.drawCursor();
    this.drawEdge();
  }

  text(text, x, y, colour, align = "center") {
    Object.assign(this.pen, { fillStyle: this.colours[colour], textAlign: align });
    this.pen.fillText(text, x, y);
  }

  fill(x, y, width, height, colour, alpha = 1) {
    Object.assign(this.pen, { fillStyle: this.colours[colour], globalAlpha: alpha });
    this.pen.fillRect(x, y, width, height);
    this.pen.globalAlpha = 1;
  }

  hatch(x, y, width, height) {
    if (width < HATCH) return this.fill(x, y, width, height, "ink", 0.2);
    const { pen } = this;
    pen.save();
    pen.beginPath();
    pen.rect(x, y, width, height);
    pen.clip();
    Object.assign(pen, { strokeStyle: this.colours.ink, globalAlpha: 0.45, lineWidth: 1 });
    pen.beginPath();
    for (let at = x - height; at < x + width; at += HATCH) {
      pen.moveTo(at, y + height);
      pen.lineTo(at + height, y);
    }
    pen.stroke();
    pen.restore();
  }

  frame(x, y, width, height, colour, wide, dash = []) {
    Object.assign(this.pen, { strokeStyle: this.colours[colour], lineWidth: wide });
    this.pen.setLineDash(dash);
    this.pen.strokeRect(x, y, width, height);
    this.pen.setLineDash([]);
  }

  line(points, colour, wide = 1, dash = []) {
    const { pen } = this;
    Object.assign(pen, { strokeStyle: this.colours[colour], lineWidth: wide });
    pen.setLineDash(dash);
    pen.beginPath();
    points.forEach(([x, y], index) => (index ? pen.lineTo(x, y) : pen.moveTo(x, y)));
    pen.stroke();
    pen.setLineDash([]);
  }

  drawRuler() {
    const { stream, view, rate } = this.editor;
    const first = this.firstPosition;
    const steps = [1, 5, Math.ceil(rate), ...[2, 5, 10, 30, 60, 300, 600].map((seconds) => Math.ceil(seconds * rate))];
    const step = steps.find((number) => number * view.unit >= 84) ?? steps.at(-1);
    this.line([[0, RULER - 2.5], [view.width, RULER - 2.5]], "line");
    for (let at = Math.ceil(first / step) * step; at < Math.min(stream.pictures, first + view.count); at += step) {
      const x = (at - first) * view.unit;
      this.line([[x + 0.5, RULER - 8], [x + 0.5, RULER - 3]], "quiet");
      this.text(timeCode(at, rate), x + 4, 8, "quiet", "left");
    }
  }

  drawLines() {
    const { stream, view } = this.editor;
    if (view.count > LINES) return;
    const [begin, end] = view.range(stream.length);
    for (let place = begin; place < end; place++) {
      if (!stream.isValid(place)) continue;
      const below = view.x(place + 0.5);
      const above = (stream.positions[place] + 0.5 - this.firstPosition) * view.unit;
      const y = ROWS.boxes - 3;
      this.line([[below, y], [below, y - 4], [above, y - GAP + 6], [above, y - GAP + 2]], "line");
    }
  }

  drawBoxes() {
    const { stream, view, changed } = this.editor;
    const [begin, end] = view.range(stream.length);
    const gap = view.unit >= 10 ? 1.5 : view.unit >= 4 ? 0.5 : 0;
    for (let place = begin; place < end; place++) {
      const [x, width] = [view.x(place) + gap, Math.max(0.6, view.unit - 2 * gap)];
      const letter = stream.letters[place];
      const isFaulty = stream.faults.has(place);
      const kind = isFaulty ? "fault" : letter === "-" ? "line" : letter.toLowerCase();
      this.fill(x, ROWS.boxes, width, BOX, kind);
      if (view.unit >= 12) this.text(isFaulty ? "!" : letter, x + width / 2, ROWS.boxes + BOX / 2 + 0.5, isFaulty ? "paper" : `on-${kind}`);
      if (stream.isInDoubt(place)) this.fill(x, ROWS.boxes - 4, width, 3, "doubt");
      if (stream.isAltered(place)) this.hatch(x, ROWS.boxes, width, BOX);
      if (changed.has(place)) this.fill(x, ROWS.boxes + BOX, width, 2, "changed");
    }
    const names = view.unit >= 26 ? 1 : Math.ceil(46 / view.unit / 5) * 5;
    for (let place = begin - begin % names; place < end; place += names) {
      this.text(stream.ids[place], view.x(place + 0.5), ROWS.units + THUMB + 9, "quiet");
      const at = Math.floor(this.firstPosition) + place - begin;
      if (names === 1 && at < stream.pictures) this.text(at, (at + 0.5 - this.firstPosition) * view.unit, ROWS.output + THUMB + 8, "quiet");
    }
  }

  drawThumbnail({ row, place, x, y, width, height }) {
    const { stream, pictures } = this.editor;
    const { pen } = this;
    if (stream.faults.has(place)) return this.drawFault(place, x, y, width, height);
    if (!stream.isValid(place)) return this.frame(x + 0.5, y + 0.5, width - 1, height - 1, "line", 1, [3, 2]);
    const { bitmap, name, isStale, isFailed } = pictures.of(stream.ids[place], false);
    if (bitmap) {
      pen.globalAlpha = isStale ? 0.35 : 1;
      pen.drawImage(bitmap, x, y, width, height);
      pen.globalAlpha = 1;
      if (isStale) this.frame(x + 0.5, y + 0.5, width - 1, height - 1, "changed", 1, [3, 2]);
    } else {
      this.fill(x, y, width, height, "soft");
      const digest = !pictures.decoder && name;
      if (digest) this.fill(x, y, width, height, digestColour(digest), 0.5);
      this.text(digest ? digest.slice(0, 6) : isFailed ? "–" : "…", x + width / 2, y + height / 2, "quiet");
    }
    if (stream.isInDoubt(place)) {
      this.frame(x + 1, y + 1, width - 2, height - 2, "doubt", 2);
      this.badge("?", x, y, "doubt");
    }
  }

  drawFault(place, x, y, width, height) {
    this.fill(x, y, width, height, "soft");
    this.frame(x + 0.5, y + 0.5, width - 1, height - 1, "fault", 1);
    // A name as FrameNumGap, a word a line.
    const words = width >= 34 ? this.editor.stream.faults.get(place).name.split(/(?=[A-Z])/) : [];
    const top = y + height / 2 - (words.length - 1) / 2 * 11;
    this.pen.save();
    this.pen.font = "10px system-ui, sans-serif";
    words.forEach((word, index) => this.text(word, x + width / 2, top + 11 * index, "fault"));
    this.pen.restore();
  }

  badge(letter, x, y, colour) {
    this.fill(x, y, 13, 14, colour);
    this.text(letter, x + 6.5, y + 7.5, "paper");
  }

  drawChosen() {
    const { view, chosen } = this.editor;
    if (!chosen) return;
    const [x, width] = [view.x(chosen.from), (chosen.to - chosen.from) * view.unit];
    this.fill(x, ROWS.boxes - 6, width, BOX + THUMB + 26, "chosen", 0.16);
    this.frame(x, ROWS.boxes - 5.5, width, BOX + THUMB + 25, "chosen", 1.5);
  }

  drawStarts() {
    const { stream, view } = this.editor;
    const [begin, end] = view.range(stream.length);
    for (const place of stream.starts) {
      if (place < begin || place >= end) continue;
      const above = (stream.positions[place] - this.firstPosition) * view.unit;
      const wide = view.unit >= 1 ? 2 : 1;
      this.line([[view.x(place), ROWS.boxes - 10], [view.x(place), ROWS.boxes + BOX]], "safe", wide, [2, 3]);
      this.line([[above, RULER - 12], [above, RULER - 1]], "safe", wide, [2, 3]);
    }
  }

  drawCursor() {
    const { stream, view, cursor } = this.editor;
    if (!stream.length) return;
    const x = view.x(cursor);
    const width = Math.max(2, view.unit);
    this.frame(x + 0.5, ROWS.boxes - 1, width - 1, BOX + THUMB + 4, "ink", 2);
    const above = (stream.positionOf(cursor) - this.firstPosition) * view.unit + 0.5;
    this.line([[above, 0], [above, RULER]], "ink", 2);
    if (stream.isValid(cursor)) this.frame(above, RULER, width - 1, THUMB + 2, "ink", 2);
    else this.line([[above, RULER], [above, RULER + THUMB + 2]], "ink", 2, [4, 3]);
  }

  /** Where what is dragged or pasted goes. */
  drawEdge() {
    const { view, edge } = this.editor;
    if (edge === null) return;
    const x = view.x(edge);
    this.line([[x, ROWS.boxes - 10], [x, ROWS.units + THUMB + 16]], "chosen", 3);
    this.line([[x - 6, ROWS.boxes - 10], [x + 6, ROWS.boxes - 10]], "chosen", 3);
  }
}

/** One of the colours of units, by a picture's name. */
const digestColour = (digest) => ["i", "p", "b", "changed", "safe", "doubt"][parseInt(digest.slice(0, 4), 16) % 6];
