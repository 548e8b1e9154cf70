// Draws the whole stream in one line: periods, faults, doubts, what the last edit changed, and the page.

import { colours, prepared } from "./timeline.js";

const TOP = 4, BAND = 16;

export class Minimap {
  constructor(canvas, editor) {
    [this.canvas, this.editor] = [canvas, editor];
    const go = (event) => {
      const box = canvas.getBoundingClientRect();
      const { view, stream } = editor;
      view.first = (event.clientX - box.left) / box.width * stream.length - view.count / 2;
      view.clamp(stream.length);
      editor.look();
    };
    canvas.addEventListener("pointerdown", (event) => {
      canvas.setPointerCapture(event.pointerId);
      if (editor.stream) go(event);
    });
    canvas.addEventListener("pointermove", (event) => event.buttons && editor.stream && go(event));
  }

  draw() {
    const { stream, view, cursor, changed, chosen } = this.editor;
    const { draw, width } = prepared(this.canvas);
    const shade = colours();
    const x = (place) => place / Math.max(1, stream.length) * width;
    const mark = (from, to, top, height, colour, alpha = 1) => {
      Object.assign(draw, { fillStyle: colour, globalAlpha: alpha });
      draw.fillRect(x(from), top, Math.max(1, x(to) - x(from)), height);
    };
    mark(0, stream.length, TOP, BAND, shade.soft);
    // Where periods are narrower than a line can show, every other one would be a grey band: they are left out.
    const periods = stream.begins.length * 3 < width ? stream.begins : [];
    const [doubt, fault] = [shade.doubt, shade.fault];
    periods.forEach((begin, index) => mark(begin, periods[index + 1] ?? stream.length, TOP, BAND, shade.p, index % 2 ? 0.25 : 0.5));
    for (const [place, { doubt: is }] of stream.follows) if (is) mark(place, place + 1, TOP, BAND, doubt);
    for (const place of stream.faults.keys()) mark(place, place + 1, TOP, BAND, fault);
    if (changed.to > changed.from) mark(changed.from, changed.to, TOP + BAND + 1, 3, shade.changed);
    if (chosen) mark(chosen.from, chosen.to, TOP, BAND, shade.chosen, 0.4);
    if (stream.length) mark(cursor, cursor + 1, 0, TOP + BAND + 4, shade.ink);
    Object.assign(draw, { strokeStyle: shade.ink, lineWidth: 1.5 });
    const [left, right] = [x(view.first), x(Math.min(stream.length, view.first + view.count))];
    draw.strokeRect(left + 1, TOP - 2.5, Math.max(4, right - left - 2), BAND + 5);
  }
}
