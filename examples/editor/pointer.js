// The mouse on the timeline: choose a range in stream order, move it, scrub in output order, scroll and zoom.

const SLACK = 5; // so many points a press may move and stay a click

export class Pointer {
  constructor(canvas, editor) {
    [this.canvas, this.editor, this.press] = [canvas, editor, null];
    canvas.addEventListener("pointerdown", (event) => this.down(event));
    canvas.addEventListener("pointermove", (event) => this.move(event));
    canvas.addEventListener("pointerup", (event) => this.up(event));
    canvas.addEventListener("pointercancel", () => this.end());
    canvas.addEventListener("wheel", (event) => this.wheel(event), { passive: false });
  }

  at(event) {
    const box = this.canvas.getBoundingClientRect();
    const [x, y] = [event.clientX - box.left, event.clientY - box.top];
    const { view, stream } = this.editor;
    const place = Math.max(0, Math.min(stream.length - 1, Math.floor(view.at(x))));
    return { x, place, edge: Math.max(0, Math.min(stream.length, Math.round(view.at(x)))), row: this.editor.timeline.row(y) };
  }

  down(event) {
    const { stream, chosen } = this.editor;
    if (!stream?.length || event.button !== 0) return;
    this.canvas.setPointerCapture(event.pointerId);
    const at = this.at(event);
    if (at.row === "output") {
      this.press = { kind: "scrub" };
      return this.scrub(at.x);
    }
    const isInside = chosen && at.place >= chosen.from && at.place < chosen.to;
    if (event.shiftKey) this.editor.edits.choose(this.editor.cursor, at.place, event.altKey);
    this.press = { ...at, kind: event.shiftKey ? "choose" : isInside ? "move" : "choose", moved: event.shiftKey };
    if (event.shiftKey) this.press.place = this.editor.cursor;
  }

  move(event) {
    if (!this.press) return;
    const at = this.at(event);
    if (this.press.kind === "scrub") return this.scrub(at.x);
    this.press.moved ||= Math.abs(at.x - this.press.x) > SLACK;
    if (!this.press.moved) return;
    if (this.press.kind === "choose") this.editor.edits.choose(this.press.place, at.place, event.altKey);
    else this.editor.edge = this.editor.edits.snapped(at.edge, event.altKey);
    this.editor.redraw();
  }

  up(event) {
    const { press, editor } = this;
    const edge = editor.edge;
    this.end();
    if (!press || press.kind === "scrub") return;
    if (press.moved && press.kind === "move" && edge !== null) return editor.act(() => editor.edits.move(edge));
    if (!press.moved) {
      editor.edits.choose(null);
      editor.go(this.at(event).place);
    }
  }

  end() {
    [this.press, this.editor.edge] = [null, null];
    this.editor.redraw();
  }

  /** Moves the cursor to the picture under the pointer, in output order. */
  scrub(x) {
    const { stream, view, timeline } = this.editor;
    this.editor.go(stream.placeAt(Math.floor(timeline.firstPosition + x / view.unit)), false);
  }

  wheel(event) {
    const { stream, view } = this.editor;
    if (!stream) return;
    event.preventDefault();
    const by = (Math.abs(event.deltaX) > Math.abs(event.deltaY) ? event.deltaX : event.deltaY) * (event.deltaMode ? 20 : 1);
    if (event.ctrlKey || event.metaKey) view.zoom(Math.exp(by / 400), this.at(event).x, stream.length);
    else view.first += by / view.unit;
    view.clamp(stream.length);
    this.editor.look();
  }
}
