// The picture under the cursor, large, and what is known of its unit.

import { question } from "./bridge.js";
import { colours, prepared } from "./timeline.js";
import { timeCode } from "./stream.js";
import { whyFaulty } from "./words.js";

export class Viewer {
  constructor(canvas, details, editor) {
    [this.canvas, this.details, this.editor] = [canvas, details, editor];
  }

  draw() {
    const { stream, cursor, pictures } = this.editor;
    const { draw, width, height } = prepared(this.canvas);
    const shade = colours();
    if (!stream.length) {
      [this.shown, this.told] = [null, null];
      return this.details.replaceChildren();
    }
    const { bitmap, isStale, isFailed, name } = pictures.of(stream.ids[cursor], true);
    this.shown = bitmap && !isStale ? stream.ids[cursor] : null;
    const fault = stream.faults.get(cursor);
    const [margin, aspect] = [14, pictures.aspect];
    const wide = Math.min(width - 2 * margin, (height - 2 * margin) * aspect);
    const box = [(width - wide) / 2, (height - wide / aspect) / 2, wide, wide / aspect];
    draw.fillStyle = shade.soft;
    draw.fillRect(...box);
    if (bitmap) {
      draw.globalAlpha = isStale ? 0.3 : 1;
      draw.imageSmoothingEnabled = bitmap.width > wide / 3; // small pictures stay sharp
      draw.drawImage(bitmap, ...box);
      draw.globalAlpha = 1;
    }
    const colour = fault ? shade.fault : stream.isInDoubt(cursor) ? shade.doubt : null;
    const words = this.words(fault, { bitmap, isStale, isFailed, name });
    Object.assign(draw, { textAlign: "center", textBaseline: "middle", font: "600 15px system-ui, sans-serif" });
    draw.fillStyle = colour ?? shade.quiet;
    if (words) draw.fillText(words, width / 2, height / 2, wide - 10);
    if (colour) {
      Object.assign(draw, { strokeStyle: colour, lineWidth: 3 });
      draw.strokeRect(...box);
    }
    this.box = box;
    return this.tell(name);
  }

  /** What stands in place of a picture, or over one that is stale. */
  words(fault, { bitmap, isStale, isFailed, name }) {
    const { stream, cursor, pictures } = this.editor;
    if (fault) return fault.name;
    if (!stream.isValid(cursor)) return "no picture";
    if (!pictures.decoder && name) return name.slice(0, 16);
    if (isFailed) return "the decoder brings no picture of it";
    if (!bitmap) return "being decoded";
    return isStale ? "stale: being decoded again" : "";
  }

  /** What is known of the unit under the cursor. */
  tell(name) {
    const { stream, cursor, rate, pictures } = this.editor;
    const [id, fault, follows] = [stream.ids[cursor], stream.faults.get(cursor), stream.follows.get(cursor)];
    const kind = stream.letters[cursor] === "-" ? "no slice" : `${stream.isIdr(cursor) ? "IDR picture, " : ""}${stream.letters[cursor]}` +
      `${stream.isReference(cursor) ? ", a reference" : ", no reference"}`;
    const rows = [["index", `${cursor + 1} of ${stream.length}`], ["type", kind]];
    if (stream.isValid(cursor)) {
      rows.push(["output", `${stream.positions[cursor]}, at ${timeCode(stream.positions[cursor], rate)}`]);
      rows.push(["picture", !name ? "pending" : pictures.decoder ? `ready, ${name.slice(0, 12)}` : name.slice(0, 12)]);
    }
    if (!stream.isValid(cursor)) this.asked = null;
    else if (this.names?.id === id) rows.push(["references", this.names.ids.join(", ") || "none"]);
    else this.ask(id);
    const notes = [];
    if (fault) notes.push(["fault", `${fault.name}: ${whyFaulty(fault)}.`]);
    const doubt = "Error propagation: of the references some may be lost, or other ones than were meant, since access unit";
    if (follows?.doubt) notes.push(["doubt", `${doubt} ${follows.broken}.`]);
    const text = JSON.stringify([id, rows, notes]);
    if (text === this.told) return;
    this.told = text;
    const made = (tag, textContent, className = "") => Object.assign(document.createElement(tag), { textContent, className });
    const list = document.createElement("dl");
    list.append(...rows.flatMap(([term, value]) => [made("dt", term), made("dd", value)]));
    this.details.replaceChildren(made("h2", `Access unit ${id}`), ...notes.map(([kindOf, words]) => made("p", words, kindOf)), list);
  }

  /** Asks which units the lists of a unit name. */
  async ask(id) {
    if (this.asked === id) return;
    this.asked = id;
    clearTimeout(this.timer);
    this.timer = setTimeout(async () => {
      const { stream } = this.editor;
      const place = stream.places.get(id);
      if (place === undefined) return;
      const [unit] = await question("units", { from: place, count: 1, controls: true }).catch(() => [null]);
      if (!unit || stream !== this.editor.stream) return void (this.asked = null);
      this.names = { id, ids: namedBy(unit.requests ?? []) };
      this.editor.redraw();
    }, 120);
  }

  /** After an edit lists may name others. */
  forget() { [this.asked, this.names] = [null, null]; }
}

/** The ids that the active entries of a unit's lists name, each once; timestamps are 1,000 times the id. */
function namedBy(requests) {
  const found = new Set();
  for (const { v4l2_ctrl_h264_slice_params: slice, v4l2_ctrl_h264_decode_params: { dpb } } of requests) {
    const lists = [slice.slice_type !== 2 && [slice.ref_pic_list0, slice.num_ref_idx_l0_active_minus1],
      slice.slice_type === 1 && [slice.ref_pic_list1, slice.num_ref_idx_l1_active_minus1]];
    for (const [list, last] of lists.filter(Boolean)) {
      for (const { fields, index } of list.slice(0, last + 1)) found.add(fields ? dpb[index].reference_ts / 1000 : "a missing picture");
    }
  }
  return [...found];
}
