// The editor's parts together: what is open, where the cursor is, and what is drawn again when.

import { Refused, ask, listen } from "./bridge.js";
import { Edits } from "./edits.js";
import { Ffmpeg } from "./ffmpeg.js";
import { Minimap } from "./minimap.js";
import { Pictures } from "./pictures.js";
import { Player } from "./player.js";
import { Pointer } from "./pointer.js";
import { Stream, positionOfTime, timeCode } from "./stream.js";
import { Timeline } from "./timeline.js";
import { FEWEST, MOST, View } from "./view.js";
import { Viewer } from "./viewer.js";
import { WebCodecs } from "./webcodecs.js";
import { counted, refused } from "./words.js";

const byId = (id) => document.getElementById(id);

class Editor {
  constructor() {
    [this.stream, this.cursor, this.chosen, this.extent, this.edge, this.rate] = [null, 0, null, null, null, 25];
    this.changed = { from: 0, to: 0, has: () => false };
    this.view = new View();
    this.pictures = new Pictures(() => this.redraw());
    this.timeline = new Timeline(byId("timeline"), this);
    this.minimap = new Minimap(byId("minimap"), this);
    this.viewer = new Viewer(byId("viewer"), byId("details"), this);
    [this.player, this.edits] = [new Player(this), new Edits(this)];
    this.pointer = new Pointer(byId("timeline"), this);
    this.acts = Promise.resolve();
    this.slow = []; // how long the drawing of each frame took
  }

  /** Runs what a user asked for, one after the other; a refusal is shown and changes nothing. */
  act(what) {
    this.acts = this.acts.then(async () => {
      try {
        await what();
      } catch (error) {
        this.say(refused("That can't be done", error), true);
        if (!(error instanceof Refused)) console.error(error);
      }
    }).finally(() => { document.body.dataset.done = Number(document.body.dataset.done ?? 0) + 1; });
    return this.acts;
  }

  /** Shows a stream that was opened. */
  open(told) {
    this.pictures.begin();
    [this.view.first, this.view.count] = [0, Math.min(60, Math.max(FEWEST, told.ids.length))];
    this.edits.copied = [];
    listen((message) => this.pictures.heard(message));
    this.take(told, 0, null, false);
    for (const id of ["stage", "transport", "stream"]) byId(id).hidden = false;
    byId("hint").hidden = true;
  }

  /** Takes the stream as the bridge tells it, after an edit. */
  take(told, cursor = this.cursor, chosen = null, isEdited = true) {
    this.stream = new Stream(told);
    const [from, count] = isEdited ? told.changed : [0, 0];
    this.changed = { from, to: from + count, has: (place) => place >= from && place < from + count };
    this.cursor = Math.max(0, Math.min(cursor, this.stream.length - 1));
    this.pictures.setStream(this.stream, isEdited);
    this.viewer.forget();
    this.edits.choose(chosen && chosen.from, chosen && chosen.to - 1, true);
    this.view.clamp(this.stream.length);
    if (isEdited) this.view.bring(this.cursor, this.stream.length);
    this.look();
  }

  /** Puts the cursor on a unit. */
  go(place, isBrought = true) {
    if (!this.stream?.length) return;
    this.cursor = Math.max(0, Math.min(place, this.stream.length - 1));
    if (isBrought) this.view.bring(this.cursor, this.stream.length);
    this.look();
  }

  /** Says which pictures are looked at: what the cursor is on and what comes next, then the thumbnails, the nearest first. */
  look() {
    const { stream, cursor, pictures } = this;
    if (!stream) return;
    const ids = (positions) => positions.filter((at) => at >= 0 && at < stream.pictures).map((at) => stream.ids[stream.atPosition[at]]);
    const from = stream.positionOf(cursor);
    const ahead = Array.from({ length: pictures.capacity }, (_, index) => from + 1 + index);
    const near = this.player.isPlaying ? ahead.slice(0, pictures.capacity / 2) : [1, -1, 2, -2, 3, -3].map((by) => from + by);
    const large = [stream.ids[cursor], ...ids(near)];
    const far = ({ place }) => Math.abs(place - cursor);
    const shown = this.timeline.thumbnails().sort((one, other) => far(one) - far(other)).map(({ place }) => stream.ids[place]);
    pictures.look(large, shown, ids(this.player.isPlaying ? ahead : ahead.slice(0, 8)));
    this.redraw();
  }

  /** Draws all again with the screen's next frame. */
  redraw() {
    if (this.isDue || !this.stream) return;
    this.isDue = true;
    requestAnimationFrame(() => {
      const begin = performance.now();
      this.isDue = false;
      this.timeline.draw();
      // Which thumbnails there are depends on the page's width, and on the shape of the first picture.
      const shape = `${this.view.width} ${this.pictures.aspect}`;
      if (shape !== this.shape) [this.shape] = [shape, this.look()];
      this.minimap.draw();
      this.viewer.draw();
      this.tell();
      this.slow = [...this.slow.slice(-999), performance.now() - begin];
    });
  }

  /** Tells in words what is shown, and which buttons do something. */
  tell() {
    const { stream, view, chosen, cursor, player, rate } = this;
    const put = (id, text) => { if (byId(id).textContent !== text) byId(id).textContent = text; };
    put("name", `${stream.is_saved ? "" : "• "}${stream.name}, ${counted(stream.length, "access unit")}`);
    put("time", timeCode(stream.positionOf(cursor), rate));
    put("page", `${Math.round(view.count)} a page`);
    put("play", player.isPlaying ? "❚❚" : "▶");
    put("changed", this.changed.to > this.changed.from ? `: ${this.changed.to - this.changed.from}` : "");
    put("altered", stream.altered.length ? `: ${stream.altered.length}` : "");
    if (!stream.length) put("chosen", "no access unit is left");
    else if (!chosen) put("chosen", `access unit ${stream.ids[cursor]}`);
    else put("chosen", `${counted(chosen.to - chosen.from, "access unit")} chosen: ${stream.ids[chosen.from]} to ${stream.ids[chosen.to - 1]}`);
    byId("zoom").value = 100 * Math.log(view.count / FEWEST) / Math.log(MOST / FEWEST);
    const can = { undo: stream.undo, redo: stream.redo, save: true, paste: this.edits.copied.length };
    for (const button of document.querySelectorAll("[data-does]")) button.disabled = !(can[button.dataset.does] ?? stream.length);
  }

  /** Says a sentence for some seconds; what is wrong stays until the next one. */
  say(text, isWrong = false) {
    const told = byId("told");
    Object.assign(told, { textContent: text, className: isWrong ? "wrong" : "" });
    clearTimeout(this.timer);
    if (!isWrong) this.timer = setTimeout(() => { told.textContent = ""; }, 6000);
  }

  async openFile(file) {
    const isLost = this.stream && !this.stream.is_saved;
    if (isLost && !(await this.edits.isMeant(`${this.stream.name} has edits that aren't saved.`, "Open the other all the same"))) return;
    try {
      this.open(await ask(`open?name=${encodeURIComponent(file.name)}`, file));
    } catch (error) {
      if (!(error instanceof Refused) || !error.number) throw error;
      const why = `${refused(`${file.name} isn't read`, error)}\nWhat keeps it from being read can be left out of a copy.`;
      if (!(await this.edits.isMeant(why, "Mend a copy"))) return;
      const told = await ask("mend", {});
      this.open(told);
      const lines = [...told.left_out.slice(0, 6), ...(told.left_out.length > 6 ? [".."] : [])];
      this.say([`${told.name} is open. Left out were ${told.left_out.length}:`, ...lines].join("\n"), true);
    }
  }

  /** Goes to a unit's id, or to a time where the text has a colon. */
  goTo(text) {
    const { stream } = this;
    const position = text.includes(":") ? positionOfTime(text, this.rate) : null;
    const place = position !== null ? stream.placeAt(position) : stream.places.get(Number(text));
    if (place === undefined || text.trim() === "") return this.say(`There is no access unit ${text}.`, true);
    return this.go(place);
  }
}

const editor = globalThis.editor = new Editor(); // for the console, and for tools/check-editor
const { edits, player, view } = editor;

/** Zooms about the cursor, or the page's edge beyond which that is. */
function zoom(factor) {
  view.zoom(factor, Math.max(0, Math.min(view.width, view.x(editor.cursor))), editor.stream.length);
  editor.look();
}

const DOES = {
  play: () => player.toggle(), back: () => player.step(-1), forth: () => player.step(1),
  start: () => editor.go(0), end: () => editor.go(editor.stream.length - 1),
  closer: () => zoom(0.7), farther: () => zoom(1 / 0.7),
};
const does = (name, isExact) => (DOES[name] ? DOES[name]() : editor.act(() => edits[name](isExact)));

for (const button of document.querySelectorAll("[data-does]")) {
  button.addEventListener("click", (event) => {
    does(button.dataset.does, event.altKey);
    byId("timeline").focus({ preventScroll: true });
  });
}
byId("file").addEventListener("change", (event) => editor.act(() => editor.openFile(event.target.files[0])));
byId("rate").addEventListener("change", (event) => { editor.rate = Math.max(1, Number(event.target.value) || 25); editor.redraw(); });
byId("zoom").addEventListener("input", (event) => zoom(FEWEST * (MOST / FEWEST) ** (event.target.value / 100) / view.count));
byId("goto").addEventListener("submit", (event) => {
  event.preventDefault();
  editor.goTo(byId("goto-what").value);
  byId("timeline").focus();
});
// Where what was copied would go is shown before it does.
const paste = document.querySelector("[data-does=paste]");
paste.addEventListener("pointerenter", (event) => { editor.edge = edits.pastePlace(event.altKey); editor.redraw(); });
paste.addEventListener("pointerleave", () => { editor.edge = null; editor.redraw(); });
addEventListener("resize", () => editor.look());
matchMedia("(prefers-color-scheme: dark)").addEventListener("change", () => editor.redraw());
document.addEventListener("dragover", (event) => { event.preventDefault(); document.body.classList.add("over"); });
document.addEventListener("dragleave", () => document.body.classList.remove("over"));
document.addEventListener("drop", (event) => {
  event.preventDefault();
  document.body.classList.remove("over");
  if (event.dataTransfer.files[0]) editor.act(() => editor.openFile(event.dataTransfer.files[0]));
});

const KEYS = {
  " ": "play", ",": "back", ".": "forth", Home: "start", End: "end", "+": "closer", "=": "closer", "-": "farther",
  Delete: "delete", Backspace: "delete", "Control+x": "cut", "Control+c": "copy", "Control+v": "paste", "Control+s": "save",
  "Control+z": "undo", "Control+y": "redo", "Control+Z": "redo", "Control+ArrowLeft": "earlier", "Control+ArrowRight": "later",
};
const MOVES = { ArrowLeft: -1, ArrowRight: 1 };
document.addEventListener("keydown", (event) => {
  if (!editor.stream || event.target.matches("input") || byId("question").open) return;
  const name = (event.ctrlKey || event.metaKey ? "Control+" : "") + event.key;
  if (KEYS[name]) does(KEYS[name], event.altKey);
  else if (MOVES[name] && event.shiftKey) edits.extend(MOVES[name], event.altKey);
  else if (MOVES[name]) editor.go(editor.cursor + MOVES[name]);
  else if (name === "Control+a") edits.choose(0, editor.stream.length - 1, true);
  else if (name === "Escape") edits.choose(null);
  else if (name === "g") byId("goto-what").focus();
  else return;
  event.preventDefault();
  editor.redraw();
});

/** The decoder: the browser's, or ffmpeg beside the bridge, or none; `?decoder=ffmpeg` and `?decoder=none` choose. */
async function decoder() {
  const asked = new URLSearchParams(location.search).get("decoder");
  if (!asked && await WebCodecs.isThere()) return [new WebCodecs(editor.pictures), "decoded by the browser"];
  const why = "this browser has no WebCodecs for H.264";
  if (asked !== "none" && await Ffmpeg.isThere()) return [new Ffmpeg(editor.pictures), `decoded by ffmpeg: ${why}`];
  return [null, `digests in place of pictures: ${why}, and ffmpeg isn't installed`];
}

editor.act(async () => {
  [editor.pictures.decoder, byId("decoder").textContent] = await decoder();
  const told = await ask("document");
  if (told) editor.open(told);
  if (told?.resumed) editor.say(`Edits of ${told.name} that weren't saved were found, and are shown.`, true);
});
