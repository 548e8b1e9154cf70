// Decoded pictures, filed under the names that the server has for them (its digests): a unit whose name an edit doesn't change
// keeps its picture, and one whose name comes back, as by an undo, has it again at once. Nothing else is decoded.

import { question } from "./bridge.js";

const WANTED = 64; // as many ids `want` takes
const SMALL_HEIGHT = 108; // of a thumbnail, for screens of two pixels a point
const MEGABYTE = 1 << 20;

/** Bitmaps by name, the ones that were used last. */
class Shelf {
  constructor(most) {
    [this.most, this.bytes, this.bitmaps] = [most, 0, new Map()];
  }

  get(name) {
    const bitmap = this.bitmaps.get(name);
    if (bitmap) {
      this.bitmaps.delete(name);
      this.bitmaps.set(name, bitmap);
    }
    return bitmap;
  }

  has(name) { return this.bitmaps.has(name); }

  put(name, bitmap) {
    if (this.has(name)) return bitmap.close();
    this.bitmaps.set(name, bitmap);
    this.bytes += 4 * bitmap.width * bitmap.height;
    for (const [old, gone] of this.bitmaps) {
      if (this.bytes <= this.most || old === name) break;
      this.bytes -= 4 * gone.width * gone.height;
      this.bitmaps.delete(old);
      gone.close();
    }
  }
}

export class Pictures {
  /** `changed` is called when there is something new to draw. */
  constructor(changed) {
    this.changed = changed;
    [this.small, this.large] = [new Shelf(96 * MEGABYTE), new Shelf(320 * MEGABYTE)];
    this.decoder = null;
    this.begin();
  }

  /** Forgets what was of another stream; bitmaps stay, since their names say what they are of. */
  begin() {
    this.names = new Map(); // by id: the name of the picture that the server has ready
    this.earlier = new Map(); // by id: the name that its unit had before the last edit
    [this.tried, this.failed] = [new Set(), new Set()]; // names that the decoder didn't bring once, and twice
    [this.making, this.wanted, this.isAnswered] = [new Set(), [], false];
    [this.ids, this.large_ids, this.kept] = [[], new Set(), new Set()];
    [this.aspect, this.size, this.decoded] = [16 / 9, MEGABYTE, 0]; // of a picture, in bytes; how many were decoded
  }

  /** Takes the stream after an edit. Which names changed the server knows, so all are asked for again. */
  setStream(stream, isEdited) {
    if (isEdited) {
      for (const [id, name] of this.names) this.earlier.set(id, name);
      this.names = new Map();
    }
    [this.stream, this.isAnswered] = [stream, false];
    this.decoder?.setStream(stream, isEdited);
  }

  /** Says what is looked at: of which ids the whole picture is needed, the most urgent first, then which thumbnails, and of which ids
      whole pictures are kept if they come on the way. */
  look(large, ids, kept) {
    const valid = (id) => this.stream.isValid(this.stream.places.get(id) ?? -1);
    this.ids = [...new Set([...large, ...ids])].filter(valid);
    [this.large_ids, this.kept] = [new Set(large), new Set([...large, ...kept])];
    this.want();
    this.work();
  }

  /** Asks for the names that aren't known. Of those that are asked for and aren't ready `ready` tells later. */
  async want() {
    if (this.asking) return void (this.again = true);
    this.asking = true;
    do {
      this.again = false;
      const stream = this.stream;
      const unknown = this.ids.filter((id) => !this.names.has(id));
      this.wanted = unknown.slice(0, WANTED);
      if (!unknown.length) break;
      const told = await question("want", { ids: this.wanted, rest: true }).catch(() => ({ ready: [] }));
      if (stream !== this.stream) this.again = true;
      else told.ready.forEach(({ id, picture }) => this.names.set(id, picture));
      this.again ||= told.ready.length === WANTED;
    } while (this.again);
    [this.asking, this.isAnswered] = [false, true];
    this.changed();
    this.work();
  }

  /** For how many whole pictures there is room ahead. */
  get capacity() { return Math.max(8, Math.min(64, Math.floor(160 * MEGABYTE / this.size))); }

  /** A notification of the server's. */
  heard({ method, params }) {
    if (method === "ready") this.names.set(params.id, params.picture);
    if (method === "changed") this.names.delete(params.id);
    // Those that are wanted are told when they are ready; after that come those for which there was no room.
    if (method !== "ready" || this.wanted.every((id) => this.names.has(id))) this.want();
    this.changed();
    this.work();
  }

  /** What is there of a unit's picture: a bitmap, and whether it is stale. */
  of(id, isLarge) {
    const name = this.names.get(id);
    const found = name && this.bitmap(name, isLarge);
    if (found) return { bitmap: found, name, isStale: false };
    const old = this.earlier.get(id);
    const isStale = this.isAnswered || this.isChanged(id);
    return { bitmap: old && this.bitmap(old, isLarge), name, isStale, isFailed: this.failed.has(name) };
  }

  /** Whether a unit is of the range that the last edit changed. */
  isChanged(id) {
    const [from, count] = this.stream.changed;
    const place = this.stream.places.get(id);
    return place >= from && place < from + count;
  }

  bitmap(name, isLarge) {
    return isLarge ? this.large.get(name) ?? this.small.get(name) : this.small.get(name) ?? this.large.get(name);
  }

  /** The ids whose pictures have to be decoded, the most urgent first. */
  needed() {
    return !this.decoder ? [] : this.ids.filter((id) => {
      const name = this.names.get(id);
      if (!name || this.failed.has(name) || this.making.has(name)) return false;
      return !this.small.has(name) || (this.large_ids.has(id) && !this.large.has(name));
    });
  }

  /** Has the decoder bring one picture after the other, as long as some are needed. */
  async work() {
    if (this.working || !this.decoder || !this.stream) return;
    this.working = true;
    for (let next; (next = this.needed()[0]) !== undefined;) {
      const name = this.names.get(next);
      const { stream } = this;
      // What is refused is of an edit that came between, or of a bridge that has ended.
      const isDone = await this.decoder.bring(next).catch(() => stream === this.stream);
      // What came while it wasn't looked at was let go: so it is tried again, once.
      if (isDone && this.needed().includes(next)) (this.tried.has(name) ? this.failed : this.tried).add(name);
    }
    this.working = false;
    this.changed();
  }

  /** Takes a picture from the decoder: a VideoFrame or a bitmap, which is closed here. */
  async deliver(id, told, frame) {
    const name = this.names.get(id) ?? told;
    const width = frame.displayWidth ?? frame.width;
    const height = frame.displayHeight ?? frame.height;
    this.aspect = width / height;
    this.size = 4 * width * height;
    const isLarge = name && this.kept.has(id) && !this.large.has(name);
    const isSmall = name && !this.small.has(name) && (isLarge || this.ids.includes(id));
    if (isLarge || isSmall) {
      this.making.add(name);
      this.decoded += 1;
      const how = { resizeHeight: SMALL_HEIGHT, resizeWidth: Math.max(1, Math.round(SMALL_HEIGHT * this.aspect)), resizeQuality: "medium" };
      try {
        if (isSmall) this.small.put(name, await createImageBitmap(frame, how));
        if (isLarge) this.large.put(name, await createImageBitmap(frame));
      } catch {
        this.failed.add(name); // a form of pixels that the browser doesn't draw
      }
      this.making.delete(name);
      this.changed();
    }
    frame.close();
  }
}
