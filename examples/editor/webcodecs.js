// Pictures by the browser's decoder (WebCodecs), which is fed with the byte stream itself (Annex B).

import { parts } from "./bridge.js";

const BATCH = 24; // so many units are fetched and fed at a time
const SURPLUS = 64; // a decoder that was fed so many units more and hasn't brought a picture has to be flushed
const SECONDS = 10;

export class WebCodecs {
  static async isThere() {
    if (!globalThis.VideoDecoder) return false;
    return (await VideoDecoder.isConfigSupported({ codec: "avc1.42001e" }).catch(() => ({}))).supported ?? false;
  }

  constructor(pictures) {
    this.pictures = pictures;
    this.timestamp = 0;
    this.bad = new Set(); // ids that the decoder failed at, which it isn't fed with again until an edit
    this.stop();
  }

  /** What was fed stays true for an edit behind it. */
  setStream(stream, isEdited) {
    const before = this.stream;
    this.stream = stream;
    this.bad = new Set();
    if (!isEdited || !before || this.fed.some((id, index) => stream.ids[this.start + index] !== id)) this.stop();
    else if (stream.changed[1] && stream.changed[0] < this.next) this.stop();
  }

  stop() {
    if (this.decoder && this.decoder.state !== "closed") this.decoder.close();
    // A run: the places from start up to next were fed; of the units that were, which came out.
    [this.decoder, this.start, this.next, this.fed, this.given, this.came, this.error] = [null, 0, 0, [], new Map(), new Set(), null];
  }

  /** Decodes until the picture of a unit comes. It answers false where it left off, as another one is more urgent by now. */
  async bring(id) {
    const stream = this.stream;
    const place = stream.places.get(id);
    const start = stream.lastStart(place);
    if (start === null || this.bad.has(id)) return true;
    // To go on from where the decoder is is less work, unless an IDR picture lies between.
    const isPassed = this.came.has(id) || (place < this.next && !this.waits(id));
    if (!this.decoder || isPassed || start > this.next) this.begin(start);
    while (!this.came.has(id)) {
      if (this.next > place + SURPLUS || this.next >= stream.length) {
        await this.flush();
        return stream === this.stream;
      }
      const end = this.next <= place ? Math.min(place + 1, this.next + BATCH) : this.next + 2;
      await this.feed(this.next, Math.min(end, stream.length), place);
      if (stream !== this.stream) return false;
      if (this.error) {
        this.suspect();
        return false;
      }
      const [urgent] = this.pictures.needed();
      if (!this.came.has(id) && urgent !== id && !this.isBefore(urgent, place)) return false;
    }
    return true;
  }

  waits(id) {
    return [...this.given.values()].some((unit) => unit.id === id);
  }

  /** Whether a unit is on the way to a place, or there. */
  isBefore(id, place) {
    const other = this.stream.places.get(id);
    return other !== undefined && other >= this.start && other <= place;
  }

  begin(start) {
    this.stop();
    [this.start, this.next] = [start, start];
  }

  /** Feeds the units from one place to another. On the way to the first needed one those are left out to which none refers. */
  async feed(begin, end, place) {
    const { stream } = this;
    const needed = new Set(this.pictures.ids);
    const near = place - 16;
    const ids = stream.ids.slice(begin, end).filter((id, index) => {
      const at = begin + index;
      return !this.bad.has(id) && (stream.isReference(at) || at >= near || needed.has(id) || !stream.isValid(at));
    });
    const units = ids.length ? await parts("decode", { ids, begin: begin === this.start }) : [];
    if (stream !== this.stream) return;
    this.fed.push(...stream.ids.slice(begin, end));
    let sets = []; // parameter sets of units without a picture, for the next one
    for (const unit of units) {
      if (!unit.valid) {
        if (unit.text.length) sets.push(unit.text);
        continue;
      }
      this.decode(unit, joined([...sets, unit.text]));
      sets = [];
      if (this.error) return;
    }
    await this.isIdle();
    if (stream === this.stream) this.next = end;
  }

  decode(unit, data) {
    if (!this.decoder) this.configure(data);
    if (this.error || this.decoder.state !== "configured") return;
    this.timestamp += 1; // a number by which a picture is known: the decoder gives it with what it decodes of the chunk
    this.given.set(this.timestamp, unit);
    const type = this.stream.isIdr(this.stream.places.get(unit.id)) ? "key" : "delta";
    this.decoder.decode(new EncodedVideoChunk({ type, timestamp: this.timestamp, data }));
  }

  configure(data) {
    const decoder = this.decoder = new VideoDecoder({
      output: (frame) => {
        const unit = this.decoder === decoder && this.given.get(frame.timestamp);
        if (!unit) return frame.close();
        this.given.delete(frame.timestamp);
        this.came.add(unit.id);
        this.pictures.deliver(unit.id, unit.picture, frame);
      },
      error: (error) => { if (this.decoder === decoder) this.error = error; },
    });
    decoder.configure({ codec: codecOf(data) });
  }

  /** Waits until the decoder has taken all that it was fed. */
  async isIdle() {
    const end = performance.now() + SECONDS * 1000;
    while (!this.error && this.decoder?.state === "configured" && this.decoder.decodeQueueSize > 0) {
      await new Promise((resolve) => {
        this.decoder.addEventListener("dequeue", resolve, { once: true });
        setTimeout(resolve, 200);
      });
      if (performance.now() > end) this.error = new Error("the decoder takes nothing any more");
    }
  }

  /** Has all pictures come out. After that a run has to begin anew. */
  async flush() {
    if (this.decoder?.state === "configured") await this.decoder.flush().catch((error) => { this.error = error; });
    this.stop();
  }

  /** After an error the run is made again without what it may be of: the units in doubt that were fed and didn't come, or else all
      that didn't. */
  suspect() {
    const waiting = [...this.given.values()].map(({ id }) => id);
    const doubted = waiting.filter((id) => this.stream.isInDoubt(this.stream.places.get(id)));
    for (const id of doubted.length ? doubted : waiting) this.bad.add(id);
    this.stop();
  }
}

/** The codec by the SPS: profile_idc, the constraint flags and level_idc as hexadecimal digits (RFC 6381). */
export function codecOf(data) {
  for (let at = 0; at + 6 < data.length; at++) {
    if (data[at] === 0 && data[at + 1] === 0 && data[at + 2] === 1 && (data[at + 3] & 31) === 7) {
      return "avc1." + [...data.subarray(at + 4, at + 7)].map((byte) => byte.toString(16).padStart(2, "0")).join("");
    }
  }
  return "avc1.42001e";
}

function joined(texts) {
  if (texts.length === 1) return texts[0];
  const all = new Uint8Array(texts.reduce((sum, text) => sum + text.length, 0));
  texts.reduce((at, text) => (all.set(text, at), at + text.length), 0);
  return all;
}
