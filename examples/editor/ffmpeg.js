// Pictures by ffmpeg beside the bridge, for a browser without WebCodecs.

import { parts } from "./bridge.js";

const WIDTH = 640;
const AT_ONCE = 24;

export class Ffmpeg {
  static async isThere() {
    return parts("pictures", { ids: [], width: WIDTH }).then(() => true, () => false);
  }

  constructor(pictures) { this.pictures = pictures; }

  setStream(stream) { this.stream = stream; }

  /** Brings the picture of a unit, and of the needed ones that are decoded with it. */
  async bring(id) {
    const { stream } = this;
    const start = stream.lastStart(stream.places.get(id));
    const isBeside = (other) => stream.lastStart(stream.places.get(other)) === start;
    const ids = this.pictures.needed().filter(isBeside).slice(0, AT_ONCE);
    const found = await parts("pictures", { ids: [id, ...ids], width: WIDTH }).catch(() => []);
    if (stream !== this.stream) return false;
    for (const { id: of, text } of found) {
      await this.pictures.deliver(of, null, await createImageBitmap(new Blob([text], { type: "image/jpeg" })));
    }
    return true;
  }
}
