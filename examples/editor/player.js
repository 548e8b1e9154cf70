// Plays the stream in output order at the rate that is given. A picture that isn't there yet is waited for, and none is left out.

export class Player {
  constructor(editor) {
    [this.editor, this.isPlaying] = [editor, false];
  }

  toggle() {
    if (this.isPlaying) return this.pause();
    const { stream, cursor } = this.editor;
    if (!stream.pictures) return;
    if (stream.positionOf(cursor) >= stream.pictures - 1) this.editor.go(stream.placeAt(0));
    this.isPlaying = true;
    this.due = performance.now();
    this.editor.look();
    requestAnimationFrame((now) => this.tick(now));
  }

  pause() {
    this.isPlaying = false;
    this.editor.look();
  }

  tick(now) {
    if (!this.isPlaying) return;
    const { stream, cursor, pictures, rate } = this.editor;
    const position = stream.positionOf(cursor);
    if (position >= stream.pictures - 1) return this.pause();
    const period = 1000 / rate;
    if (now >= this.due) {
      const next = stream.placeAt(stream.isValid(cursor) ? position + 1 : position);
      if (this.isThere(stream.ids[next])) {
        // Late by more than a picture, as after waiting, it goes on from here, and doesn't hurry.
        this.due = now - this.due > period ? now + period : this.due + period;
        this.editor.go(next);
      } else {
        this.editor.look();
      }
    }
    requestAnimationFrame((time) => this.tick(time));
  }

  isThere(id) {
    const { pictures } = this.editor;
    const { bitmap, isStale, isFailed, name } = pictures.of(id, true);
    return isFailed || (name && !pictures.decoder) || (bitmap && !isStale && pictures.large.has(name));
  }

  step(by) {
    const { stream, cursor } = this.editor;
    // From a unit without a picture, the next picture is that of its position.
    const from = stream.isValid(cursor) ? stream.positions[cursor] : stream.shownBefore[cursor] - (by > 0 ? 1 : 0);
    this.editor.go(stream.placeAt(from + by));
  }
}
