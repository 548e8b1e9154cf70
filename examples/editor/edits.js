// Edits as one cuts. A range's edges snap to safe points, where a period begins at an IDR picture, unless Alt is held. What an edit
// would break is told before it is made.

import { ask } from "./bridge.js";
import { broken, counted } from "./words.js";

export class Edits {
  constructor(editor) {
    [this.editor, this.copied] = [editor, []];
    this.question = document.getElementById("question");
  }

  snapped(edge, isExact) { return isExact ? edge : this.editor.stream.safePoint(edge); }

  /** Chooses the units from one place to another, or none. Snapped, it has the period of where it began at least. */
  choose(from, to, isExact) {
    const { stream } = this.editor;
    if (from === null) this.editor.chosen = null;
    else {
      const [low, high] = [Math.min(from, to), Math.max(from, to) + 1];
      const begin = isExact ? low : Math.min(this.snapped(low), stream.safePointBefore(from + 1));
      const end = isExact ? high : Math.max(this.snapped(high), stream.safePointBehind(from));
      this.editor.chosen = { from: begin, to: end };
    }
    [this.editor.extent, this.editor.isExact] = [from === null ? null : [from, to], isExact];
    this.foresee();
    this.editor.tell();
  }

  /** Moves the far edge of what is chosen. */
  extend(by, isExact) {
    const { stream, cursor, extent } = this.editor;
    const [from, to] = extent ?? [cursor, cursor];
    const next = isExact || !extent ? (extent ? to + by : cursor) : by > 0 ? stream.safePointBehind(to) : stream.safePointBefore(to) - 1;
    this.choose(from, Math.max(0, Math.min(stream.length - 1, next)), isExact);
    this.editor.view.bring(Math.max(0, Math.min(stream.length - 1, next)), stream.length);
    this.editor.look();
  }

  /** What is edited: the range that is chosen, or the unit under the cursor. */
  get range() {
    const { chosen, cursor, stream } = this.editor;
    return chosen ?? { from: cursor, to: Math.min(cursor + 1, stream.length) };
  }

  get ids() { return this.editor.stream.ids.slice(this.range.from, this.range.to); }

  /** Tells what deleting the chosen range would break, when the choice has stood for a moment. */
  foresee() {
    clearTimeout(this.timer);
    const { chosen, stream } = this.editor;
    const output = document.getElementById("foreseen");
    output.textContent = "";
    output.className = "";
    if (!chosen) return;
    this.timer = setTimeout(async () => {
      const told = await ask("foresee", [[chosen.from, chosen.to - chosen.from, []]]).catch(() => null);
      if (!told || chosen !== this.editor.chosen || stream !== this.editor.stream) return;
      const what = broken(told);
      output.textContent = `Without them: ${what || "no decode errors"}.`;
      output.className = what ? "breaks" : "";
    }, 150);
  }

  /** Makes splices, after telling what they would break. What is broken already isn't told again. */
  async make(splices, doing, done, cursor, chosen = null) {
    if (!splices.some(([, gone, come]) => gone || come.length)) return;
    const what = broken(await ask("foresee", splices));
    if (what && !(await this.isMeant(`${doing}? It would break others: ${what}.`, `${doing} all the same`))) return;
    this.editor.take(await ask("edit", splices), cursor, chosen);
    this.editor.say(`${done}${this.summary()}`);
  }

  /** What the last edit changed, as its receipt tells. */
  summary() {
    const [, count] = this.editor.stream.changed;
    return count ? `, which changed ${count}.` : ".";
  }

  /** Asks whether something is meant, and answers so. */
  isMeant(text, agreed) {
    const { question } = this;
    question.querySelector("p").textContent = text;
    const [yes, no] = question.querySelectorAll("button");
    [yes.textContent, no.textContent] = [agreed, "Leave it"];
    question.returnValue = "no";
    question.showModal();
    no.focus();
    return new Promise((resolve) => {
      yes.onclick = () => question.close("yes");
      no.onclick = () => question.close("no");
      question.onclose = () => resolve(question.returnValue === "yes");
    });
  }

  delete() {
    const { from, to } = this.range;
    const what = counted(to - from, "access unit");
    return this.make([[from, to - from, []]], `Delete ${what}`, `Deleted ${what}`, from);
  }

  copy() {
    this.copied = this.ids;
    this.editor.say(`Copied ${counted(this.copied.length, "access unit")}.`);
    this.editor.tell();
  }

  cut() {
    this.copied = this.ids;
    return this.delete();
  }

  /** Where copied units go: in front of what is chosen, or at the safe point nearest to the cursor. */
  pastePlace(isExact) {
    const { chosen, cursor } = this.editor;
    return chosen ? chosen.from : this.snapped(cursor, isExact);
  }

  paste(isExact) {
    const { length } = this.copied;
    if (!length) return undefined;
    const [place, what] = [this.pastePlace(isExact), counted(length, "access unit")];
    return this.make([[place, 0, this.copied]], `Paste ${what}`, `Pasted ${what}`, place, { from: place, to: place + length });
  }

  /** Moves the range in front of the unit at a place of the stream as it is. */
  move(edge) {
    const { from, to } = this.range;
    if (edge >= from && edge <= to) return undefined;
    const [count, place] = [to - from, edge > from ? edge - (to - from) : edge];
    const [splices, what] = [[[from, count, []], [place, 0, this.ids]], counted(count, "access unit")];
    return this.make(splices, `Move ${what}`, `Moved ${what}`, place, { from: place, to: place + count });
  }

  earlier(isExact) {
    const { from } = this.range;
    return from > 0 ? this.move(isExact ? from - 1 : this.editor.stream.safePointBefore(from)) : undefined;
  }

  later(isExact) {
    const { stream } = this.editor;
    const { to } = this.range;
    return to < stream.length ? this.move(isExact ? to + 1 : stream.safePointBehind(to)) : undefined;
  }

  async undo() {
    this.editor.take(await ask("undo", {}));
    this.editor.say(`Undone${this.summary()}`);
  }

  async redo() {
    this.editor.take(await ask("redo", {}));
    this.editor.say(`Made again${this.summary()}`);
  }

  async save() {
    const told = await ask("save", {});
    this.editor.take(told, undefined, this.editor.chosen, false);
    // A file that was dropped here is a copy: what is saved of it is downloaded.
    if (told.is_copy) Object.assign(document.createElement("a"), { href: "stream", download: told.name }).click();
    this.editor.say(`Saved ${told.name}, ${counted(told.ids.length, "access unit")}.`);
  }
}
