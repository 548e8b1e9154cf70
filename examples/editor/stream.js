// The stream as the bridge tells it: units in stream order, by their places, and in output order, by their positions.

export class Stream {
  constructor(told) {
    Object.assign(this, told);
    this.length = told.ids.length;
    this.places = new Map(told.ids.map((id, place) => [id, place]));
    this.faults = new Map(told.faults.map(([place, number, name]) => [place, { number, name }]));
    this.follows = new Map(told.follows.map(([place, broken, doubt]) => [place, { broken, doubt }]));
    this.atPosition = new Int32Array(told.positions.filter((position) => position >= 0).length);
    this.shownBefore = new Int32Array(this.length + 1); // how many pictures are of units before a place
    told.positions.forEach((position, place) => {
      if (position >= 0) this.atPosition[position] = place;
      this.shownBefore[place + 1] = this.shownBefore[place] + (position >= 0 ? 1 : 0);
    });
    const altered = new Set(told.altered);
    this.isAltered = (place) => altered.has(place);
    // A period that begins by memory_management_control_operation 5 is no safe point: its first picture refers to earlier ones.
    const idr = new Set(told.idr);
    this.starts = told.begins.filter((place) => idr.has(place));
    this.isIdr = (place) => idr.has(place);
  }

  get pictures() { return this.atPosition.length; }

  isValid(place) { return this.positions[place] >= 0; }

  isInDoubt(place) { return this.follows.get(place)?.doubt ?? false; }

  isReference(place) { return this.references[place] === "1"; }

  /** The last valid IDR picture up to a place, or null. */
  lastStart(place) {
    const at = countUpTo(this.starts, place);
    return at > 0 ? this.starts[at - 1] : null;
  }

  /** The safe point nearest to an edge between units: an edge is the place of the unit behind it. */
  safePoint(edge) {
    const at = countUpTo(this.starts, edge);
    const before = at > 0 ? this.starts[at - 1] : 0;
    const behind = at < this.starts.length ? this.starts[at] : this.length;
    return edge - before <= behind - edge ? before : behind;
  }

  /** The safe points before and behind an edge. */
  safePointBefore(edge) { return this.lastStart(edge - 1) ?? 0; }

  safePointBehind(edge) { return this.starts[countUpTo(this.starts, edge)] ?? this.length; }

  /** The place of the picture that is shown at a position, or the nearest one. */
  placeAt(position) {
    return this.atPosition[Math.max(0, Math.min(this.pictures - 1, position))] ?? 0;
  }

  /** The position at which the cursor is in output order: a unit without a picture has that of the next picture. */
  positionOf(place) {
    return this.isValid(place) ? this.positions[place] : Math.min(this.shownBefore[place], Math.max(0, this.pictures - 1));
  }
}

/** How many numbers of a sorted list are at most so large. */
function countUpTo(numbers, most) {
  let low = 0;
  for (let high = numbers.length; low < high;) {
    const middle = (low + high) >> 1;
    if (numbers[middle] <= most) low = middle + 1;
    else high = middle;
  }
  return low;
}

/** A position as hours, minutes, seconds and pictures, at so many pictures a second. */
export function timeCode(position, rate) {
  const seconds = Math.floor(position / rate + 1e-9);
  const two = (number) => String(number).padStart(2, "0");
  const picture = position - Math.ceil(seconds * rate - 1e-9);
  return [Math.floor(seconds / 3600), Math.floor(seconds / 60) % 60, seconds % 60, picture].map(two).join(":");
}

/** The position of a time: its numbers are, from the last one on, pictures, seconds, minutes and hours. */
export function positionOfTime(text, rate) {
  const [picture = 0, seconds = 0, minutes = 0, hours = 0] = text.split(":").map(Number).reverse();
  const position = Math.ceil((hours * 3600 + minutes * 60 + seconds) * rate - 1e-9) + picture;
  return Number.isFinite(position) ? position : null;
}
