// Finds room for labels: none lies on another one, on an arrow or on a mark. Lifelines may be covered, at a price.

const MARGIN = 1.5;                         // kept free between a label and what is near it
const LIFELINE_PRICE = 22;                  // a label would rather move this far than cover a lifeline
const BUCKET = 32;                          // obstacles are looked up by bands of this height

export const meet = (one, other) => one.left < other.right && other.left < one.right && one.top < other.bottom && other.top < one.bottom;

/** Whether a segment has a point in a box; the piece of it that is in the box is narrowed side by side. */
export function segmentMeets({ x1, y1, x2, y2 }, box) {
  let from = 0, to = 1;
  for (const [start, change, low, high] of [[x1, x2 - x1, box.left, box.right], [y1, y2 - y1, box.top, box.bottom]]) {
    if (change === 0) { if (start <= low || start >= high) return false; continue; }
    const one = (low - start) / change, other = (high - start) / change;
    from = Math.max(from, Math.min(one, other)); to = Math.min(to, Math.max(one, other));
  }
  return from < to;
}
const grown = ({ left, right, top, bottom }) =>
  ({ left: left - MARGIN, right: right + MARGIN, top: top - MARGIN, bottom: bottom + MARGIN });

export class Room {
  /** `lifelines` has {x, top, bottom}; labels stay right of `left`. */
  constructor({ left, lifelines }) { this.left = left; this.lifelines = lifelines; this.bands = new Map(); }

  bandsOf(top, bottom) {
    const found = [];
    for (let band = Math.floor(top / BUCKET); band <= Math.floor(bottom / BUCKET); band++) {
      if (!this.bands.has(band)) this.bands.set(band, { boxes: [], segments: [] });
      found.push(this.bands.get(band));
    }
    return found;
  }
  addBox(box) { for (const band of this.bandsOf(box.top, box.bottom)) band.boxes.push(box); }
  addSegment(segment) {
    const { y1, y2 } = segment;
    for (const band of this.bandsOf(Math.min(y1, y2), Math.max(y1, y2))) band.segments.push(segment);
  }
  isFree(box) {
    const wide = grown(box);
    return box.left >= this.left && this.bandsOf(wide.top, wide.bottom).every(band =>
      !band.boxes.some(other => meet(wide, other)) && !band.segments.some(segment => segmentMeets(segment, wide)));
  }
  covered(box) {
    return this.lifelines.filter(({ x, top, bottom }) => box.left < x && x < box.right && top < box.bottom && box.top < bottom).length;
  }
  /** The best free one of `candidates`, {box, price}, taken; null where there is none. */
  place(candidates) {
    const priced = candidates.map(one => ({ ...one, price: one.price + LIFELINE_PRICE * this.covered(one.box) }));
    const found = priced.sort((one, other) => one.price - other.price).find(one => this.isFree(one.box));
    if (found) this.addBox(found.box);
    return found ?? null;
  }
  /** The leftmost free box of a size from `x` on, taken. */
  placeBehind(x, y, width, height) {
    for (let left = x; ; left += BUCKET / 2) {
      const box = { left, right: left + width, top: y - height / 2, bottom: y + height / 2 };
      if (this.isFree(box)) { this.addBox(box); return box; }
    }
  }
}

/** Boxes beside the point (x, y): on each side, level with it, above and below, and further and further away up to `reach`. */
export function beside(x, y, { width, height, gap, reach, lift, prices }) {
  const candidates = [];
  for (const [side, level, price] of prices) for (let away = 0; away <= reach; away += 8) {
    const left = side === 'right' ? x + gap + away : x - gap - away - width, middle = y + level * lift;
    candidates.push({ box: { left, right: left + width, top: middle - height / 2, bottom: middle + height / 2 }, price: price + away });
  }
  return candidates;
}
