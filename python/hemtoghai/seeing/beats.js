// Beats of the music of a show, in milliseconds and in order. Nothing here knows a page.

const SAME = 30, MOST = 20000;  // milliseconds within which a beat is the same; beats of a show

// The beats with one more, or without the one that is there already.
export function toggled(beats, ms) {
  const left = beats.filter(it => Math.abs(it - ms) > SAME);
  return left.length < beats.length ? left : [...beats, Math.max(0, Math.round(ms))].sort((a, b) => a - b);
}
// The beat that is nearest to an instant, or null where none is as near as this.
export function beatNear(beats, ms, most) {
  let low = 0, high = beats.length;
  while (low < high) {
    const middle = (low + high) >> 1;
    if (beats[middle] < ms) low = middle + 1; else high = middle;
  }
  const near = [beats[low - 1], beats[low]].filter(it => it !== undefined && Math.abs(it - ms) <= most);
  return near.sort((a, b) => Math.abs(a - ms) - Math.abs(b - ms))[0] ?? null;
}
/**
 * Even beats from the start to an end, as those that were tapped: by the line of least squares through them, where each
 * is so many periods after the first as the middle one of all gaps says. Null of fewer than three.
 * @param {number[]} beats
 * @param {number} end
 * @returns {number[] | null}
 */
export function evened(beats, end) {
  if (beats.length < 3) return null;
  const gaps = beats.slice(1).map((it, k) => it - beats[k]).sort((a, b) => a - b), gap = gaps[gaps.length >> 1];
  const turns = beats.map(it => Math.round((it - beats[0]) / gap));
  const mean = row => row.reduce((a, b) => a + b) / row.length;
  const [middle, at] = [mean(turns), mean(beats)];
  const slope = mean(turns.map((k, i) => (k - middle) * (beats[i] - at))) / mean(turns.map(k => (k - middle) ** 2));
  const first = at - slope * middle, out = [];
  for (let ms = first - Math.floor(first / slope) * slope; ms <= end && out.length < MOST; ms += slope) {
    out.push(Math.round(ms));
  }
  return out;
}
