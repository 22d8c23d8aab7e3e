// Where a formation tool puts drones: functions of their places in millimetres. Nothing here knows a page or a text.

/**
 * @typedef {number[][]} Places
 * @typedef {{name: string, unit: string, value: number, step: number}} Field
 */

const mean = numbers => numbers.reduce((sum, it) => sum + it, 0) / numbers.length;
/** @param {Places} places */
export const middleOf = places => [0, 1, 2].map(axis => mean(places.map(place => place[axis])));
const whole = places => places.map(place => place.map(it => Math.round(it) + 0));
const spread = (places, axis) => Math.max(...places.map(it => it[axis])) - Math.min(...places.map(it => it[axis]));

/** @param {Places} places
 * @param {number[]} by */
export const moved = (places, by) => whole(places.map(place => place.map((v, axis) => v + by[axis])));
// Seen in a mirror in the middle of all, across the axis x or y.
export function mirrored(places, axis) {
  const middle = middleOf(places)[axis];
  return whole(places.map(place => place.map((v, k) => k === axis ? 2 * middle - v : v)));
}
// Turned around the middle, counterclockwise as seen from above.
export function turned(places, degrees) {
  const [cx, cy] = middleOf(places), angle = degrees * Math.PI / 180, [c, s] = [Math.cos(angle), Math.sin(angle)];
  return whole(places.map(([x, y, z]) => [cx + c * (x - cx) - s * (y - cy), cy + s * (x - cx) + c * (y - cy), z]));
}
// Nearer to the middle or farther from it.
export function scaled(places, factor) {
  const middle = middleOf(places);
  return whole(places.map(place => place.map((v, axis) => middle[axis] + factor * (v - middle[axis]))));
}
// On a ring around the middle, in the order in which they are around it now, so that ways hardly cross; each keeps its
// height. The first stays in its direction.
export function onRing(places, radius) {
  const [cx, cy] = middleOf(places), count = places.length;
  const angleOf = (x, y, k) => Math.hypot(x, y) < 1 ? 2 * Math.PI * k / count : Math.atan2(y, x);
  const angles = places.map(([x, y], k) => angleOf(x - cx, y - cy, k));
  const order = angles.map((_, k) => k).sort((a, b) => angles[a] - angles[b] || a - b), out = places.map(it => [...it]);
  order.forEach((k, at) => {
    const angle = angles[order[0]] + 2 * Math.PI * at / count;
    [out[k][0], out[k][1]] = [cx + radius * Math.cos(angle), cy + radius * Math.sin(angle)];
  });
  return whole(out);
}
// On a line through the middle, along the axis x or y on which they are spread most, in the order that they have there.
export function onLine(places, apart) {
  const axis = spread(places, 1) > spread(places, 0) ? 1 : 0, middle = middleOf(places);
  const out = places.map(it => [...it]);
  const order = places.map((_, k) => k).sort((a, b) => places[a][axis] - places[b][axis] || a - b);
  order.forEach((k, at) => {
    out[k][axis] = middle[axis] + apart * (at - (places.length - 1) / 2);
    out[k][1 - axis] = middle[1 - axis];
  });
  return whole(out);
}
// On a grid around the middle, in rows from the front to the back, each from left to right.
export function onGrid(places, apart) {
  const middle = middleOf(places), columns = Math.ceil(Math.sqrt(places.length)), out = places.map(it => [...it]);
  const rows = Math.ceil(places.length / columns);
  const order = places.map((_, k) => k).sort((a, b) => places[a][1] - places[b][1] || a - b);
  for (let row = 0; row < rows; row += 1) {
    const own = order.slice(row * columns, (row + 1) * columns).sort((a, b) => places[a][0] - places[b][0] || a - b);
    own.forEach((k, at) => {
      out[k][0] = middle[0] + apart * (at - (own.length - 1) / 2);
      out[k][1] = middle[1] + apart * (row - (rows - 1) / 2);
    });
  }
  return whole(out);
}

const EASY = 700;  // millimetres from one drone to the next where a tool is first used
// The least radius, in steps of 5 cm, of a ring on which drones are so far apart.
export const radiusFor = (count, apart = EASY) =>
  count < 2 ? apart : Math.ceil(apart / 2 / Math.sin(Math.PI / count) / 50) * 50;
// How far copies of drones go to the right, so that they stand beside them.
export const besideOf = places => spread(places, 0) + EASY;

const metres = (name, value, step = 100) => ({name, unit: "m", value, step});
/**
 * The tools, by name: what they ask, with the numbers of a first use, and where they put places. `duplicate` makes new
 * drones, and is none of them.
 * @type {Record<string, {fields: (places: Places) => Field[], work: (places: Places, numbers: number[]) => Places}>}
 */
export const TOOLS = {
  raise: {fields: () => [metres("up by", 500)], work: (places, [up]) => moved(places, [0, 0, up])},
  move: {fields: () => [metres("right by", 500), metres("back by", 0)],
    work: (places, [x, y]) => moved(places, [x, y, 0])},
  "mirror x": {fields: () => [], work: places => mirrored(places, 0)},
  "mirror y": {fields: () => [], work: places => mirrored(places, 1)},
  turn: {fields: () => [{name: "by", unit: "°", value: 45, step: 15}], work: (places, [by]) => turned(places, by)},
  scale: {fields: () => [{name: "to", unit: "%", value: 150, step: 10}],
    work: (places, [to]) => scaled(places, to / 100)},
  ring: {fields: places => [metres("radius", radiusFor(places.length), 50)], work: (places, [r]) => onRing(places, r)},
  grid: {fields: () => [metres("apart", EASY)], work: (places, [apart]) => onGrid(places, apart)},
  line: {fields: () => [metres("apart", EASY)], work: (places, [apart]) => onLine(places, apart)},
};
