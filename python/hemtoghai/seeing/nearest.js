// How near drones of a flight come at its samples, as a share of the distance at which their ellipsoids touch. It looks
// at these instants alone and proves nothing.

export const shareOf = squared => Math.round(1000 * Math.sqrt(squared)) / 10;
// How near two drones are at a sample.
export function shareAt(data, i, j, s) {
  const [dx, dy, dz] = [0, 1, 2].map(axis => data.xyz[j][3 * s + axis] - data.xyz[i][3 * s + axis]);
  return shareOf((dx * dx + dy * dy) / (4 * data.r * data.r) + dz * dz / (4 * data.h * data.h));
}
// The nearest pair at a sample, as a share of the distance at which its ellipsoids touch. By pair the sample at which
// it is nearest so far, and how near, is kept in `least`.
export function nearestAt(data, s, least) {
  const wide = 4 * data.r * data.r, high = 4 * data.h * data.h, count = data.names.length;
  let best = Infinity, first = 0, second = 1;
  for (let i = 0; i < count; i += 1) {
    const a = data.xyz[i], x = a[3 * s], y = a[3 * s + 1], z = a[3 * s + 2];
    for (let j = i + 1; j < count; j += 1) {
      const b = data.xyz[j], dx = b[3 * s] - x, dy = b[3 * s + 1] - y, dz = b[3 * s + 2] - z;
      const squared = (dx * dx + dy * dy) / wide + dz * dz / high;
      if (squared < best - 1e-9) [best, first, second] = [squared, i, j];
      if (squared < least[i * count + j][0] - 1e-9) least[i * count + j] = [squared, i, j, s];
    }
  }
  return [shareOf(best), first, second];
}
const MOST_PAIRS = 8;
// The pairs that come nearest, as [share, first, second, sample].
export function nearestPairs(least) {
  const met = least.filter(([squared]) => squared < Infinity).sort((a, b) => a[0] - b[0]);
  return met.slice(0, MOST_PAIRS).map(([squared, ...rest]) => [shareOf(squared), ...rest]);
}
// The least share at all samples, with both drones; null for them where one drone flies.
export function nearestOf(data) {
  const least = new Array(data.names.length ** 2).fill([Infinity]);
  for (let s = 0; data.names.length > 1 && s < data.times.length; s += 1) nearestAt(data, s, least);
  const [[share, i, j]] = [...nearestPairs(least), [0, null, null]];
  return [share, i, j];
}
