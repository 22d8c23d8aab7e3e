// The flight that is drawn: where drones are at an instant, and how far apart. It is given by seeing/sampling.py.

import {set, state} from "./state.js";
import {keepTime} from "./timespan.js";

// Takes another flight; the page draws it then.
export function setFlight(data) {
  const oldEnd = state.flight ? state.flight.end : 0;
  set({flight: data, broken: null, ghosts: new Map()});
  keepTime(oldEnd);
  set({last: state.flight.times.length - 1});
  set({drones: state.flight.names.length});
  set({unit: state.flight.end >= 600000 ? "min:s" : "s"});
  const [low, high] = bounds(data.xyz);
  set({lowest: low, highest: high});
  set({beside: state.flight.r + state.flight.stray, up: state.flight.h + state.flight.stray});
  set({floor: state.lowest[2] > 3000 ? state.lowest[2] - state.up : Math.min(0, state.lowest[2])});
  set({room: room()});
}
// How far two drones are apart at a sample, aside and up, in whole millimetres; and straight.
export function gapAt(i, j, sample) {
  const [a, b] = [at(i, sample), at(j, sample)];
  return [Math.round(Math.hypot(a[0] - b[0], a[1] - b[1])), Math.abs(a[2] - b[2])];
}
export const farAt = (i, j, sample) => Math.round(Math.hypot(...gapAt(i, j, sample)) / 10) * 10;
export const at = (k, sample) => state.flight.xyz[k].slice(3 * sample, 3 * sample + 3);
export const time = ms => state.flight.end < 600000 ? `${+(ms / 1000).toFixed(3)}` :
  `${Math.floor(ms / 60000)}:${(ms % 60000 / 1000).toFixed(0).padStart(2, "0")}`;
export const metres = mm => `${+(mm / 1000).toFixed(3)}`;
export function cueAt(ms) {
  let cue = 0;
  while (cue + 1 < state.flight.cues.length && state.flight.cues[cue + 1][0] < ms) cue += 1;
  return cue;
}
/**
 * The sample of a flight that is nearest to an instant.
 * @param {number} ms
 * @param {{times: number[]}} flight
 */
export function sampleAt(ms, flight = state.flight) {
  const {times} = flight;
  let low = 0, high = times.length - 1;
  while (low < high) {
    const middle = (low + high) >> 1;
    if (times[middle] < ms) low = middle + 1; else high = middle;
  }
  return low > 0 && ms - times[low - 1] < times[low] - ms ? low - 1 : low;
}
export const endOfCue = k => k + 1 < state.flight.cues.length ? state.flight.cues[k + 1][0] : state.flight.end;
// The last instant to which the playhead goes: that of the flight, or of the preview of another one.
export const endOfPlay = () => Math.max(state.flight.end, state.preview ? state.preview.flight.end : 0);

// ---- where drones are

// The sample of a flight before an instant, and how much of the way to the next one has passed.
function between(ms, flight) {
  const {times} = flight, last = times.length - 1;
  if (last === 0) return [0, 0];
  let s = sampleAt(ms, flight);
  if (times[s] > ms) s -= 1;
  s = Math.max(0, Math.min(s, last - 1));
  return [s, Math.max(0, Math.min(1, (ms - times[s]) / (times[s + 1] - times[s])))];
}
// A drone's place and yaw at an instant of a flight, on the straight line between two samples.
export function placeAt(k, ms, flight = state.flight) {
  const [s, u] = between(ms, flight), next = Math.min(flight.times.length - 1, s + 1);
  const mix = (row, step, axis) => row[step * s + axis] * (1 - u) + row[step * next + axis] * u;
  return [0, 1, 2].map(axis => mix(flight.xyz[k], 3, axis)).concat(mix(flight.yaw[k], 1, 0));
}
function bounds(rows) {
  const low = [Infinity, Infinity, Infinity], high = [-Infinity, -Infinity, -Infinity];
  for (const row of rows) for (let k = 0; k < row.length; k += 1) {
    const axis = k % 3, v = row[k];
    if (v < low[axis]) low[axis] = v;
    if (v > high[axis]) high[axis] = v;
  }
  return [low, high];
}
// What is drawn: the flights, that of a preview as well, with room for their ellipsoids, and regions as far as a metre
// and a half around that.
function room() {
  const [lowest, highest] = bounds([...state.flight.xyz, ...state.preview ? state.preview.flight.xyz : []]);
  const low = lowest.map((v, k) => v - (k < 2 ? state.beside + 100 : 0));
  const high = highest.map((v, k) => v + (k < 2 ? state.beside + 100 : state.up));
  low[2] = Math.min(state.floor, low[2] - state.up);
  const most = [low.map(v => v - 1500), high.map(v => v + 1500)];
  const regions = state.flight.regions.map(([kind, ...box]) =>
    ({kind, box: box.map((v, k) => Math.max(most[0][k % 3], Math.min(most[1][k % 3], v)))}));
  for (const {box} of regions) for (let k = 0; k < 3; k += 1) {
    low[k] = Math.min(low[k], box[k]);
    high[k] = Math.max(high[k], box[k + 3]);
  }
  return {low, high, regions};
}
export function touching(places) {
  const close = new Set();
  for (let i = 0; i < state.drones; i += 1) for (let j = 0; j < i; j += 1) {
    const a = places[i], b = places[j], side = Math.hypot(a[0] - b[0], a[1] - b[1]) / 2 / state.flight.r;
    if (side ** 2 + ((a[2] - b[2]) / 2 / state.flight.h) ** 2 <= 1) { close.add(i); close.add(j); }
  }
  return close;
}
