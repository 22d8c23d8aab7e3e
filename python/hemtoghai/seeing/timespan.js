// The part of the show that the charts have: all of it, or less of it where somebody looks nearer.

import {set, state} from "./state.js";

const LEAST = 500;  // milliseconds that the charts have at least
const LEFT = 46, RIGHT = 14;  // pixels beside a chart

export const spanOf = () => state.flight.end / state.timeZoom;
export const lastShown = () => state.timeFrom + spanOf();

/**
 * Shows the part of the show that begins at a millisecond, so many times nearer than all of it.
 * @param {number} from
 * @param {number} [zoom]
 */
export function showTime(from, zoom = state.timeZoom) {
  const {end} = state.flight, nearest = Math.max(1, end / LEAST), near = Math.max(1, Math.min(nearest, zoom));
  set({timeZoom: near, timeFrom: Math.max(0, Math.min(end - end / near, from))});
}
// Nearer or farther, so that an instant stays where it is drawn.
export function zoomTime(factor, ms) {
  const {end} = state.flight, share = (ms - state.timeFrom) / spanOf();
  showTime(state.timeFrom, state.timeZoom * factor);
  showTime(ms - share * end / state.timeZoom);
}
// Keeps as much of another flight in view as of the one before, whose end this was.
export function keepTime(oldEnd) {
  const isPart = state.timeZoom > 1 && oldEnd;
  showTime(state.timeFrom, isPart ? state.timeZoom * state.flight.end / oldEnd : state.timeZoom);
}
// Of a chart of this width: its edges, the pixel of a millisecond, and the millisecond of a pixel.
export function scaleOf(width) {
  const left = LEFT, right = Math.max(LEFT + 1, width - RIGHT), wide = right - left, span = spanOf();
  return {left, right, wide, x: ms => left + wide * (ms - state.timeFrom) / span,
    ms: px => state.timeFrom + (px - left) / wide * span, perPixel: span / wide};
}
