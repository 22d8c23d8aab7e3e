// Placing drones by hand in ./show studio. Where a cue ends at the playhead, a drone is dragged to another place in a
// view from above, from the front or from the right, or moved by the arrows: the numbers of the line by which it is
// there are written anew, and one that stays in the cue gets a line. Several that are chosen go together, and one undo
// takes all of them back. In the middle of a cue a figure through the place is offered (studio_through.js).

import {byId} from "./elements.js";
import {placeAt} from "./flight.js";
import {pointAt, writeAside} from "./studio_field.js";
import {cueEnding, isTooFar, joined, spotOf} from "./studio_placing.js";
import {offerThrough, throughAt} from "./studio_through.js";
import {moveDrones, VIEWS} from "./view.js";
import {set, state} from "./state.js";

const AXES = {"from above": [0, 1], "from the front": [0, 2], "from the right": [1, 2]};  // to the right, and up
const SNAP = 100, FINE = 10;  // millimetres: of places that are dragged, and with Alt
const ARROW_STEPS = {ArrowLeft: [-1, 0], ArrowRight: [1, 0], ArrowUp: [0, 1], ArrowDown: [0, -1]};
// What was placed last: at the end of which cue, by which lines, and which text that made. Until its flight is there
// the same drones can go on.
let placing = null;

// The axes of the view, or null where it isn't along one.
function axesOfView() {
  const name = Object.keys(AXES).find(it => `${VIEWS[it]}` === `${[state.turn, state.tilt]}`);
  return name ? AXES[name] : null;
}
// Whether what was placed last goes on: its flight isn't there yet.
const goesOn = cue => placing && placing.version === state.version && placing.cue === cue;
function spotAt(k) {
  const cue = cueEnding();
  return goesOn(cue) && placing.drones.has(k) ? spotOf(k, cue, placing.lines, true) : spotOf(k, cue);
}
// Those of the chosen drones that can be placed, or the one alone that isn't chosen.
function placeable(k) {
  const all = k === null || state.chosen.has(k) ? [...state.chosen] : [k], out = new Map();
  for (const it of all) {
    const spot = spotAt(it);
    if (spot) out.set(it, spot);
  }
  return out;
}
// Moves drones by so many millimetres on x, y and z: one change of the text.
function placeBy(drones, by) {
  const cue = cueEnding(), before = state.ghosts, own = goesOn(cue) ? placing.lines : state.found.lines;
  const edits = [];
  for (const {place, edits: of} of drones.values()) {
    const there = place.map((v, axis) => v + 1000 * by[axis]);
    if (isTooFar(there)) return;
    edits.push(...of(there));
  }
  if (!edits.length) return;
  const {from, to, words, line} = joined(edits);
  writeAside(from, to, words);
  pointAt(line, line);
  // Where lines are new the others have other numbers now.
  const isNew = [...drones.values()].some(it => it.isNew);
  placing = isNew ? null : {version: state.version, cue, lines: own, drones: new Set(drones.keys())};
  set({ghosts: movedOn(before, drones, by)});
  moveDrones();
}
// Ghosts with those of drones that go on by so many millimetres.
function movedOn(old, drones, by) {
  const out = new Map(old);
  for (const k of drones.keys()) out.set(k, by.map((v, axis) => v + (old.get(k) || [0, 0, 0])[axis]));
  return out;
}
// By how many millimetres a drone goes on x, y and z with a drag: to a round place on each axis on which it is moved.
function snapped(event, from, axes, place) {
  const snap = event.altKey ? FINE : SNAP, along = [event.clientX - from[0], from[1] - event.clientY], by = [0, 0, 0];
  axes.forEach((axis, side) => {
    const far = along[side] / state.view.scale;
    if (Math.abs(far) >= snap / 2) by[axis] = Math.round((place[axis] + far) / snap) * snap - place[axis];
  });
  return by;
}
// A drag that begins on a drone: what the page does with each step and at the end, or null where the view is turned, or
// where nothing can be placed.
export function grab(event, k) {
  const axes = axesOfView();
  if (!axes || k === null) return null;
  const drones = placeable(k), spot = drones.has(k) ? null : throughAt(k);
  if (!spot && !drones.has(k)) return null;
  const own = spot ? new Map([[k, null]]) : drones, from = [event.clientX, event.clientY], before = state.ghosts;
  const place = spot ? placeAt(k, state.now).slice(0, 3).map(Math.round) : drones.get(k).place.map(it => it / 1000);
  let by = [0, 0, 0];
  // The one that is dragged goes to a round place, and the others as far as it.
  const step = it => {
    by = snapped(it, from, axes, place);
    set({ghosts: movedOn(before, own, by)});
    moveDrones();
  };
  const end = isDone => {
    const isMoved = isDone && by.some(Boolean);
    set({ghosts: before});
    if (isMoved && spot) offerThrough(spot, place.map((v, axis) => 1000 * (v + by[axis])));
    else if (isMoved) placeBy(drones, by);
    moveDrones();
  };
  return {step, end};
}
// What an arrow does to the chosen drones, with the focus in the view; null where it steps in time.
export function placingOfKey(event) {
  const way = ARROW_STEPS[event.key], axes = axesOfView();
  if (!way || !axes || !state.chosen.size || document.activeElement !== byId("space")) return null;
  const drones = placeable(null);
  if (!drones.size) return null;
  const by = [0, 0, 0], far = event.altKey ? FINE : event.shiftKey ? 10 * SNAP : SNAP;
  axes.forEach((axis, side) => { by[axis] = way[side] * far; });
  return () => placeBy(drones, by);
}
