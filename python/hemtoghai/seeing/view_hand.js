// What the mouse, fingers and buttons do to the view in space.

import {byId, element} from "./elements.js";
import {placeAt} from "./flight.js";
import {drawSpace, moveDrones, VIEWS} from "./view.js";
import {set, state} from "./state.js";

const NEAR_CLICK = 16;  // pixels from a drone at which a click is still one on it
// The drone that is drawn nearest to a point of the canvas, or null where none is near; of two that cover each other
// one that is chosen.
function droneAt(x, y) {
  if (state.view === null) return null;
  let best = NEAR_CLICK, drone = null;
  state.flight.names.forEach((_, k) => {
    const [px, py] = state.view.to(placeAt(k, state.now));
    const far = Math.hypot(px - x, py - y) - (state.chosen.has(k) ? 1 : 0);
    if (far < best) [best, drone] = [far, k];
  });
  return drone;
}
export function setView(words) {
  const [side, up] = VIEWS[words];
  set({turn: side, tilt: up, zoom: 1, aside: [0, 0]});
  drawSpace();
}
// Nearer or farther, so that what is at a point of the canvas stays there.
export function zoomBy(factor, /** @type {number[]} */ [x, y]) {
  if (state.view === null) return;
  const old = state.zoom;
  set({zoom: Math.max(1, Math.min(12, state.zoom * factor))});
  const by = state.zoom / old, middle = [state.view.width / 2, state.view.height / 2];
  set({aside: state.zoom === 1 ? [0, 0] : state.aside.map((v, k) => by * v + (1 - by) * ([x, y][k] - middle[k]))});
  drawSpace();
}
// A rectangle that is dragged from here: it chooses the drones in it beside those that are chosen.
function bandFrom({offsetX: x, offsetY: y}) {
  const isIn = (/** @type {number[]} */ [px, py]) => {
    const [a, b, c, d] = state.band;
    return Math.min(a, c) <= px && px <= Math.max(a, c) && Math.min(b, d) <= py && py <= Math.max(b, d);
  };
  return {
    step(event) {
      set({band: [x, y, event.offsetX, event.offsetY]});
      moveDrones();
    },
    end(isDone) {
      const inside = state.flight.names.map((_, k) => k).filter(k => isIn(state.view.to(placeAt(k, state.now))));
      set({band: null});
      if (isDone) state.onBand([...new Set([...state.chosen, ...inside])]);
      else moveDrones();
    },
  };
}
// What a drag carries: a rectangle with Ctrl, or what the page carries, or nothing.
function holdOf(event) {
  if (state.onBand && (event.ctrlKey || event.metaKey)) return bandFrom(event);
  return state.onGrab && !event.shiftKey ? state.onGrab(event, droneAt(event.offsetX, event.offsetY)) : null;
}
const fingers = new Map();  // where each finger is on the canvas, or the mouse
let pinch = null;  // how far two fingers are apart
let from = null;  // where a drag began, and what the view was then
let hold = null;  // what the drag carries
const middle = () => [0, 1].map(side => [...fingers.values()].reduce((sum, it) => sum + it[side], 0) / fingers.size);
const span = () => { const [a, b] = [...fingers.values()]; return Math.hypot(a[0] - b[0], a[1] - b[1]); };
function onDown(event) {
  if (!state.flight) return;
  fingers.set(event.pointerId, [event.offsetX, event.offsetY]);
  byId("space").setPointerCapture(event.pointerId);
  if (fingers.size === 2) {  // two fingers zoom, and neither turns
    if (hold) hold.end(false);
    [from, hold, pinch] = [null, null, span()];
    return;
  }
  from = [event.clientX, event.clientY, state.turn, state.tilt, ...state.aside];
  hold = holdOf(event);
}
function onMove(event) {
  if (fingers.has(event.pointerId)) fingers.set(event.pointerId, [event.offsetX, event.offsetY]);
  if (pinch && fingers.size === 2) {
    zoomBy(span() / pinch, middle());
    pinch = span();
  }
  if (from === null || !event.buttons) return;
  const [dx, dy] = [event.clientX - from[0], event.clientY - from[1]];
  if (Math.hypot(dx, dy) < 4 && !state.isRough) return;  // a click that shakes
  set({isRough: true});
  if (hold) hold.step(event);
  else lookFrom(event, dx, dy);
}
function lookFrom(event, dx, dy) {
  if (event.shiftKey) {
    set({aside: [from[4] + dx, from[5] + dy]});
  } else {
    set({turn: from[2] - dx / 2});
    // A finger that goes up or down scrolls a page that is longer than the window.
    if (getComputedStyle(byId("space")).touchAction !== "pan-y" || event.pointerType !== "touch") {
      set({tilt: Math.max(0, Math.min(90, from[3] + dy / 2))});
    }
  }
  drawSpace();
}
function onUp(event) {
  const isClick = from !== null && !state.isRough && event.type === "pointerup";
  const grabbed = state.isRough ? hold : null;
  fingers.delete(event.pointerId);
  [from, hold] = [null, null];
  set({isRough: false});
  if (fingers.size < 2) pinch = null;
  if (!state.flight) return;
  if (grabbed) grabbed.end(event.type === "pointerup");
  else if (!isClick || !state.onDrone) drawSpace();
  else state.onDrone(droneAt(event.offsetX, event.offsetY), event.shiftKey || event.ctrlKey);
}
export function buildViews() {
  for (const name in VIEWS) element("button", name, byId("views")).onclick = () => setView(name);
  const canvas = byId("space");
  Object.assign(canvas, {onpointerdown: onDown, onpointermove: onMove, onpointerup: onUp, onpointercancel: onUp});
}
