// The slider, playing, and the list of drones. A page has elements with the ids slider, now, go, speed, loop and
// legend.

import {charts} from "./charts.js";
import {colour, dashes} from "./colours.js";
import {byId, element, line, node} from "./elements.js";
import {cueAt, endOfPlay, farAt, metres, sampleAt, time} from "./flight.js";
import {moveDrones} from "./view.js";
import {buildViews} from "./view_hand.js";
import {set, state} from "./state.js";

export function move(ms) {
  set({now: Math.max(0, Math.min(endOfPlay(), ms))});
  byId("slider").value = `${state.now}`;
  const cue = cueAt(state.now), shown = state.flight.end >= 600000 ? state.now : Math.round(state.now / 10) * 10;
  let said = `${time(shown)} of ${time(state.flight.end)} ${state.unit}, cue ${cue + 1} of ${state.flight.cues.length}`;
  said += ` (${state.flight.cues[cue][1]})`;
  if (state.flight.nearest.length) {
    const s = sampleAt(state.now), [share, i, j] = state.flight.nearest[s];
    said += `; nearest: ${state.flight.names[i]} and ${state.flight.names[j]} with ${share.toFixed(0)}\u00a0%, ` +
      `${metres(farAt(i, j, s))}\u00a0m`;
  }
  byId("now").textContent = said;
  byId("slider").setAttribute("aria-valuetext", `${time(shown)} ${state.unit}, cue ${cue + 1}`);
  moveDrones();
  for (const it of charts) it.set();
  if (state.onMove) state.onMove();
}
export function press() {
  [...byId("legend").children].forEach((it, k) => it.setAttribute("aria-pressed", `${state.chosen.has(k)}`));
}
export function buildLegend() {
  byId("legend").replaceChildren();
  state.flight.names.forEach((name, k) => {
    const it = element("button", "", byId("legend")), sample = node("svg", {viewBox: "0 0 26 10"});
    line(sample, 0, 5, 26, 5, colour(k), {"stroke-width": 3, "stroke-dasharray": dashes(k)});
    it.append(sample, name);
    it.onclick = () => {
      if (!state.chosen.delete(k)) state.chosen.add(k);
      press();
      state.onChoose();
    };
    it.tabIndex = k === 0 ? 0 : -1;
  });
  press();
}
const STEPS = {ArrowLeft: -1, ArrowUp: -1, ArrowRight: 1, ArrowDown: 1, Home: -Infinity, End: Infinity};
// Tab comes to the list of drones once, and arrows go from one to the next.
function walkLegend(event) {
  const all = /** @type {HTMLElement[]} */ ([...byId("legend").children]), here = all.indexOf(event.target);
  if (here < 0 || !(event.key in STEPS)) return;
  event.preventDefault();
  const next = all[Math.max(0, Math.min(all.length - 1, here + STEPS[event.key]))];
  for (const it of all) it.tabIndex = it === next ? 0 : -1;
  next.focus();
}
let frame = 0;  // the frame that is asked for while it plays; two presses within one leave none behind
let before = 0;  // the stamp of the frame before
const MOST = 100;  // milliseconds from frame to frame that count: after a hiccup it goes on where it was
function play(stamp) {
  const step = Math.max(0, Math.min(MOST, stamp - before)), again = byId("loop").checked;
  const ms = state.now + step * Number(byId("speed").value), isOver = ms >= endOfPlay();
  before = stamp;
  frame = requestAnimationFrame(play);
  move(isOver && again ? 0 : ms);
  if (isOver && !again) stop();
}
export const isPlaying = () => frame !== 0;
export function stop() {
  const plays = isPlaying();
  cancelAnimationFrame(frame);
  frame = 0;
  byId("go").textContent = "Play";
  if (plays && state.onPlay) state.onPlay(false);
}
export function playOrStop() {
  if (isPlaying()) return stop();
  if (state.now >= endOfPlay()) set({now: 0});
  byId("go").textContent = "Pause";
  frame = requestAnimationFrame(stamp => { before = stamp; play(stamp); });
  if (state.onPlay) state.onPlay(true);
  return null;
}
// Binds the controls of the page; it is called once.
export function buildControls() {
  byId("go").onclick = playOrStop;
  for (const speed of [0.1, 0.25, 0.5, 1, 2, 4, 8]) {
    const it = element("option", `${speed}`, byId("speed"));
    it.value = `${speed}`;
    it.selected = speed === 1;
  }
  byId("legend").addEventListener("keydown", walkLegend);
  byId("slider").oninput = () => { stop(); move(Number(byId("slider").value)); };
  buildViews();
}
// Sets the slider to the flight's length.
export function setSlider() {
  byId("slider").max = `${endOfPlay()}`;
  byId("slider").step = `${Math.max(1, Math.round(state.flight.end / 4000))}`;
}
