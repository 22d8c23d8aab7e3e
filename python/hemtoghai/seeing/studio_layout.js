// How ./show studio lays itself out: the flight beside the text, in windows of all sizes, light and dark; and the
// cursor's cue.

import {charts, drawHeights, drawShares} from "./charts.js";
import {byId} from "./elements.js";
import {cueAt} from "./flight.js";
import {given} from "./given.js";
import {DARK, LIGHT} from "./palettes.js";
import {buildLegend, isPlaying, move, stop} from "./player.js";
import {grab} from "./studio_drag.js";
import {pickDrone, pickDrones, showNumber, stretchCue} from "./studio_edit.js";
import {carryCue} from "./studio_cues.js";
import {cursorLine, field, pointAt, resizeField, within} from "./studio_field.js";
import {isStill, rest} from "./studio_judge.js";
import {followMusic, playMusic} from "./studio_music.js";
import {drawPaper} from "./studio_paper.js";
import {askMotion, drawLanes, followPlayhead, placeScroll} from "./studio_timeline.js";
import {renewTool} from "./studio_tools.js";
import {filmStopped} from "./studio_video.js";
import {drawSpace} from "./view.js";
import {set, state} from "./state.js";

const LEAST_SPACE = 170, LEAST_CHART = 76;  // pixels of the view in space, for which charts are lower, and of a chart
function heightOfChart() {
  const left = byId("flight").clientHeight - BESIDE_CHARTS - byId("timeline").clientHeight;
  if (isLow()) return within(left / 2, 84, 200);
  if (isSmall()) return 130;
  const all = ["room", "heights", "share"].reduce((sum, id) => sum + byId(id).clientHeight, 0);
  return Math.round(within((all - LEAST_SPACE) / 2, LEAST_CHART, innerHeight > 860 ? 130 : 108));
}
// The charts get their heights first: what is left is that of the view in space.
function layOut() {
  charts.length = 0;
  askMotion();
  set({chartHeight: heightOfChart()});
  // cue numbers above both, times below both
  set({chartEdges: {heights: [22, state.drones > 1 ? 6 : 32], share: [6, 32]}});
  for (const id of ["heights", "share"]) byId(id).style.height = `${state.chartHeight}px`;
  byId("alone").hidden = state.drones > 1;
  byId("share").style.display = state.drones > 1 ? "" : "none";
}
const DRAWING = [layOut, () => drawSpace(), () => { if (!isStill()) drawHeights(); },
  () => { if (state.drones > 1 && !isStill()) drawShares(); }, () => { if (!isStill()) drawLanes(); placeScroll(); },
  () => move(state.now)];
export function draw() {
  if (state.flight) for (const part of DRAWING) part();
}
// The same, with a rest after each part. It goes on also where the text is another one meanwhile: all parts are then of
// one flight.
export async function drawInParts() {
  for (const part of DRAWING) {
    part();
    await rest();
  }
}
// Draws what has an axis of time, once another part of the show is looked at.
export function drawTimes() {
  if (!state.flight || isStill()) return;
  charts.length = 0;
  drawHeights();
  if (state.drones > 1) drawShares();
  drawLanes();
  placeScroll();
  for (const it of charts) it.set();
}
// As in studio.css: a low window has the charts beside the view in space, a small one is scrolled.
const isLow = () => innerHeight <= 640 && innerWidth >= 560;
export const isSmall = () => innerWidth <= 820 || innerWidth <= 1000 && isLow();
const heightOfSpace = width => isSmall() && !isLow() ? Math.min(340, width) : byId("room").clientHeight;
let playingCue = -1;
// The lines of the cue that is flown are marked beside the text.
function markCue() {
  const cue = cueAt(state.now);
  if (cue !== playingCue) {
    playingCue = cue;
    drawPaper();
  }
  followPlayhead();
  followMusic();
}
// A click into a chart puts the cursor before the cue. The lines that an older text had stand elsewhere in this one.
function pickCue(ms) {
  if (state.flightVersion === state.version && state.flight.lines) pointAt(...state.flight.lines[cueAt(ms)][0]);
}
function onPlaying(plays) {
  playMusic(plays);
  if (!plays) filmStopped();
}
function onChosen() {
  draw();
  renewTool();
}
// What the drawings do in this page.
export function bindDrawings() {
  set({shareWords: "nearest two, % of touching distance", spaceHeight: heightOfSpace});
  set({onPlay: onPlaying, onMove: markCue, onPick: pickCue});
  set({onChoose: onChosen, onDrone: pickDrone, onBand: pickDrones});
  if (!given.watch) set({onGrab: grab, onStretch: stretchCue, onCarry: carryCue});
  for (const id of ["room", "editor"]) watcher.observe(byId(id));
}
// Pixels above, between and below the two charts of a low window, beside the timeline.
const BESIDE_CHARTS = 104;
// The drawings follow the page from light to dark.
export const dark = matchMedia("(prefers-color-scheme: dark)");
export function repaint() {
  set({paint: dark.matches ? DARK : LIGHT});
  if (state.flight) buildLegend();
  draw();
}
export function resize() {
  draw();
  drawPaper();
}
// The view in space and the editor get what is left beside the bar and the lists, which grow and shrink.
const watcher = new ResizeObserver(entries => {
  for (const {target} of entries) {
    if (target !== byId("editor")) {
      if (!state.flight) continue;
      if (isStill() || heightOfChart() === state.chartHeight) drawSpace();
      else draw();
    } else if (!given.watch) {
      resizeField();
      drawPaper();
    }
  }
});
// The cues that the line of the cursor stands for, those first in which it is an own line.
function cuesAt(line) {
  if (!state.flight || !state.flight.lines || state.flightLines !== state.lines.length) return [];
  const within = ([from, to]) => from <= line && line <= to;
  const own = [], other = [];
  state.flight.lines.forEach((rows, k) => {
    if (within(rows[0])) own.push(k);
    else if (rows.some(within)) other.push(k);
  });
  return own.length ? own : other;
}
let cursorCues = [], knownLine = 0;  // of the cursor
export function onCursor() {
  if (given.watch) return;
  const line = cursorLine(), isOther = line !== knownLine;
  knownLine = line;
  cursorCues = cuesAt(line);
  const names = cursorCues.slice(0, 6).map(k => k + 1).join(", ") + (cursorCues.length > 6 ? " .." : "");
  byId("where").textContent = `line ${line}` + (cursorCues.length ? ` · cue ${names}` : "");
  byId("to-cue").hidden = cursorCues.length === 0;
  showNumber(false);
  // A flight that is played goes on where the cursor stays in its line.
  const follows = byId("follow").checked && document.activeElement === field && (isOther || !isPlaying());
  if (follows && !cursorCues.includes(cueAt(state.now))) toCue();
}
// Goes to the cue of the cursor, and at the next call to the next one of a repeat.
export function toCue() {
  if (!cursorCues.length) return;
  const next = cursorCues.find(k => state.flight.cues[k][0] > state.now) ?? cursorCues[0];
  stop();
  move(state.flight.cues[next][0] + 1);
}
