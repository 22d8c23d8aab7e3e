// The time of ./show studio: how near it is looked at, the lanes of the drones, and what is done to the cue at the
// playhead.

import {charts} from "./charts.js";
import {colour, faint} from "./colours.js";
import {byId, line, node, text} from "./elements.js";
import {cueAt, endOfCue} from "./flight.js";
import {given} from "./given.js";
import {move, stop} from "./player.js";
import {carryCue, removeCue} from "./studio_cues.js";
import {pickDrone} from "./studio_edit.js";
import {isStill, readStages} from "./studio_judge.js";
import {drawTimes} from "./studio_layout.js";
import {post} from "./studio_text.js";
import {set, state} from "./state.js";
import {lastShown, scaleOf, showTime, spanOf, zoomTime} from "./timespan.js";

const STEP = 1.5;  // how much nearer a button goes
const ROW = 16, NARROW = 3, LETTER = 6.7;  // pixels: of a lane, of an act that is drawn with the next one, of a letter

// ---- how near

let isWaiting = false;
// Draws the charts at the next frame: a wheel turns faster than they are drawn.
function drawSoon() {
  if (isWaiting) return;
  isWaiting = true;
  requestAnimationFrame(() => {
    isWaiting = false;
    drawTimes();
  });
}
const isSeen = ms => state.timeFrom <= ms && ms <= lastShown();
const middle = () => isSeen(state.now) ? state.now : state.timeFrom + spanOf() / 2;
function nearer(factor, ms = middle()) {
  if (!state.flight) return;
  zoomTime(factor, ms);
  drawSoon();
}
// With Ctrl a wheel zooms at the pointer; with Shift, or sideways, it goes along the time.
function onWheel(event) {
  const along = event.deltaX || (event.shiftKey ? event.deltaY : 0);
  if (!state.flight || !event.ctrlKey && (!along || state.timeZoom === 1)) return;
  event.preventDefault();
  const box = event.currentTarget.getBoundingClientRect(), scale = scaleOf(box.width);
  if (event.ctrlKey) return nearer(Math.exp(-event.deltaY / 300), scale.ms(event.clientX - box.left));
  showTime(state.timeFrom + along * scale.perPixel);
  drawSoon();
}
const fingers = new Map();
// Two fingers that part zoom in time.
function bindFingers(svg) {
  svg.addEventListener("pointerdown", event => {
    if (event.pointerType === "touch") fingers.set(event.pointerId, event.clientX);
  });
  svg.addEventListener("pointermove", event => {
    if (!fingers.has(event.pointerId)) return;
    const span = () => { const [a, b] = [...fingers.values()]; return Math.max(10, Math.abs(a - b)); };
    const before = fingers.size === 2 ? span() : 0;
    fingers.set(event.pointerId, event.clientX);
    if (!before) return;
    event.stopImmediatePropagation();  // neither scrubs
    const left = svg.getBoundingClientRect().left, [a, b] = [...fingers.values()];
    nearer(span() / before, scaleOf(svg.clientWidth).ms((a + b) / 2 - left));
  }, true);
  for (const kind of ["pointerup", "pointercancel"]) addEventListener(kind, event => {
    fingers.delete(/** @type {PointerEvent} */ (event).pointerId);
  });
}
// Shows by a bar which part of the time is seen, where that isn't all.
export function placeScroll() {
  const bar = byId("time-scroll"), isWhole = state.timeZoom === 1;
  if (bar.hidden !== isWhole) bar.hidden = isWhole;
  for (const id of ["time-farther", "time-all"]) byId(id).toggleAttribute("disabled", isWhole);
  if (isWhole) return;
  /** @type {HTMLElement} */ (bar.firstElementChild).style.width = `${100 * state.timeZoom}%`;
  const wanted = bar.scrollWidth * state.timeFrom / state.flight.end;
  if (Math.abs(bar.scrollLeft - wanted) > 1) bar.scrollLeft = wanted;
}
function onScroll() {
  const bar = byId("time-scroll"), wanted = bar.scrollWidth * state.timeFrom / state.flight.end;
  if (state.timeZoom === 1 || Math.abs(bar.scrollLeft - wanted) <= 1) return;
  showTime(bar.scrollLeft / bar.scrollWidth * state.flight.end);
  drawSoon();
}
let followed = 0;  // where the playhead was
// The charts go on where the playhead leaves them.
export function followPlayhead() {
  const isMoved = followed !== state.now;
  followed = state.now;
  if (!isMoved || state.timeZoom === 1 || isSeen(state.now)) return;
  showTime(state.now - spanOf() / 10);
  drawSoon();
}

// ---- what the charts show

let asking = null;  // ends the request of the motion that isn't there yet
// Asks how the drones move that are drawn, where the chart shows that and it isn't known of this flight.
export async function askMotion() {
  if (["x", "y", "z"].includes(state.chartKind) || !state.flight || state.flightVersion !== state.version) return;
  const drones = state.chosen.size ? [...state.chosen] : state.flight.names.map((_, k) => k);
  const asked = `${state.version} ${drones}`;
  if (state.motion && state.motion.asked === asked || state.flight.begun) return;
  set({motion: null});
  if (asking) asking.abort();
  asking = new AbortController();
  try {
    await readStages(await post("motion", {drones}, asking.signal), stage => {
      if (stage.stage === "motion" && asked.startsWith(`${state.version} `)) set({motion: {...stage, asked}});
    }, () => false);
  } catch (error) {
    if (error.name !== "AbortError") console.error(error);
    return;
  }
  if (state.motion && state.motion.asked === asked) drawTimes();
}
function bindCharts() {
  byId("chart-kind").onchange = () => {
    set({chartKind: /** @type {any} */ (byId("chart-kind").value)});
    byId("heights").setAttribute("aria-label", `${byId("chart-kind").selectedOptions[0].text} over time`);
    askMotion();
    drawTimes();
  };
  byId("far-in").onchange = () => {
    set({farIn: /** @type {any} */ (byId("far-in").value)});
    drawTimes();
  };
}

// ---- lanes

// What a drone does in each cue, as [first cue, last cue, word]: neighbours that are drawn narrow are one.
function actsOf(rows, x) {
  const out = [];
  rows.forEach((line, k) => {
    if (!line) return;
    const last = out[out.length - 1], isNarrow = x(endOfCue(k)) - x(state.flight.cues[k][0]) < NARROW;
    if (isNarrow && last && last[1] === k - 1 && last[2] === "") last[1] = k;
    else out.push([k, k, isNarrow ? "" : wordOf(line)]);
  });
  return out;
}
const wordOf = line => {
  const [first, second = ""] = state.lines[line - 1].trim().split(/\s+/);
  return first === "at" ? "form" : second;
};
export function drawLanes() {
  if (byId("lanes").hidden || !state.flight) return;
  const svg = byId("lane-rows"), height = ROW * state.drones;
  const width = byId("heights").clientWidth, {left, right, x} = scaleOf(width);  // also where a bar scrolls the lanes
  const own = state.flightVersion === state.version ? state.found.lines : null;
  svg.replaceChildren();
  svg.setAttribute("viewBox", `0 0 ${width} ${height}`);
  [svg.style.width, svg.style.height] = [`${width}px`, `${height}px`];
  const plot = node("svg", {x: left, width: right - left, height, viewBox: `${left} 0 ${right - left} ${height}`});
  state.flight.names.forEach((name, k) => {
    text(svg, left - 6, ROW * k + 12, name, "end");
    line(plot, left, ROW * k + ROW / 2, right, ROW * k + ROW / 2, state.paint.rule);
    for (const act of own ? actsOf(own.acts[k], x) : []) drawAct(plot, k, act, x);
  });
  const cursor = node("line", {y1: 0, y2: height, stroke: state.paint.ink, "stroke-width": 1.3});
  plot.append(cursor);
  svg.append(plot);
  charts.push({set: () => { for (const end of ["x1", "x2"]) cursor.setAttribute(end, `${x(state.now)}`); }});
}
function drawAct(plot, k, [first, last, word], x) {
  const a = x(state.flight.cues[first][0]), b = x(endOfCue(last)), left = x(state.timeFrom), right = x(lastShown());
  if (b < left || a > right) return;
  const paint = {fill: colour(k), "fill-opacity": faint(k) ? 0.1 : 0.3, stroke: colour(k), rx: 2, class: "lane"};
  const block = node("rect", {x: a + 0.5, y: ROW * k + 2, width: Math.max(1, b - a - 1), height: ROW - 4, ...paint});
  block.append(node("title", {}, `${state.flight.names[k]} in cue ${first + 1}: ${word || "and more"}`));
  block.onclick = event => {
    stop();
    move(state.flight.cues[first][0] + 1);
    pickDrone(k, event.shiftKey || event.ctrlKey);
  };
  plot.append(block);
  const middle = (Math.max(left, a) + Math.min(right, b)) / 2, room = Math.min(right, b) - Math.max(left, a);
  if (room > LETTER * word.length + 6) {
    plot.append(node("text", {x: middle, y: ROW * k + 12, "text-anchor": "middle", class: "cue-name"}, word));
  }
}
export function showLanes(isOpen) {
  byId("lanes").hidden = !isOpen;
  byId("lanes-open").setAttribute("aria-pressed", `${isOpen}`);
  dispatchEvent(new Event("resize"));  // the view in space gets what is left
}

// ---- the cue at the playhead

function carryHere(by) {
  if (!state.flight || !state.flight.lines) return;
  const cue = cueAt(state.now), other = cue + by;
  if (other < 0 || other >= state.flight.cues.length) return;
  stop();
  carryCue(cue, other, by >= 0, by === 0);
}
function removeHere() {
  if (!state.flight || !state.flight.lines || isStill()) return;
  stop();
  removeCue(cueAt(state.now));
}
export function bindTimeline() {
  byId("time-nearer").onclick = () => nearer(STEP);
  byId("time-farther").onclick = () => nearer(1 / STEP);
  byId("time-all").onclick = () => nearer(0);
  byId("lanes-open").onclick = () => showLanes(byId("lanes").hidden);
  byId("cue-tools").hidden = given.watch;
  byId("cue-earlier").onclick = () => carryHere(-1);
  byId("cue-copy").onclick = () => carryHere(0);
  byId("cue-later").onclick = () => carryHere(1);
  byId("cue-remove").onclick = removeHere;
  byId("time-scroll").addEventListener("scroll", onScroll);
  bindCharts();
  for (const id of ["heights", "share", "lane-rows"]) {
    byId(id).addEventListener("wheel", onWheel, {passive: false});
    bindFingers(byId(id));
  }
}
