// The charts over time: heights, and the nearest pair. A page has elements with the ids heights and share.

import {beatNear} from "./beats.js";
import {colour, dashes, faint} from "./colours.js";
import {box, byId, line, node, text} from "./elements.js";
import {endOfCue, farAt, gapAt, metres, sampleAt, time} from "./flight.js";
import {shareAt} from "./nearest.js";
import {move} from "./player.js";
import {state} from "./state.js";
import {drawStrip} from "./strip.js";
import {lastShown, scaleOf, spanOf} from "./timespan.js";

function ticks(low, high, most) {
  let step = 1;
  for (let k = 0; (high - low) / step > most; k += 1) step *= [2, 2.5, 2][k % 3];
  const out = [];
  for (let v = Math.ceil(low / step) * step; v <= high; v += step) out.push(v);
  return out;
}
function timeTicks(most) {
  const steps = [10, 20, 50, 100, 200, 500, 1000, 2000, 5000, 10000, 15000, 30000, 60000, 120000, 300000, 600000,
    1800000, 3600000];
  const step = steps.find(it => spanOf() / it <= most) || 7200000, out = [];
  for (let v = Math.ceil(state.timeFrom / step) * step; v <= lastShown(); v += step) out.push(v);
  return out;
}

function chart(svg, low, high, marks, words, height) {
  const width = svg.clientWidth, [above, below] = state.chartEdges[svg.id] || [24, 34], floor = height - below;
  const scale = scaleOf(width), {left, right, x, ms} = scale, y = v => floor - (floor - above) * (v - low) / (high - low);
  svg.replaceChildren();
  svg.setAttribute("viewBox", `0 0 ${width} ${height}`);
  svg.style.height = `${height}px`;
  // What is drawn in the plot ends at its edges.
  const plot = node("svg", {x: left, width: right - left, height, viewBox: `${left} 0 ${right - left} ${height}`});
  svg.append(plot);
  for (const mark of [...state.flight.marks, state.broken].filter(Boolean)) {
    box(plot, [x(mark.from), above, Math.max(x(mark.from) + 3, x(mark.to)), floor], {fill: state.paint.mark});
  }
  drawCues(plot, scale, above, floor);
  drawBeats(plot, scale, above, floor);
  for (const [v, label] of marks) {
    line(plot, left, y(v), right, y(v), state.paint.grid);
    text(svg, left - 6, y(v) + 4, label, "end");
  }
  drawAxes(svg, scale, [above, below], words, height);
  if (state.flight.marks.length) {
    const px = x(state.flight.marks[0].nearest);
    line(plot, px, above - 3, px, floor, state.paint.touch, {"stroke-width": 1.5, "stroke-dasharray": "5 3"});
  }
  const cursor = node("line", {y1: above, y2: floor, stroke: state.paint.ink, "stroke-width": 1.3});
  bindChart(svg, scale);
  const strip = above > 20 && state.cueNames ? drawStrip(svg, scale, above, floor) : () => {};
  if (state.onStretch && above > 20) drawGrips(svg, scale, above, floor);
  const place = () => {
    for (const end of ["x1", "x2"]) cursor.setAttribute(end, `${x(Math.min(state.flight.end, state.now))}`);
    strip();
  };
  return {x, y, ms, cursor, plot, left, right, set: place};
}
// The frame, the axis of time, and what is drawn.
function drawAxes(svg, {left, right, x}, [above, below], words, height) {
  const floor = height - below;
  for (const ms of timeTicks((right - left) / 56)) {
    line(svg, x(ms), floor, x(ms), floor + Math.min(5, below), state.paint.label);
    if (below > 20) text(svg, x(ms), floor + 17, time(ms), "middle");
  }
  box(svg, [left, above, right, floor], {fill: "none", stroke: state.paint.axis});
  if (above > 20) text(svg, 2, 12, "cue", "start");
  if (below > 20) text(svg, right, height - 3, `time in ${state.unit}`, "end");
  if (below > 20) text(svg, 2, height - 3, words, "start");
  else text(svg, left + 5, floor - 5, words, "start", {class: "name"});
}
// Every cue, or every second, fifth, tenth .. where they are many; and their numbers, where no strip has them.
function drawCues(plot, {x, left, right}, above, floor) {
  const each = (x(state.flight.end) - x(0)) / state.flight.cues.length;
  const stride = room => [1, 2, 5, 10, 20, 50, 100].find(it => it * each >= room) || 200;
  const lines = stride(5), labels = stride(8 * String(state.flight.cues.length).length + 4);
  let free = -Infinity;
  state.flight.cues.forEach(([from], k) => {
    const middle = (x(from) + x(endOfCue(k))) / 2, half = 4 * String(k + 1).length + 2;
    if (x(from) > right || x(endOfCue(k)) < left) return;
    if (k % lines === 0) line(plot, x(from), above, x(from), floor, state.paint.grid);
    if (above > 20 && !state.cueNames && (k + 1) % labels === 0 && middle - half >= free) {
      text(plot, middle, above - 8, k + 1, "middle");
      free = middle + half;
    }
  });
}
// Beats as far as there is room for each.
function drawBeats(plot, {x, perPixel}, above, floor) {
  const beats = state.beats.filter(ms => state.timeFrom <= ms && ms <= lastShown());
  if (beats.length * 4 * perPixel > spanOf()) return;
  const look = {"stroke-opacity": 0.4, class: "beat"};
  for (const ms of beats) line(plot, x(ms), above > 20 ? above - 5 : above, x(ms), floor, state.paint.grip, look);
}
const NEAR_BEAT = 8;  // pixels from a beat at which the end of a cue that is dragged goes to it
const NEAR_END = 4;  // pixels from the end of a cue at which a click is one on it
function bindChart(svg, scale) {
  const go = event => {
    const ms = scale.ms(event.clientX - svg.getBoundingClientRect().left), near = NEAR_END * scale.perPixel;
    move(state.flight.cues.map((_, k) => endOfCue(k)).find(it => Math.abs(it - ms) < near) ?? ms);
  };
  svg.onpointerdown = go;
  svg.onpointermove = event => { if (event.buttons) go(event); };
  svg.onclick = () => { if (state.onPick) state.onPick(state.now); };
}
// Pixels at either side of the end of a cue, more for a finger; cues that are narrower than both together have no grip.
const GRIP = matchMedia("(pointer: coarse)").matches ? 11 : 5;
// Grips above a chart, by which the end of a cue is dragged.
function drawGrips(svg, scale, above, floor) {
  const {x, left, right} = scale;
  state.flight.cues.forEach(([from], k) => {
    const end = x(endOfCue(k));
    if (end - x(from) < 2 * GRIP || end < left || end > right + GRIP) return;
    const grip = node("rect", {x: end - GRIP, width: 2 * GRIP, y: 0, height: above, fill: "#0000", class: "grip"});
    grip.append(node("title", {}, `drag: cue ${k + 1} longer or shorter`));
    line(svg, end, above - 7, end, above, state.paint.soft, {"stroke-width": 1.5});
    bindGrip(svg, grip, k, scale, above, floor);
    svg.append(grip);
  });
}
function bindGrip(svg, grip, k, {x, perPixel, left, right}, above, floor) {
  const from = state.flight.cues[k][0], length = endOfCue(k) - from;
  const snap = [1, 5, 10, 20, 50, 100, 200, 500, 1000].find(it => it >= perPixel) || 1000;
  const dashed = {"stroke-width": 1.5, "stroke-dasharray": "4 3"};
  const shown = node("line", {y1: 0, y2: floor, stroke: state.paint.grip, ...dashed});
  const label = node("text", {y: above + 14, class: "name"});
  let at = null, begun = 0;
  grip.onpointerdown = event => {
    event.stopPropagation();
    grip.setPointerCapture(event.pointerId);
    [at, begun] = [length, event.clientX];
    svg.append(shown, label);
    drag(event);
  };
  const drag = event => {
    const wanted = length + (event.clientX - begun) * perPixel;
    const beat = beatNear(state.beats, from + wanted, NEAR_BEAT * perPixel), isBeat = beat !== null && beat > from;
    const near = isBeat ? beat - from : Math.max(snap, Math.round(wanted / snap) * snap);
    at = event.clientX === begun ? length : Math.min(65535, near);
    const px = x(from + at), isRight = px > (left + right) / 2;
    for (const end of ["x1", "x2"]) shown.setAttribute(end, px);
    label.setAttribute("x", px + (isRight ? -6 : 6));
    label.setAttribute("text-anchor", isRight ? "end" : "start");
    label.textContent = `cue ${k + 1}: ${(at / 1000).toFixed(2)} s${isBeat ? ", on a beat" : ""}`;
  };
  grip.onpointermove = event => { event.stopPropagation(); if (at !== null) drag(event); };
  grip.onpointerup = grip.onpointercancel = event => {
    event.stopPropagation();
    const wanted = at;
    at = null;
    shown.remove();
    label.remove();
    if (wanted !== null && wanted !== length && event.type === "pointerup") state.onStretch(k, wanted);
  };
  grip.onclick = event => event.stopPropagation();
}
export const charts = [];
const tenth = v => Math.round(10 * v) / 10;
// The instants that a chart shows, from one before its left edge to one after its right one.
const shownOf = times => [Math.max(0, sampleAt(state.timeFrom, {times}) - 1),
  Math.min(times.length - 1, sampleAt(lastShown(), {times}) + 1)];
// The points of a line in a chart by the height at each instant, without those inside a level part.
function graph(times, x, height) {
  const out = [], [first, last] = shownOf(times);
  let before = NaN, here = tenth(height(first));
  for (let s = first; s <= last; s += 1) {
    const next = s < last ? tenth(height(s + 1)) : NaN;
    if (here !== before || here !== next) out.push(`${tenth(x(times[s]))},${here}`);
    [before, here] = [here, next];
  }
  return out;
}
const chartTicks = (low, high) => ticks(low, high, Math.round(state.chartHeight / 42));
const inMetres = (low, high) => chartTicks(low, high).map(v => [v, metres(v)]);
function drawCurve(it, k, points) {
  it.plot.append(node("polyline", {points: points.join(" "), fill: "none", stroke: colour(k), "stroke-width": 1.8,
                                   "stroke-dasharray": dashes(k), opacity: faint(k) ? 0.1 : 0.9}));
}
const AXES = {x: 0, y: 1, z: 2};
// The upper chart: where drones are on an axis, or how they move.
export function drawHeights() {
  const it = state.chartKind in AXES ? drawPlaces(AXES[state.chartKind]) : drawMotion(state.chartKind);
  it.plot.append(it.cursor);
  charts.push(it);
}
function drawPlaces(axis) {
  const {flight, lowest, highest, chosen} = state, {times} = flight, isUp = axis === 2;
  const size = isUp ? flight.h : flight.r;
  const beyond = (chosen.size ? size : 0) + 200, low = isUp ? Math.min(0, lowest[2]) : lowest[axis] - beyond;
  const high = highest[axis] + beyond;
  const it = chart(byId("heights"), low, high, inMetres(low, high), `${"xyz"[axis]} in m`, state.chartHeight);
  for (const [kind, ...limits] of flight.regions) {
    for (const limit of kind === "volume" ? [limits[axis], limits[axis + 3]] : []) {
      if (low < limit && limit < high) drawLimit(it, limit, state.paint.volume);
    }
  }
  flight.names.forEach((_, k) => {
    const xyz = flight.xyz[k];
    if (chosen.has(k)) {
      const edge = by => graph(times, it.x, s => it.y(Math.max(low, Math.min(high, xyz[3 * s + axis] + by))));
      const upper = edge(size), lower = edge(-size).reverse();
      it.plot.append(node("polygon", {points: [...upper, ...lower].join(" "), fill: colour(k), "fill-opacity": 0.12}));
    }
    drawCurve(it, k, graph(times, it.x, s => it.y(xyz[3 * s + axis])));
  });
  return it;
}
function drawLimit(it, v, stroke) {
  const look = {"stroke-width": 1.5, "stroke-dasharray": "6 4", class: "limit"};
  line(it.plot, it.left, it.y(v), it.right, it.y(v), stroke, look);
}
function drawMotion(kind) {
  const {motion} = state, rows = Object.entries(motion ? motion[kind] : {}), isForce = kind === "force";
  let most = 100;
  for (const [, row] of rows) for (const v of row) most = Math.max(most, v);
  const limit = isForce && motion ? motion.limit : Infinity, high = 1.15 * Math.max(most, limit < 2 * most ? limit : 0);
  const name = isForce ? "acceleration on an axis, m/s²" : "speed on an axis, m/s";
  const asked = isForce ? `; a drone flies at most ${metres(limit)}` : "";
  const words = !motion ? `${name}: working it out` : name + asked;
  const it = chart(byId("heights"), 0, high, inMetres(0, high), words, state.chartHeight);
  if (limit < high) drawLimit(it, limit, state.paint.touch);
  for (const [k, row] of rows) drawCurve(it, Number(k), graph(motion.times, it.x, s => it.y(row[s])));
  return it;
}

// ---- how near

// By sample how near two are, as [share, first, second]: the chosen two, or else those that are nearest then.
function nearRows() {
  if (state.chosen.size !== 2) return state.flight.nearest;
  const [i, j] = [...state.chosen].sort((a, b) => a - b);
  return state.flight.times.map((_, s) => [shareAt(state.flight, i, j, s), i, j]);
}
export function drawShares() {
  const rows = nearRows(), isFar = state.farIn === "m", {times} = state.flight;
  const far = rows.map(([v, i, j], s) => isFar ? Math.hypot(...gapAt(i, j, s)) : v);
  const touch = s => isFar ? far[s] / Math.max(1, rows[s][0]) * 100 : 100;
  let low = Infinity, most = 0;
  for (const v of far) { low = Math.min(low, v); most = Math.max(most, v); }
  const much = state.chartHeight < 200 ? 260 : 400;
  const high = isFar ? Math.max(500, Math.min(1.05 * most, Math.max(2000, 2 * low))) :
    Math.max(150, Math.min(most + 20, Math.max(much, 1.5 * low)));
  const marks = isFar ? inMetres(0, high) : chartTicks(0, high).map(v => [v, `${v} %`]);
  const it = chart(byId("share"), 0, high, marks, wordsOfShares(), state.chartHeight);
  const limit = graph(times, it.x, s => it.y(Math.min(high, touch(s))));
  const below = `${it.right},${it.y(0)} ${it.left},${it.y(0)}`;
  const edges = isFar ? limit : [`${it.left},${it.y(100)}`, `${it.right},${it.y(100)}`], red = state.paint.touch;
  it.plot.append(node("polygon", {points: `${edges.join(" ")} ${below}`, fill: red, "fill-opacity": 0.07}));
  const look = {fill: "none", stroke: red, "stroke-width": 1.5, class: "limit"};
  it.plot.append(node("polyline", {points: edges.join(" "), ...look}));
  const points = graph(times, it.x, s => it.y(Math.min(high, far[s]))).join(" ");
  it.plot.append(node("polyline", {points, fill: "none", stroke: state.paint.ink, "stroke-width": 1.8, class: "near"}));
  nameDips(byId("share"), it, rows, far, high);
  const clipped = `what is above ${isFar ? `${metres(Math.round(high))} m` : `${high.toFixed(0)} %`} is drawn there`;
  if (most > high && state.chartHeight > 200) text(byId("share"), it.left + 4, it.y(high) + 14, clipped, "start");
  it.plot.append(it.cursor);
  charts.push(it);
}
function wordsOfShares() {
  if (state.farIn === "%" && state.chosen.size !== 2) return state.shareWords;
  const [i, j] = [...state.chosen].sort((a, b) => a - b), {names} = state.flight;
  const two = state.chosen.size === 2 ? `${names[i]} and ${names[j]}` : "nearest two";
  return `${two}, ${state.farIn === "m" ? "metres; red: there they touch" : "% of touching distance"}`;
}

// Whether the pair stays below a share from one sample to another.
const isLevel = (rows, from, to, share) =>
  rows.slice(Math.min(from, to), Math.max(from, to) + 1).every(([it]) => it < share);
const BESIDE = 16, FAR = 36;  // pixels from a low dip to its words beside it, and at most to those above it
const NARROW = 0.43;  // of the width that words may take: half of what they take in most letters
/**
 * Where the words of a dip stand, as [middle, foot]: below it, or of one that is so low that its own line would go
 * through them beside it or above the line; and where that goes through none, as far as there is such a place. Null
 * where others are.
 * @returns {number[] | null}
 */
function placeOfWords(it, far, high, s, wide, edge, taken) {
  const px = it.x(state.flight.times[s]), at = it.y(far[s]), by = BESIDE + wide / 2;
  const inside = m => Math.max(it.left + wide / 2 + 2, Math.min(it.right - wide / 2 - 2, m));
  const curve = m => {  // the heights of the line above or below words there
    const [first, last] = [m - NARROW * wide, m + NARROW * wide].map(x => sampleAt(it.ms(x)));
    return far.slice(first, last + 1).map(v => it.y(Math.min(high, v)));
  };
  const middle = inside(px), beside = [px + by, px - by].filter(m => m === inside(m));
  const isLow = at + 20 > it.y(0), above = [Math.min(...curve(middle)) - 6, at - 10].filter(foot => at - foot < FAR);
  const places = isLow ? [...beside.map(m => [m, at - 4]), ...above.map(foot => [middle, foot])] : [[middle, at + 17]];
  const isFree = ([m]) => !taken.some(([n, w]) => Math.abs(n - m) < (w + wide) / 2 + 6);
  const offEdge = ([m, foot]) => Math.abs(foot - 4 - edge) >= 10 ? [m, foot] :
    [m, edge + (foot - 4 < edge && foot - 10 > it.y(high) ? -8 : 18)];
  const isClear = ([m, foot]) => {
    const heights = curve(m);
    return foot - 10 > it.y(high) && (Math.max(...heights) < foot - 11 || Math.min(...heights) > foot + 3);
  };
  const free = places.filter(isFree).map(offEdge);
  return free.find(isClear) || free[0] || null;
}
// Names at the lowest dips, with the distance in metres, as far as they have room.
function nameDips(svg, it, rows, far, high) {
  const dips = [], [first, last] = shownOf(state.flight.times);
  for (let s = first; s <= last; s += 1) {
    const v = rows[s][0], falls = s === 0 || v < rows[s - 1][0];
    if (far[s] < high && falls && (s === state.last || v <= rows[s + 1][0])) dips.push(s);
  }
  dips.sort((a, b) => rows[a][0] - rows[b][0]);
  const taken = [], named = [];
  for (const s of dips.slice(0, 400)) {
    if (taken.length === 6) break;
    const [v, i, j] = rows[s], at = it.y(far[s]);
    const edge = it.y(state.farIn === "%" ? 100 : far[s] / Math.max(1, v) * 100);
    if (named.some(other => isLevel(rows, other, s, v + 2))) continue;  // no dip of its own, but for rounding
    const words = `${state.flight.names[i]}, ${state.flight.names[j]} ${v.toFixed(0)} % · ${metres(farAt(i, j, s))} m`;
    const px = it.x(state.flight.times[s]), wide = 7.2 * words.length;
    if (px < it.left - 1 || px > it.right + 1) continue;
    const place = placeOfWords(it, far, high, s, wide, edge, taken);
    if (!place) continue;
    taken.push([place[0], wide]);
    named.push(s);
    svg.append(node("circle", {cx: px, cy: at, r: 3, fill: v <= 100 ? state.paint.touch : state.paint.ink}));
    text(svg, place[0], place[1], words, "middle", {class: "name"});
  }
}
