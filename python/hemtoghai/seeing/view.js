// The view in space, on a canvas. A page has elements with the ids space and views.

import {colour, dashes, faint} from "./colours.js";
import {byId} from "./elements.js";
import {metres, placeAt, touching} from "./flight.js";
import {set, state} from "./state.js";

export const VIEWS = {"from above": [0, 90], "from the front": [0, 0], "from the right": [90, 0], "in space": [28, 28]};
const corners = (low, high) => [0, 1, 2, 3, 4, 5, 6, 7].map(
  k => [0, 1, 2].map(axis => (k >> axis & 1 ? high : low)[axis]));
const EDGES = [[0, 1], [2, 3], [4, 5], [6, 7], [0, 2], [1, 3], [4, 6], [5, 7], [0, 4], [1, 5], [2, 6], [3, 7]];
function look() {
  const canvas = byId("space"), width = canvas.clientWidth, sharp = devicePixelRatio || 1;
  const a = state.turn * Math.PI / 180, e = state.tilt * Math.PI / 180;
  const [ca, sa, ce, se] = [Math.cos(a), Math.sin(a), Math.cos(e), Math.sin(e)];
  const centre = state.room.low.map((v, k) => (v + state.room.high[k]) / 2);
  const flat = ([x, y, z]) => {
    const [dx, dy, dz] = [x - centre[0], y - centre[1], z - centre[2]], far = ca * dy - sa * dx;
    return [ca * dx + sa * dy, far * se + dz * ce, far * ce - dz * se];
  };
  const all = corners(state.room.low, state.room.high).map(flat);
  const span = k => 2 * Math.max(...all.map(it => Math.abs(it[k])));
  const gap = state.spaceHeight ? 26 : 34, wanted = (width - 2 * gap) * span(1) / span(0) + 2 * gap;
  const own = state.spaceHeight ? state.spaceHeight(width) : Math.max(280, Math.min(560, 0.95 * width, wanted));
  const height = Math.round(own);
  if (width < 1 || height < 1) return false;  // it isn't shown
  // Where there is hardly any room something small is drawn.
  const scale = state.zoom * Math.max(0.001, Math.min((width - 2 * gap) / span(0), (height - 2 * gap) / span(1)));
  if (canvas.width !== Math.round(width * sharp) || canvas.height !== Math.round(height * sharp)) {
    canvas.width = Math.round(width * sharp);
    canvas.height = Math.round(height * sharp);
    canvas.style.height = `${height}px`;
  }
  const pen = canvas.getContext("2d");
  pen.setTransform(sharp, 0, 0, sharp, 0, 0);
  const to = point => {
    const [x, y, far] = flat(point);
    return [width / 2 + state.aside[0] + scale * x, height / 2 + state.aside[1] - scale * y, far];
  };
  // The same for many points: where the origin is drawn, and by how much a millimetre on x, y and z moves a point.
  const [origin, ...axes] = [[0, 0, 0], [1, 0, 0], [0, 1, 0], [0, 0, 1]].map(to);
  const steps = [0, 1].map(side => axes.map(point => point[side] - origin[side]));
  set({view: {pen, to, scale, width, height, se, ce, origin, steps, still: null}});
  return true;
}
function way(pen, points) {
  pen.beginPath();
  points.forEach(([x, y], k) => k ? pen.lineTo(x, y) : pen.moveTo(x, y));
}
function words(pen, x, y, it, style, align) {
  pen.textAlign = align || "center";
  pen.lineWidth = 3.5;
  pen.lineJoin = "round";
  pen.strokeStyle = state.paint.paper;
  pen.strokeText(it, x, y);
  pen.fillStyle = style;
  pen.fillText(it, x, y);
}
const FONT = '13px system-ui, "DejaVu Sans", sans-serif', SMALL = '12px system-ui, "DejaVu Sans", sans-serif';
// The numbers of an axis at which the floor has lines.
function marksOf(axis, step) {
  const out = [];
  for (let v = Math.ceil(state.room.low[axis] / step) * step; v <= state.room.high[axis]; v += step) out.push(v);
  return out;
}
function drawFloor() {
  const {pen, to} = state.view, {low, high} = state.room, wide = Math.max(high[0] - low[0], high[1] - low[1]);
  const step = [100, 200, 500, 1000, 2000, 5000, 10000].find(it => wide / it <= 9) || 10000;
  pen.lineWidth = 1;
  pen.strokeStyle = state.paint.grid;
  const across = marksOf(0, step).map(x => [[x, low[1], state.floor], [x, high[1], state.floor]]);
  const along = marksOf(1, step).map(y => [[low[0], y, state.floor], [high[0], y, state.floor]]);
  for (const ends of [...across, ...along]) {
    way(pen, ends.map(to));
    pen.stroke();
  }
  pen.font = SMALL;
  pen.textBaseline = "middle";
  numberFloor(step);
  if (state.tilt < 60) drawHeightAxis(step);
  const name = state.tilt > 80 ? "x to the right, y up, metres" :
    state.tilt >= 3 ? "metres" : Math.abs(state.turn % 180) < 3 ? "x and height, metres" :
    Math.abs(Math.abs(state.turn % 180) - 90) < 3 ? "y and height, metres" : "metres";
  words(pen, 6, 12, name, state.paint.label, "left");
}
const LEAST_GAP = 26, LEAST_HIGH = 17;  // pixels from one number to the next, along the floor and up
// How many steps there are from one number to the next, so that none covers another.
function stepsBetween(far, least) {
  return [1, 2, 5].find(many => many * far >= least) || 10;
}
// Numbers stand at those edges that are nearer to the eye.
function numberFloor(step) {
  const {pen, to} = state.view, [low, high] = [state.room.low, state.room.high];
  const nearer = (axis, point) =>
    [low, high].map(side => side[axis]).sort((a, b) => to(point(a))[2] - to(point(b))[2])[0];
  const flatX = Math.abs(Math.cos(state.turn * Math.PI / 180)) > 0.05;
  const flatY = Math.abs(Math.sin(state.turn * Math.PI / 180)) > 0.05 || state.tilt > 3;
  const yEdge = nearer(1, y => [0, y, state.floor]), xEdge = nearer(0, x => [x, 0, state.floor]);
  const out = (px, py) => [px + Math.sign(px - state.view.width / 2) * 16, py + 12];
  const roomy = (axis, point) => {
    const [a, b] = [to(point(0)), to(point(step))];
    return marksOf(axis, step * stepsBetween(Math.hypot(a[0] - b[0], a[1] - b[1]), LEAST_GAP));
  };
  if (flatX) for (const x of roomy(0, x => [x, yEdge, state.floor])) {
    words(pen, ...add(to([x, yEdge, state.floor]), [0, 13]), metres(x), state.paint.label);
  }
  if (flatY) for (const y of roomy(1, y => [xEdge, y, state.floor])) {
    const point = to([state.tilt > 80 ? low[0] : xEdge, y, state.floor]);
    words(pen, ...(state.tilt > 80 ? add(point, [-14, 0]) : out(point[0], point[1])), metres(y), state.paint.label);
  }
}
function drawHeightAxis(step) {
  const {pen, to} = state.view, [low, high] = [state.room.low, state.room.high];
  const edges = [low[0], high[0]].flatMap(x => [low[1], high[1]].map(y => [x, y]));
  const [x, y] = edges.sort((a, b) => to([...a, 0])[0] - to([...b, 0])[0])[0];
  way(pen, [to([x, y, state.floor]), to([x, y, high[2]])]);
  pen.lineWidth = 1;
  pen.strokeStyle = state.paint.rule;
  pen.stroke();
  const each = step * stepsBetween(Math.abs(to([x, y, step])[1] - to([x, y, 0])[1]), LEAST_HIGH);
  for (let v = Math.ceil(state.floor / each) * each; v <= high[2]; v += each) {
    words(pen, ...add(to([x, y, v]), [-14, 0]), metres(v), state.paint.label);
  }
}
const add = (/** @type {number[]} */ [x, y], /** @type {number[]} */ [dx, dy]) => [x + dx, y + dy];
function drawRegions() {
  const {pen, to} = state.view;
  for (const [k, {kind, box}] of state.room.regions.entries()) {
    const points = corners(box.slice(0, 3), box.slice(3)).map(to), inside = kind === "volume";
    const isBroken = state.broken !== null && state.broken.region === k;
    pen.strokeStyle = isBroken ? state.paint.touch : inside ? state.paint.volume : state.paint.keepout;
    pen.lineWidth = isBroken ? 2.2 : 1.4;
    pen.setLineDash(inside ? [6, 4] : []);
    for (const [i, j] of EDGES) { way(pen, [points[i], points[j]]); pen.stroke(); }
    pen.setLineDash([]);
    pen.fillStyle = isBroken ? `${state.paint.touch}18` : state.paint.inside;
    const sides = [[0, 1, 3, 2], [4, 5, 7, 6], [0, 1, 5, 4], [2, 3, 7, 6], [0, 2, 6, 4], [1, 3, 7, 5]];
    if (!inside) for (const side of sides) { way(pen, side.map(k => points[k])); pen.closePath(); pen.fill(); }
  }
}
// The points of a drone's path on the canvas, without those that are hardly apart.
function pathOf(k) {
  const {origin: [left, above], steps: [[ax, bx, cx], [ay, by, cy]]} = state.view;
  const xyz = state.flight.xyz[k], points = [];
  const stride = state.isRough ? Math.ceil(state.last / 120) || 1 : 1;
  for (let s = 0; s <= state.last; s = s === state.last ? s + 1 : Math.min(state.last, s + stride)) {
    const x = xyz[3 * s], y = xyz[3 * s + 1], z = xyz[3 * s + 2], before = points[points.length - 1];
    const px = left + ax * x + bx * y + cx * z, py = above + ay * x + by * y + cy * z;
    if (!before || Math.abs(px - before[0]) + Math.abs(py - before[1]) > 0.7 || s === state.last) points.push([px, py]);
  }
  return points;
}
function drawPaths() {
  const {pen} = state.view;
  state.flight.names.forEach((_, k) => {
    const points = pathOf(k), [x, y] = points[0];
    pen.globalAlpha = faint(k) ? 0.08 : 0.55;
    pen.strokeStyle = colour(k);
    pen.lineWidth = 1.6;
    pen.setLineDash(dashes(k) && !state.isRough ? dashes(k).split(" ").map(Number) : []);
    way(pen, points);
    pen.stroke();
    pen.setLineDash([]);
    pen.globalAlpha = faint(k) ? 0.2 : 1;
    pen.fillStyle = state.paint.paper;
    pen.fillRect(x - 3, y - 3, 6, 6);
    pen.strokeRect(x - 3, y - 3, 6, 6);
  });
  pen.globalAlpha = 1;
}
// The part of a path in which a drone may not keep to a region.
function drawBroken() {
  if (state.broken === null) return;
  const {pen, to} = state.view, {from, to: till, drone} = state.broken;
  const inside = state.flight.times.filter(ms => from < ms && ms < till);
  way(pen, [from, ...inside, till].map(ms => to(placeAt(drone, ms))));
  pen.strokeStyle = state.paint.touch;
  pen.lineWidth = 5;
  pen.stroke();
}
// Puts names where they cover as little as can be; one that has no room is left out, unless it is wanted.
const SIDES = [[1, -1], [1, 1], [-1, -1], [-1, 1], [0, -1.4], [0, 1.4], [1.4, 0], [-1.4, 0]];
function placeNames(spots, edge, ring, wanted) {
  const taken = spots.map(([px, py]) => [px - 5, py - 5, px + 5, py + 5]);
  const common = (a, b, k) => Math.max(0, Math.min(a[k + 2], b[k + 2]) - Math.max(a[k], b[k]));
  const over = (a, b) => common(a, b, 0) * common(a, b, 1);
  return spots.map(([px, py, words], k) => {
    const wide = 7.6 * words.length + 4, high = 14;
    let best = null;
    for (const far of [9, 18, 30, 44].map(it => it + ring)) for (const [dx, dy] of SIDES) {
      const cx = px + dx * far * 0.7 + Math.sign(dx) * wide / 2, cy = py + dy * far * 0.7;
      const box = [cx - wide / 2, cy - high / 2, cx + wide / 2, cy + high / 2];
      let cost = far * 1.5, covered = 0;
      for (const other of taken) covered += over(box, other);
      const out = [edge[0] - box[0], box[2] - edge[2], edge[1] - box[1], box[3] - edge[3]].filter(it => it > 0);
      cost += 3 * covered + 2000 * out.length;
      if (best === null || cost < best.cost) best = {cost, box, cx, cy, far, room: covered < 40};
    }
    if (best.room || wanted.has(k)) taken.push(best.box);
    return best;
  });
}
function drawStill() {
  const {pen, width, height} = state.view, canvas = byId("space");
  pen.fillStyle = state.paint.paper;
  pen.fillRect(0, 0, width, height);
  drawFloor();
  drawRegions();
  drawPaths();
  drawPreviewPaths();
  drawBroken();
  state.view.still = document.createElement("canvas");
  [state.view.still.width, state.view.still.height] = [canvas.width, canvas.height];
  state.view.still.getContext("2d").drawImage(canvas, 0, 0);
}
function ring(/** @type {number[]} */ [x, y], beside, up, stroke, fill) {
  const {pen, scale, se, ce} = state.view;
  pen.beginPath();
  pen.ellipse(x, y, beside * scale, Math.hypot(beside * se, up * ce) * scale, 0, 0, 2 * Math.PI);
  if (fill) { pen.fillStyle = fill; pen.fill(); }
  pen.strokeStyle = stroke;
  pen.stroke();
}
export function moveDrones() {
  if (state.view === null) return;
  const {pen, to, still} = state.view;
  pen.save();
  pen.setTransform(1, 0, 0, 1, 0, 0);
  pen.drawImage(still, 0, 0);
  pen.restore();
  const places = state.flight.names.map((_, k) => placeAt(k, state.now)), close = touching(places);
  const order = places.map((place, k) => ({k, point: to(place)})).sort((a, b) => b.point[2] - a.point[2]);
  for (const {k, point} of order) drawDrone(k, point, places[k], close.has(k));
  nameDrones(places, close);
  pen.globalAlpha = 1;
  for (const [k, by] of state.ghosts) drawGhost(places[k].slice(0, 3), by);
  drawPreview();
  drawBand();
  if (state.caption) words(pen, 10, state.view.height - 12, state.caption(), state.paint.ink, "left");
}
// What another text would fly: the ways of its drones that fly otherwise, and where they would be. A ghost has one
// colour, since drones have green ones, and green is a proof.
function drawPreviewPaths() {
  if (state.preview === null) return;
  const {pen, to} = state.view, {flight, changed} = state.preview, {xyz, times} = flight;
  pen.strokeStyle = state.paint.grip;
  pen.lineWidth = 1.4;
  pen.setLineDash([2, 4]);
  for (const k of changed) {
    way(pen, times.map((_, s) => to(xyz[k].slice(3 * s, 3 * s + 3))));
    pen.stroke();
  }
  pen.setLineDash([]);
}
function drawPreview() {
  if (state.preview === null) return;
  const {pen, to} = state.view, {flight, changed, from, at} = state.preview;
  pen.font = FONT;
  for (const k of changed) {
    const point = to(placeAt(k, state.now === from ? at : state.now, flight));
    pen.lineWidth = 1.6;
    pen.setLineDash([4, 3]);
    ring(point, flight.r, flight.h, state.paint.grip, `${state.paint.grip}22`);
    pen.setLineDash([]);
    words(pen, point[0], point[1] - 14, flight.names[k], state.paint.grip);
  }
}
function drawBand() {
  if (state.band === null) return;
  const {pen} = state.view, [left, above, right, below] = state.band;
  pen.lineWidth = 1;
  pen.setLineDash([4, 3]);
  pen.strokeStyle = state.paint.grip;
  pen.strokeRect(left, above, right - left, below - above);
  pen.setLineDash([]);
}
// Where a drone is dragged to: its ellipsoid there, the way, and the place in metres.
function drawGhost(place, by) {
  const {pen, to} = state.view, there = place.map((v, axis) => v + by[axis]), point = to(there);
  pen.strokeStyle = state.paint.grip;
  pen.lineWidth = 1;
  pen.setLineDash([4, 3]);
  way(pen, [to(place), point]);
  pen.stroke();
  pen.lineWidth = 2;
  ring(point, state.flight.r, state.flight.h, state.paint.grip, `${state.paint.grip}40`);
  pen.setLineDash([]);
  words(pen, point[0], point[1] - 14, there.map(v => metres(Math.round(v))).join(", "), state.paint.grip);
}
// A drone with the line down to the floor, its ellipsoid, the ring of its stray, and where it looks.
function drawDrone(k, point, /** @type {number[]} */ [px, py, pz, yaw], touches) {
  const {pen, to, scale} = state.view, [x, y] = point, shown = faint(k) ? 0.2 : 1;
  const stroke = touches ? state.paint.touch : colour(k);
  pen.globalAlpha = faint(k) ? 0.2 : 1;
  pen.lineWidth = 0.8;
  pen.strokeStyle = colour(k);
  if (state.tilt < 75) {
    pen.globalAlpha = 0.4 * shown;
    way(pen, [point, to([px, py, state.floor])]);
    pen.stroke();
    pen.globalAlpha = shown;
  }
  pen.lineWidth = touches ? 2.5 : 1.2;
  const fill = touches ? `${state.paint.touch}50` : `color-mix(in srgb, ${colour(k)} 13%, transparent)`;
  ring(point, state.flight.r, state.flight.h, stroke, fill);
  if (state.flight.stray) {
    pen.setLineDash([3, 3]);
    pen.lineWidth = 1;
    ring(point, state.beside, state.up, stroke);
    pen.setLineDash([]);
  }
  const reach = Math.max(state.flight.r, 9 / scale), angle = yaw * Math.PI / 180;
  pen.lineWidth = 2;
  way(pen, [[x, y], to([px + reach * Math.cos(angle), py + reach * Math.sin(angle), pz])]);
  pen.strokeStyle = stroke;
  pen.stroke();
  pen.beginPath();
  pen.arc(x, y, 3.5, 0, 2 * Math.PI);
  pen.fillStyle = colour(k);
  pen.fill();
}
// A ring that is small is left free; a large one has its name inside.
function nameDrones(places, close) {
  const {pen, to, scale, width, height} = state.view, small = state.flight.r * scale < 30 ? state.flight.r * scale : 0;
  const spots = state.flight.names.map((name, k) => [...to(places[k]).slice(0, 2), name]);
  pen.font = FONT;
  pen.textBaseline = "middle";
  const wanted = new Set([...state.chosen, ...close]);
  placeNames(spots, [2, 20, width - 2, height - 2], small, wanted).forEach((best, k) => {
    const [px, py, name] = spots[k];
    if (!best.room && !wanted.has(k)) return;
    pen.globalAlpha = faint(k) ? 0.25 : 1;
    if (best.far > small + 20) {
      pen.lineWidth = 0.7;
      pen.strokeStyle = state.paint.soft;
      way(pen, [[px, py], [best.cx, best.cy]]);
      pen.stroke();
    }
    words(pen, best.cx, best.cy, name, colour(k));
  });
}
export function drawSpace() {
  if (!look()) {
    set({view: null});
    return;
  }
  drawStill();
  moveDrones();
  for (const it of byId("views").children) {
    it.setAttribute("aria-pressed", `${`${VIEWS[it.textContent]}` === `${[state.turn, state.tilt]}`}`);
  }
}
