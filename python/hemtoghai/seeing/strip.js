// The strip of cues above the charts: a block for each, with its number and its name, which can be carried elsewhere.

import {node} from "./elements.js";
import {cueAt, endOfCue} from "./flight.js";
import {state} from "./state.js";

const LETTER = 6.7, NARROW = 3, SHAKES = 4;  // pixels: of a letter, of a block that isn't drawn, of a click that shakes
const shortened = (words, room) => {
  const fits = Math.floor((room - 6) / LETTER);
  return words.length <= fits ? words : fits < 4 ? "" : `${words.slice(0, fits - 1).trimEnd()}…`;
};
// What a block says: the number and the name as far as there is room.
function wordsOf(k, room) {
  const number = `${k + 1}`, name = state.cueNames[k];
  return LETTER * number.length + 4 > room ? "" : shortened(name ? `${number} ${name}` : number, room) || number;
}
/**
 * Draws it, and says how to show which cue is flown.
 * @param {SVGElement} svg
 * @param {ReturnType<typeof import("./timespan.js").scaleOf>} scale
 * @param {number} above
 * @param {number} floor
 */
export function drawStrip(svg, scale, above, floor) {
  const {x, left, right} = scale, blocks = new Map(), digits = String(state.flight.cues.length).length;
  // Where blocks are narrow every second, fifth, tenth .. has its number.
  const each = (x(state.flight.end) - x(0)) / state.flight.cues.length;
  const stride = [1, 2, 5, 10, 20, 50, 100].find(it => it * each >= LETTER * digits + 6) || 200;
  const at = {y: above - 8, "text-anchor": "middle", class: "cue-name"}, labels = /** @type {Element[]} */ ([]);
  state.flight.cues.forEach(([from], k) => {
    const a = Math.max(left, x(from)), b = Math.min(right, x(endOfCue(k)));
    const middle = (x(from) + x(endOfCue(k))) / 2, isIn = left < middle && middle < right;
    const words = wordsOf(k, b - a) || ((k + 1) % stride || stride === 1 || !isIn ? "" : `${k + 1}`);
    if (b - a > 0 && words) labels.push(node("text", {...at, x: (a + b) / 2}, words));
    if (b - a < NARROW) return;
    const block = node("rect", {x: a + 0.5, y: 1.5, width: b - a - 1, height: above - 4, rx: 3, class: "cue"});
    block.append(node("title", {}, `cue ${k + 1}${state.cueNames[k] ? `: ${state.cueNames[k]}` : ""}` +
      (state.onCarry ? "; drag: elsewhere; Ctrl and drag: a copy" : "")));
    svg.append(block);
    if (state.onCarry) bindBlock(svg, block, k, scale, floor);
    blocks.set(k, block);
  });
  svg.append(...labels);
  let shown = /** @type {Element | undefined} */ (undefined);
  return () => {
    const here = blocks.get(cueAt(Math.min(state.flight.end, state.now)));
    if (here === shown) return;
    if (shown) shown.classList.remove("here");
    if (here) here.classList.add("here");
    shown = here;
  };
}
// Where a cue is carried to: before the cue at a pixel or behind it, and where that is drawn; null for its own place.
function placeAt(k, px, {x, ms}) {
  const at = ms(px), other = cueAt(Math.max(0, Math.min(state.flight.end, at)));
  const [from, end] = [state.flight.cues[other][0], endOfCue(other)], isBehind = at > (from + end) / 2;
  const isOwn = other === k || other === k + 1 && !isBehind || other === k - 1 && isBehind;
  return {other, isBehind, isOwn, px: x(isBehind ? end : from)};
}
function bindBlock(svg, block, k, scale, floor) {
  const shown = node("line", {y1: 0, y2: floor, stroke: state.paint.grip, "stroke-width": 3});
  let begun = null, place = null;
  block.onpointerdown = event => {  // the playhead goes there, too
    block.setPointerCapture(event.pointerId);
    [begun, place] = [event.clientX, null];
  };
  block.onpointermove = event => {
    if (begun === null) return;
    event.stopPropagation();
    if (Math.abs(event.clientX - begun) < SHAKES && !place) return;
    place = placeAt(k, event.clientX - svg.getBoundingClientRect().left, scale);
    for (const end of ["x1", "x2"]) shown.setAttribute(end, `${place.px}`);
    shown.setAttribute("stroke-dasharray", event.ctrlKey || event.altKey ? "4 3" : "");
    svg.append(shown);
  };
  block.onpointerup = block.onpointercancel = event => {
    const isCopy = event.ctrlKey || event.altKey, to = place;
    begun = null;
    shown.remove();
    if (!to || event.type !== "pointerup") return;
    svg.addEventListener("click", it => it.stopImmediatePropagation(), {capture: true, once: true});  // it was no click
    if (isCopy || !to.isOwn) state.onCarry(k, to.other, to.isBehind, isCopy);
  };
}
