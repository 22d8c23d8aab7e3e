// A drone that is dragged in the middle of a cue, in ./show studio: the figure that flies through that place then is
// offered, as a ghost before anything is taken.

import {cueAt, endOfCue, metres} from "./flight.js";
import {given} from "./given.js";
import {numberAt, numberWord, wordsOf} from "./studio_edit.js";
import {pointAt, writeAside} from "./studio_field.js";
import {isStill} from "./studio_judge.js";
import {offsetOf} from "./studio_lines.js";
import {endOf, isPerformed, isTooFar, joined, spotOf, textWith} from "./studio_placing.js";
import {leavePreview, showPreview} from "./studio_preview.js";
import {tell} from "./studio_text.js";
import {set, state} from "./state.js";

/** @typedef {import("./studio_placing.js").Edit} Edit */

const EDGE = 0.05;  // of a cue, at its begin and end
const OWN_ACTS = ["move", "line", "curve", "hold"];
let offered = false;

/**
 * What a drone flies at the playhead in the middle of a cue, in micrometres and milliseconds: where it begins and ends,
 * how much of the cue has passed, its line or 0, and whether it alone flies. Null where no figure is offered.
 */
export function throughAt(k) {
  if (given.watch || isStill() || !state.found.lines || state.flight.begun) return null;
  if (state.flightVersion !== state.version) return null;
  const cue = cueAt(state.now), from = state.flight.cues[cue][0], lasts = endOfCue(cue) - from;
  const share = (state.now - from) / lasts, {acts} = state.found.lines, line = acts[k][cue];
  if (share < EDGE || share > 1 - EDGE || isPerformed(cue)) return null;
  const words = wordsOf(state.lines[line - 1] || ""), [name, act] = words.map(it => it.text);
  if (line && (name !== state.flight.names[k] || !OWN_ACTS.includes(act))) return null;
  const spot = spotOf(k, cue), before = spotOf(k, cue - 1), {place, yaw} = endOf(k, cue);
  const isMove = line && act !== "hold", start = before ? before.place : endOf(k, cue - 1).place.map(it => 1000 * it);
  const [first] = state.flight.lines[cue][0], isOnce = state.flight.lines.filter(([[it]]) => it === first).length === 1;
  return {k, cue, line, words, lasts, share, start, end: spot ? spot.place : place.map(it => 1000 * it),
    yaw: isMove ? words[words.length - 1].text : numberWord("deg10", yaw),
    isAlone: isOnce && acts.every((row, other) => other === k || !row[cue])};
}
const rounded = place => place.map(it => 1000 * Math.round(it / 1000));
const mixed = (a, b, by) => a.map((v, axis) => v + by * (b[axis] - v));
function curveLine(spot, ...points) {
  const numbers = points.flat().map(it => numberWord("um", it));
  return [state.flight.names[spot.k], "curve", ...numbers, spot.yaw].join(" ");
}
/** The line of a drone in its cue with other words, or a new one before the end of the cue.
 * @returns {Edit} */
function ownLine(spot, words) {
  const [, last] = state.flight.lines[spot.cue][0], {line} = spot, at = offsetOf(line || last);
  if (!line) return {from: at, to: at, line: last, word: `${words}\n`};
  const end = spot.words[spot.words.length - 1];
  return {from: at + spot.words[0].at, to: at + end.at + end.text.length, line, word: words};
}
/**
 * The changes by which a drone is at a place, in micrometres, at the playhead. Where others fly in the cue, too, it is
 * one curve, which begins and ends at speed. Where it flies alone the cue becomes two, whose curves join there without
 * a stop and are at rest at both ends.
 * @returns {Edit[] | null}
 */
export function editsThrough(spot, place) {
  const {start, end, share: u, lasts, cue} = spot;
  if (isTooFar(place)) return null;
  if (!spot.isAlone) {
    const bend = place.map((v, axis) => (v - (1 - u) ** 2 * start[axis] - u ** 2 * end[axis]) / (2 * u * (1 - u)));
    const points = [rounded(mixed(start, bend, 2 / 3)), rounded(mixed(end, bend, 2 / 3)), end];
    return points.some(isTooFar) ? null : [ownLine(spot, curveLine(spot, ...points))];
  }
  const [first, last] = state.flight.lines[cue][0], words = wordsOf(state.lines[first - 1]);
  const number = numberAt(first, words[1].at), begin = Math.round(u * lasts), rest = lasts - begin;
  const speed = end.map((v, axis) => 1.5 * (v - start[axis]) / lasts);  // micrometres a millisecond
  const on = by => rounded(place.map((v, axis) => v + by * speed[axis]));
  if (!number || [on(-begin / 3), on(rest / 3)].some(isTooFar)) return null;
  const second = curveLine(spot, on(rest / 3), end, end), indent = state.lines[last - 1].match(/^\s*/)[0];
  const block = [`cue ${numberWord("ms", rest)}`, second, "end"].map(line => `\n${indent}${line}`).join("");
  const behind = offsetOf(last) + state.lines[last - 1].length;
  return [{from: number.from, to: number.to, line: first, word: numberWord("ms", begin)},
    ownLine(spot, curveLine(spot, start, on(-begin / 3), rounded(place))),
    {from: behind, to: behind, line: last, word: block}];
}
// Offers the figure: its ghost flies, and nothing is written before it is taken.
export async function offerThrough(spot, place) {
  const edits = editsThrough(spot, place), mine = state.version, name = state.flight.names[spot.k];
  set({ghosts: new Map()});
  if (!edits) return tell("No curve goes there: it would be too far away.");
  offered = true;
  const where = place.map(it => metres(Math.round(it / 1000))).join(", ");
  const how = spot.isAlone ? "two curves that join there" : "a curve, which begins and ends at speed";
  tell("Working out the figure through that place");
  const said = await showPreview(textWith(edits));
  if (said === null || mine !== state.version) return null;
  const take = () => {
    if (mine !== state.version) return;
    const {from, to, words, line} = joined(edits);
    leaveThrough();
    writeAside(from, to, words);
    pointAt(line, line);
  };
  tell(`${name} through ${where} m, by ${how}. The ghost is ${said}.`, ["Take it", take], ["Leave it", leaveThrough]);
  return null;
}
// Puts an offer away that wasn't taken.
export function leaveThrough() {
  if (!offered) return;
  offered = false;
  leavePreview();
  tell("");
}
