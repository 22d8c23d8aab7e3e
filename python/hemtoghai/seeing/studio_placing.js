// Places in the text of ./show studio: which numbers put a drone where it is at the end of a cue, which line would, and
// one change of the text that puts several drones elsewhere.

import {byId} from "./elements.js";
import {cueAt, endOfCue, placeAt} from "./flight.js";
import {given} from "./given.js";
import {MOST_SHOWN, nextName, numberAt, numberWord, placeLine, slotsOf, wordsOf} from "./studio_edit.js";
import {isStill} from "./studio_judge.js";
import {offsetOf, textBetween, textLength, wholeText} from "./studio_lines.js";
import {state} from "./state.js";

/**
 * A part of the text and what stands there instead.
 * @typedef {{from: number, to: number, word: string, line: number}} Edit
 * A drone at the end of a cue: where the text puts it, in micrometres, what puts it elsewhere, and whether that is a
 * line that isn't there yet.
 * @typedef {{place: number[], isNew: boolean, edits: (place: number[]) => Edit[]}} Spot
 */

// The cue that ends at the playhead, -1 at the start of the show, or null.
export function cueEnding() {
  if (isStill() || state.now < 1) return -1;
  const near = Math.max(2, Number(byId("slider").step)), cue = cueAt(state.now);
  const ending = [cue - 1, cue].find(k => k >= 0 && Math.abs(endOfCue(k) - state.now) <= near);
  return ending ?? null;
}
// Where a drone is at the end of a cue, in whole millimetres, and its yaw in tenths of a degree.
export function endOf(k, cue) {
  const [x, y, z, yaw] = placeAt(k, cue < 0 ? 0 : endOfCue(cue));
  return {place: [x, y, z].map(Math.round), yaw: 10 * Math.round(yaw)};
}
// Whether a cue is flown by a figure, whose numbers are in its own frame.
export const isPerformed = cue => state.flight.lines[cue].some(([from, to]) => from === to);

const linesOfFlight = () => state.flightVersion === state.version ? state.found.lines : null;

/**
 * @param {number} k
 * @param {number | null} cue
 * @param {any} own the lines of each drone; without it those of the flight that is drawn, where it is the text's
 * @param {boolean} isMoved whether the text has put it elsewhere since
 * @returns {Spot | null}
 */
export function spotOf(k, cue, own = linesOfFlight(), isMoved = false) {
  if (given.watch || cue === null || !own || cue >= 0 && isPerformed(cue)) return null;
  const line = cue < 0 ? own.drones[k] : own.acts[k][cue], words = wordsOf(state.lines[line - 1] || "");
  const holds = !line || words.length === 2 && words[1].text === "hold";
  if (cue >= 0 && !isMoved && holds) return spotOfHold(k, cue, line);
  const numbers = numbersOf(k, cue, line, words, isMoved);
  return numbers && {place: numbers.map(it => it.value), isNew: false, edits: place => numbers.map((it, axis) =>
    ({from: it.from, to: it.to, line, word: place[axis] === it.value ? it.text : numberWord("um", place[axis])}))};
}
// The numbers x, y and z of a line that put a drone where it is, or null where it says that by no place.
function numbersOf(k, cue, line, words, isMoved) {
  const row = slotsOf(words);
  if (!row || row.name !== state.flight.names[k]) return null;
  const places = row.slots.map((slot, at) => Array.isArray(slot) && slot[1] === "um" ? row.first + at : -1)
    .filter(at => at >= 0).slice(-3);
  const numbers = places.map(at => words[at] && numberAt(line, words[at].at)), there = endOf(k, cue).place;
  if (numbers.length < 3 || !numbers.every(Boolean)) return null;
  return isMoved || numbers.every((it, axis) => Math.abs(it.value / 1000 - there[axis]) <= 1) ? numbers : null;
}
// A drone that stays in a cue goes elsewhere by a move, in place of its `hold` or as the cue's last line.
function spotOfHold(k, cue, line) {
  const name = state.flight.names[k], {place, yaw} = endOf(k, cue), last = state.flight.lines[cue][0][1];
  const act = it => placeLine(`${name} move`, ["", ...it, yaw]).replace(/  +/, " ");
  if (line) {
    const words = wordsOf(state.lines[line - 1]), from = offsetOf(line) + words[0].at;
    const to = offsetOf(line) + words[1].at + words[1].text.length;
    if (words[0].text !== name) return null;
    return {place: place.map(it => 1000 * it), isNew: true, edits: it => [{from, to, line, word: act(it)}]};
  }
  if (!/^\s*end\b/.test(state.lines[last - 1] || "")) return null;
  const above = state.lines[last - 2], isAct = last - 1 > state.flight.lines[cue][0][0];
  const indent = (isAct ? above : state.lines[last - 1]).match(/^\s*/)[0], from = offsetOf(last);
  return {place: place.map(it => 1000 * it), isNew: true,
    edits: it => [{from, to: from, line: last, word: `${indent}${act(it)}\n`}]};
}
export const isTooFar = place => place.some(it => Math.abs(it) > MOST_SHOWN);

/**
 * Several changes as one, from the first of them to the last.
 * @param {Edit[]} edits
 */
export function joined(edits) {
  const rows = [...edits].sort((a, b) => a.from - b.from || a.to - b.to);
  const from = rows[0].from, to = rows[rows.length - 1].to;
  let words = "", at = from;
  for (const it of rows) {
    words += textBetween(at, it.from) + it.word;
    at = it.to;
  }
  return {from, to, words, line: rows[0].line};
}
// The whole text with these changes.
export function textWith(edits) {
  if (!edits.length) return wholeText();
  const {from, to, words} = joined(edits);
  return textBetween(0, from) + words + textBetween(to, textLength());
}

// ---- more lines

// A new cue behind another one, or before the first where that is -1: each of these drones flies to its new place, in
// micrometres, in a time in which the farthest has half a metre a second.
export function newCue(cue, places) {
  const rows = [...places].map(([k, place]) => {
    const {place: old, yaw} = endOf(k, cue);
    return {far: Math.hypot(...old.map((v, axis) => place[axis] / 1000 - v)),
      line: placeLine(`${state.flight.names[k]} move`, ["", ...place, yaw]).replace(/  +/, " ")};
  });
  const seconds = Math.max(3, Math.ceil(2 * Math.max(...rows.map(it => it.far)) / 1000));
  const block = [`cue ${numberWord("ms", 1000 * seconds)}`, ...rows.map(it => it.line), "end", ""].join("\n");
  if (isStill()) return blockAt(state.lines.length + 1, block);
  return cue < 0 ? blockAt(beginOf(0), block, true) : blockAt(afterCue(cue), block);
}
const performOf = cue => state.flight.lines[cue].filter(([from, to]) => from === to).map(([from]) => from);
// The first and the last line of a cue, or of the `perform` lines that fly it.
export const beginOf = cue => isPerformed(cue) ? Math.min(...performOf(cue)) : state.flight.lines[cue][0][0];
export const lastOf = cue => isPerformed(cue) ? Math.max(...performOf(cue)) : state.flight.lines[cue][0][1];
const afterCue = cue => lastOf(cue) + 1;
// A block of lines before a line of the text, or behind its last one, with an empty line between.
export function blockAt(line, block, isBefore = false) {
  if (line > state.lines.length) {
    const end = textLength(), last = state.lines[state.lines.length - 1];
    const front = last.trim() ? "\n\n" : (state.lines[state.lines.length - 2] || "").trim() ? "\n" : "";
    return {from: end, to: end, line: state.lines.length, word: front + block};
  }
  return {from: offsetOf(line), to: offsetOf(line), line, word: isBefore ? `${block}\n` : `\n${block}`};
}
// Copies of drones, so many millimetres aside on x: the line that declares each, its acts and its places in formations.
// Those of lines that follow one another stand behind the last of these. Null where there would be too many drones.
export function copiesOf(drones, aside, most) {
  const names = [...state.flight.names], copies = new Map();
  for (const k of drones) {
    const name = nextName(names), own = state.found.lines;
    names.push(name);
    for (const line of new Set([own.drones[k], ...own.acts[k]].filter(Boolean))) {
      const text = state.lines[line - 1], row = slotsOf(wordsOf(text));
      if (!row || row.name !== state.flight.names[k]) continue;
      copies.set(line, `\n${text.match(/^\s*/)[0]}${movedLine(line, row, name, 1000 * aside)}`);
    }
  }
  return names.length > most ? null : behindRuns(copies);
}
// Words for lines, written behind the last of those that follow one another.
function behindRuns(rows) {
  const edits = [];
  let word = "";
  for (const line of [...rows.keys()].sort((a, b) => a - b)) {
    word += rows.get(line);
    if (rows.has(line + 1)) continue;
    const at = offsetOf(line) + state.lines[line - 1].length;
    edits.push({from: at, to: at, line, word});
    word = "";
  }
  return edits;
}
/**
 * The changes that take drones out of the text: the lines that declare them, their acts, their places in formations.
 * @param {number[]} drones
 * @returns {Edit[]}
 */
export function removalsOf(drones) {
  const own = state.found.lines, names = drones.map(k => state.flight.names[k]);
  const gone = new Set(drones.flatMap(k => [own.drones[k], ...own.acts[k]]));
  state.lines.forEach((text, at) => { if (/^\s*at\s/.test(text)) gone.add(at + 1); });  // also of what is never formed
  const isTheirs = line => {
    const row = slotsOf(wordsOf(state.lines[line - 1] || ""));
    return row !== null && names.includes(row.name);
  };
  const next = line => line < state.lines.length ? offsetOf(line + 1) : textLength();
  return [...gone].filter(isTheirs).map(line => ({from: offsetOf(line), to: next(line), line, word: ""}));
}
// A line of a drone for another one, so many micrometres aside on x.
function movedLine(line, row, name, by) {
  return wordsOf(state.lines[line - 1]).map((word, at) => {
    const slot = row.slots[at - row.first], isAlong = Array.isArray(slot) && /^(centre )?x/.test(slot[0]);
    const number = isAlong && slot[1] === "um" && numberAt(line, word.at);
    return word.text === row.name && at < 2 ? name : number ? numberWord("um", number.value + by) : word.text;
  }).join(" ");
}
