// Cues as parts of the text in ./show studio: their names, carrying them to another place, and taking them out.

import {given} from "./given.js";
import {pointAt, replaceAside} from "./studio_field.js";
import {beginOf, lastOf} from "./studio_placing.js";
import {set, state} from "./state.js";

const LONGEST = 60;  // letters of a name
const isComment = line => /^\s*#/.test(line || "");
const commentOf = line => {
  const at = (line || "").indexOf("#");
  return at < 0 ? "" : line.slice(at).replace(/^#+\s*/, "").trim().slice(0, LONGEST);
};
/**
 * The names of the cues of a flight: what the comment at the end of the line with `cue` says, or else the line of
 * comment right above it.
 * @param {[number, number][][]} rows
 */
export const namesOf = rows => rows.map(([[first]]) =>
  commentOf(state.lines[first - 1]) || (isComment(state.lines[first - 2]) ? commentOf(state.lines[first - 2]) : ""));

// The lines of a cue, or of the figure that flies it, with the lines of comment right above.
function blockOf(cue) {
  let first = beginOf(cue);
  while (first > 1 && isComment(state.lines[first - 2]) && first - 2 > 0) first -= 1;
  return [first, lastOf(cue)];
}
// Whether a line by its number from 0 is empty; what is behind the last line feed is none.
const isBlank = (lines, k) => k > 0 && k < lines.length - 1 && !lines[k].trim();
// Lines without some of them, from one by its number from 0, and how many are gone: the empty line behind them goes,
// too, or else that before them.
function without(lines, from, many) {
  const isAfter = isBlank(lines, from + many), isBefore = !isAfter && isBlank(lines, from - 1), out = [...lines];
  const gone = many + (isAfter || isBefore ? 1 : 0);
  out.splice(from - (isBefore ? 1 : 0), gone);
  return {lines: out, gone};
}
/**
 * The lines of the text with a cue before another one or behind it, in place of where it is or as a copy; and the line
 * at which it begins then. An empty line beside it goes with it.
 * @returns {{lines: string[], line: number} | null}
 */
function carried(cue, other, isBehind, isCopy) {
  const [first, last] = blockOf(cue), [begin, end] = blockOf(other), {lines} = state;
  const own = lines.slice(first - 1, last), gap = isBlank(lines, last) || isBlank(lines, first - 2) ? [""] : [];
  if (!isCopy && begin <= last && first <= end) return null;  // both are flown by the same lines
  const at = isBehind ? end : begin - 1, line = at + 1 + (isBehind ? gap.length : 0);
  const piece = isBehind ? [...gap, ...own] : [...own, ...gap];
  const out = [...lines.slice(0, at), ...piece, ...lines.slice(at)];
  if (isCopy) return {lines: out, line};
  const rest = without(out, first - 1 + (at < first ? piece.length : 0), own.length);
  return {lines: rest.lines, line: at < first ? line : line - rest.gone};
}
// Where the cue is in the show then, as long as none of both is flown several times.
function indexThen(cue, other, isBehind, isCopy) {
  const count = it => state.flight.lines.filter(([[first]]) => first === state.flight.lines[it][0][0]).length;
  if (count(cue) > 1 || count(other) > 1) return null;
  return other + (isBehind ? 1 : 0) - (!isCopy && cue < other ? 1 : 0);
}
// Writes a cue elsewhere, where the flight that is drawn is that of the text; what is wrong then `check` says.
export function carryCue(cue, other, isBehind, isCopy) {
  if (given.watch || state.flightVersion !== state.version || !state.flight.lines) return;
  const found = carried(cue, other, isBehind, isCopy), index = indexThen(cue, other, isBehind, isCopy);
  if (!found) return;
  replaceAside(found.lines.join("\n"));
  pointAt(found.line, found.line);
  if (index !== null) set({goal: {version: state.version, cue: index}});
}
// Takes a cue out of the text, or the figure that flies it, with the comment above it.
export function removeCue(cue) {
  if (given.watch || state.flightVersion !== state.version || !state.flight.lines) return;
  const [first, last] = blockOf(cue), {lines} = without(state.lines, first - 1, last - first + 1);
  replaceAside(lines.join("\n"));
  pointAt(Math.min(first, lines.length), Math.min(first, lines.length));
  if (cue > 0) set({goal: {version: state.version, cue: cue - 1}});
}
