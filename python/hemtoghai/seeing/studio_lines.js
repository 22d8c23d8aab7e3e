// The text of ./show studio: its lines, what changes them, undo, and which lines a request has to carry. A change costs
// as much as the lines that it changes, and a look at the number of each line after it.

import {set, state} from "./state.js";

let whole = "";  // the text in one piece, or null while nobody has asked for it since it was changed
let widths = [0];  // by line the most columns that it takes
export const isFormLine = text => /^[ \t]*form[ \t]/.test(text);
const wordsIn = text => text.replace(/#.*/, "").trim();
// Columns that a line takes at most: a tab up to four, a letter of another script up to three.
export function columnsOf(text) {
  const shown = text.replace(/\t/g, "    ");
  return /^[\x20-\x7e]*$/.test(shown) ? shown.length : 3 * shown.length;
}

// Takes another text.
export function setContent(text) {
  whole = text;
  const lines = text.split("\n");
  widths = lines.map(columnsOf);
  set({lines, widest: greatestOf(widths), formLines: lines.filter(isFormLine).length, starts: new Array(lines.length)});
  moveStarts(0);
  readForm();
  [runs.judged, runs.kept] = [null, null];
  set({known: null, keptAs: null});
}
export const wholeText = () => whole ?? (whole = state.lines.join("\n"));
export const textLength = () => state.starts[state.starts.length - 1] + state.lines[state.lines.length - 1].length;
// A part of the text, for which the whole isn't put together.
export function textBetween(from, to) {
  if (whole !== null) return whole.slice(from, to);
  const first = lineAt(from), begin = state.starts[first];
  return state.lines.slice(first, lineAt(to) + 1).join("\n").slice(from - begin, to - begin);
}
// Not by Math.max, which takes so many arguments at most.
const greatestOf = numbers => numbers.reduce((most, number) => number > most ? number : most, 0);
function moveStarts(from) {
  let begin = from ? state.starts[from - 1] + state.lines[from - 1].length + 1 : 0;
  for (let k = from; k < state.lines.length; k += 1) {
    state.starts[k] = begin;
    begin += state.lines[k].length + 1;
  }
}
let formLine = 0;  // which line says it, by number from 0
function readForm() {
  const found = state.lines.findIndex(wordsIn);
  formLine = found < 0 ? state.lines.length - 1 : found;
  set({textForm: {"choreo 1": 1, "choreo 2": 2}[wordsIn(state.lines[formLine]).split(/\s+/).join(" ")] || null});
}
// The line, by number from 0, in which an offset is: the last one that begins at it or before.
export function lineAt(offset) {
  let low = 0, high = state.starts.length - 1;
  while (low < high) {
    const middle = (low + high + 1) >> 1;
    if (state.starts[middle] <= offset) low = middle; else high = middle - 1;
  }
  return low;
}
export const offsetOf = line => line <= state.starts.length ? state.starts[line - 1] : textLength();
// Writes words in place of a part of the text; says how many lines there are more than before.
export function change(from, to, words) {
  const first = lineAt(from), last = lineAt(to), gone = last + 1 - first, old = state.lines.slice(first, last + 1);
  const front = old[0].slice(0, from - state.starts[first]), end = old[gone - 1].slice(to - state.starts[last]);
  const put = (front + words + end).split("\n");
  whole = null;
  exchangeLines(first, old, put);
  moveStarts(first);
  if (first <= formLine) readForm();
  else formLine = Math.min(formLine, state.lines.length - 1);
  noteRun(first, gone, put.length);
  return put.length - gone;
}
function exchangeLines(first, old, put) {
  const columns = put.map(columnsOf), gone = old.length, after = first + gone;
  const wasWidest = widths.slice(first, after).includes(state.widest);
  set({formLines: state.formLines + put.filter(isFormLine).length - old.filter(isFormLine).length});
  if (gone === put.length && gone < 100) {
    for (let k = 0; k < gone; k += 1) [state.lines[first + k], widths[first + k]] = [put[k], columns[k]];
  } else {
    set({lines: state.lines.slice(0, first).concat(put, state.lines.slice(after))});
    widths = widths.slice(0, first).concat(columns, widths.slice(after));
    state.starts.length = state.lines.length;
  }
  set({widest: wasWidest ? greatestOf(widths) : Math.max(state.widest, greatestOf(columns))});
}

// ---- what changed since the text was sent or kept

// The lines that changed since then, as one run: the first, how many there were, how many there are.
export const runs = {judged: null, kept: null};
function noteRun(first, gone, put) {
  for (const name in runs) {
    const run = runs[name] || {first, gone: 0, put: 0}, from = Math.min(run.first, first);
    // Lines between the run and this change, and those of the change that aren't in the run, are the same in both.
    const more = Math.max(0, first + gone - (run.first + run.put)) + run.first - from;
    runs[name] = {first: from, gone: run.gone + more, put: run.put + more + put - gone};
  }
}
// The lines that stand in place of others since then.
export function changedLines(name) {
  const run = runs[name] || {first: 0, gone: 0, put: 0};
  return {line: run.first + 1, gone: run.gone, put: state.lines.slice(run.first, run.first + run.put)};
}
// What a request carries: all of the text, or the lines that changed since the one that the studio has; and its length.
export function carried() {
  const isShort = state.known !== null && (runs.judged === null || runs.judged.put <= state.lines.length / 2);
  return {length: textLength(), ...isShort ? {base: state.known, ...changedLines("judged")} : {text: wholeText()}};
}
// The SHA-256 of a text in UTF-8, in hexadecimal digits; null where the browser has none for this page.
export async function digestOf(text) {
  if (!globalThis.crypto || !crypto.subtle) return null;
  const bytes = new Uint8Array(await crypto.subtle.digest("SHA-256", new TextEncoder().encode(text)));
  return [...bytes].map(byte => byte.toString(16).padStart(2, "0")).join("");
}

// ---- undo

// A step has where it began, what it took, what it put there, and the selection before it.
let keptLetters = 0;
const TOGETHER = 1000, MOST_STEPS = 5000, MOST_LETTERS = 1 << 25;  // milliseconds; of all steps
const lettersOf = step => step.gone.length + step.put.length + 64;
// Notes a change for undo. What is typed without a pause at one place is one step.
export function noteStep(step, typedNow, isJoined = false) {
  set({stepsBack: []});
  const last = state.steps[state.steps.length - 1];
  const isSoon = last && (isJoined || step.at - last.at < TOGETHER);
  if (typedNow && isSoon && last.typed && joinStep(last, step)) return;
  state.steps.push({...step, typed: typedNow});
  keptLetters += lettersOf(step);
  while (state.steps.length > MOST_STEPS || keptLetters > MOST_LETTERS && state.steps.length > 1) {
    keptLetters -= lettersOf(state.steps.shift());
  }
}
// Puts a step into the one before, where it changes what that one put, or what is just before or after it.
function joinStep(last, step) {
  const from = step.from - last.from, to = from + step.gone.length, before = lettersOf(last);
  if (from >= 0 && to <= last.put.length) {
    last.put = last.put.slice(0, from) + step.put + last.put.slice(to);
  } else if (!last.put && !step.put && to === 0) {
    [last.from, last.gone] = [step.from, step.gone + last.gone];
  } else if (!last.put && !step.put && from === 0) {
    last.gone += step.gone;
  } else {
    return false;
  }
  last.at = step.at;
  keptLetters += lettersOf(last) - before;
  return true;
}
// Takes the steps of the same text in an earlier page.
export function takeSteps(steps, stepsBack) {
  set({steps: steps.map(step => ({...step, typed: false})), stepsBack});
  keptLetters = state.steps.reduce((sum, step) => sum + lettersOf(step), 0);
}
// What undoes the last step, or does it again: the part to change, and the selection then. Null where nothing is left.
export function stepBack() {
  const step = state.steps.pop();
  if (!step) return null;
  state.stepsBack.push(step);
  keptLetters -= lettersOf(step);
  return {from: step.from, to: step.from + step.put.length, words: step.gone, selection: step.selection};
}
export function stepForth() {
  const step = state.stepsBack.pop();
  if (!step) return null;
  state.steps.push({...step, typed: false});
  keptLetters += lettersOf(step);
  const end = step.from + step.put.length;
  return {from: step.from, to: step.from + step.gone.length, words: step.put, selection: [end, end]};
}
