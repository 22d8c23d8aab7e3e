// The lines of the text of ./show studio as they are seen: with numbers, colours and marks. The field's own letters are
// clear, and the lines are drawn below it, those alone that can be seen or nearly so.

import {byId, element} from "./elements.js";
import {cueAt} from "./flight.js";
import {given} from "./given.js";
import {ABOVE, LINE, linesInView, within} from "./studio_field.js";
import {hitsOf} from "./studio_find.js";
import {state} from "./state.js";

const SPARE = 12;  // lines that are drawn above and below those in view, for the next step of a scroll
const TINTED = 4000;  // letters of a line that have colours
const WORDS = new Set(given.language.words);
const NUMBERS = {1: /^-?[0-9]+$/, 2: /^-?[0-9]+(\.[0-9]+)?(m|cm|mm|um|s|ms|deg)?$/};  // by the form of the language
let rows = new Map();  // by line, from 0, what is drawn: how it was made, and its element

// Draws the lines in view. A line that is as it was stays as it is.
export function drawPaper() {
  if (given.watch) return;
  const [first, last] = linesInView(), next = new Map(), paper = byId("paper");
  const isDrawn = state.flight && state.flight.lines && state.flightLines === state.lines.length;
  const playing = isDrawn ? state.flight.lines[cueAt(state.now)][0] : null;
  for (let k = Math.max(0, first - SPARE); k < Math.min(state.lines.length, last + SPARE); k += 1) {
    const how = howRow(k, playing), old = rows.get(k);
    next.set(k, old && old.how === how ? old : {how, row: paperRow(k, playing)});
  }
  for (const [k, {row}] of rows) if (!next.has(k) || next.get(k).row !== row) row.remove();
  for (const [k, {row}] of next) {
    if (!row.parentNode) {
      row.style.top = `${ABOVE + LINE * k}px`;
      paper.append(row);
    }
  }
  rows = next;
}
const isPlaying = (k, playing) => playing !== null && playing[0] <= k + 1 && k + 1 <= playing[1];
// All that a row is made of, in one word.
function howRow(k, playing) {
  const {kind = "", say = ""} = state.marked.get(k + 1) || {};
  return [kind, say, isPlaying(k, playing), state.textForm, hitsOf(k), state.lines[k]].join("|");
}
function paperRow(k, playing) {
  const row = document.createElement("div"), mark = state.marked.get(k + 1);
  row.className = mark ? mark.kind : "";
  if (isPlaying(k, playing)) row.classList.add("playing");
  element("span", k + 1, row).className = "number";
  const shownWords = element("span", "", row);
  shownWords.className = "words";
  for (const [part, kind] of markHits(coloured(state.lines[k]), hitsOf(k))) {
    if (kind) element("span", part, shownWords).className = kind;
    else shownWords.append(part);
  }
  if (mark && mark.say) element("span", mark.say, shownWords).className = "say";
  return row;
}
// A line in parts, each with the class of its colour or nothing.
function coloured(line) {
  const front = line.slice(0, TINTED), hash = front.indexOf("#"), out = [];
  const code = hash < 0 ? front : front.slice(0, hash);
  for (const part of code.split(/([^\s]+)/)) {
    if (part) out.push([part, WORDS.has(part) ? "k" : NUMBERS[state.textForm || 1].test(part) ? "n" : ""]);
  }
  if (hash >= 0) out.push([line.slice(hash), "c"]);
  else if (line.length > TINTED) out.push([line.slice(TINTED), ""]);
  return out;
}
// The same parts, cut at what was found: [from, to, whether it is the one that is shown], in order.
function markHits(parts, hits) {
  if (!hits.length) return parts;
  const out = [];
  let begun = 0;
  for (const [part, kind] of parts) {
    let from = 0;
    for (const [begin, end, isShown] of hits) {
      const a = within(begin - begun, from, part.length), b = within(end - begun, from, part.length);
      if (a === b) continue;
      if (a > from) out.push([part.slice(from, a), kind]);
      out.push([part.slice(a, b), `${kind} hit${isShown ? " shown" : ""}`]);
      from = b;
    }
    if (from < part.length) out.push([part.slice(from), kind]);
    begun += part.length;
  }
  return out;
}
