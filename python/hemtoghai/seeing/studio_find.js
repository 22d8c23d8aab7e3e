// Finding words in the text of ./show studio: of the whole text, of which the field of the browser has a part.

import {byId} from "./elements.js";
import {given} from "./given.js";
import {field, placeSelection, readSelection, scrollToLines, select, selectionFrom,
  selectionTo} from "./studio_field.js";
import {grouped} from "./studio_found.js";
import {lineAt, textBetween, wholeText} from "./studio_lines.js";
import {drawPaper} from "./studio_paper.js";
import {state} from "./state.js";

const MOST_HITS = 100000;  // places that are counted
const FIND_PAUSE = 150;  // milliseconds without a key until they are found anew
let hits = [], hitLength = 0;  // where in the text each place begins, and how many letters it has
let shownHit = -1, hitsVersion = -1, finding = null, findOrigin = 0;
const findWords = () => byId("find").hidden ? "" : byId("find-words").value;

// All places of the words in the text, whether they are written large or small.
function findAll() {
  const wanted = findWords(), pattern = new RegExp(wanted.replace(/[.*+?^${}()|[\]\\]/g, "\\$&"), "gi");
  [hits, hitLength, hitsVersion, shownHit] = [[], wanted.length, state.version, -1];
  if (!wanted) return;
  for (const it of wholeText().matchAll(pattern)) {
    hits.push(it.index);
    if (hits.length >= MOST_HITS) return;
  }
}
// The first place that begins at an offset or later, by number.
function hitFrom(offset) {
  let low = 0, high = hits.length;
  while (low < high) {
    const middle = (low + high) >> 1;
    if (hits[middle] < offset) low = middle + 1; else high = middle;
  }
  return low;
}
// The places in a line, as [from, to, whether it is the one that is shown].
export function hitsOf(k) {
  const out = [];
  if (byId("find").hidden || hitsVersion !== state.version || !hits.length) return out;
  const begin = state.starts[k], end = begin + state.lines[k].length;
  for (let next = hitFrom(begin); next < hits.length && hits[next] < end; next += 1) {
    out.push([hits[next] - begin, hits[next] - begin + hitLength, next === shownHit]);
  }
  return out;
}
function sayHits() {
  const most = hits.length >= MOST_HITS ? `${grouped(MOST_HITS)} or more` : grouped(hits.length);
  byId("find-count").textContent = !findWords() ? "" : !hits.length ? "nowhere" :
    shownHit < 0 ? `${most}` : `${grouped(shownHit + 1)} of ${most}`;
}
function showHit(number) {
  shownHit = number;
  if (number >= 0) {
    const line = lineAt(hits[number]) + 1;
    scrollToLines(line, line);
    select(hits[number], hits[number] + hitLength);
  }
  sayHits();
  drawPaper();
}
// Goes to the next place after the selection, or to the one before it; at the end it begins anew.
export function goHit(isBack) {
  if (byId("find").hidden) return openFind();
  if (hitsVersion !== state.version) findAll();
  if (!hits.length) return showHit(-1);
  readSelection();
  const next = isBack ? hitFrom(selectionFrom()) - 1 : hitFrom(Math.max(selectionTo(), selectionFrom() + 1));
  return showHit((next + hits.length) % hits.length);
}
function onFindWords() {
  findAll();
  showHit(hits.length ? hitFrom(findOrigin) % hits.length : -1);
}
export function openFind() {
  if (given.watch) return;
  readSelection();
  const chosenWords = textBetween(selectionFrom(), selectionTo());
  if (chosenWords && !chosenWords.includes("\n")) byId("find-words").value = chosenWords;
  findOrigin = selectionFrom();
  byId("find").hidden = false;
  byId("find-words").focus();
  byId("find-words").select();
  onFindWords();
}
function closeFind() {
  byId("find").hidden = true;
  field.focus({preventScroll: true});
  placeSelection();
  drawPaper();
}
// After a change the places are found anew, once nobody types; where they were isn't shown meanwhile.
export function findSoon() {
  clearTimeout(finding);
  if (byId("find").hidden) return;
  finding = setTimeout(() => { findAll(); sayHits(); drawPaper(); }, FIND_PAUSE);
}
function onFindKey(event) {
  if (event.key === "Enter") {
    event.preventDefault();
    goHit(event.shiftKey);
  } else if (event.key === "Escape") {
    event.preventDefault();
    closeFind();
  }
}
export function bindFind() {
  byId("find-words").addEventListener("input", onFindWords);
  byId("find").addEventListener("keydown", onFindKey);
  byId("find-back").onclick = () => goHit(true);
  byId("find-next").onclick = () => goHit(false);
  byId("find-close").onclick = closeFind;
  byId("find-open").onclick = openFind;
}
