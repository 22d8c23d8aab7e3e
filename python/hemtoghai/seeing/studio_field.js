// The field in which the text of ./show studio is written. A browser lays a field out anew at each key, which takes
// longer than a key may where the text is long. So the field holds a window of lines around those that can be seen, at
// their own place in a sheet that is as high as the whole text. Selection, clipboard and undo are of the whole text.

import {byId} from "./elements.js";
import {given} from "./given.js";
import {closeMenu} from "./studio_edit.js";
import {onCursor} from "./studio_layout.js";
import {change, lineAt, noteStep, offsetOf, stepBack, stepForth, textBetween, textLength,
  wholeText} from "./studio_lines.js";
import {drawPaper} from "./studio_paper.js";
import {afterChange} from "./studio_text.js";
import {set, state} from "./state.js";

// pixels: the height of a line, and the room above and beside the first letter
export const LINE = 20, ABOVE = 8, LEFT = 58;
// Lines of a text that is held as a whole, of a window at either side of the view, and left at its ends.
const WHOLE = 300, AROUND = 90, MARGIN = 30;
export const field = byId("text"), scroller = byId("scroller"), sheet = byId("sheet");
let heldText = "";
let placed = [0, 0];  // both as they were put into the field
let composing = false, isComposed = false;  // letters are put together from several keys, and there are some of them
let drag = 0;  // 0, 1 while the mouse is pressed in the field, 2 once the selection has changed since
export const within = (offset, low, high) => Math.max(low, Math.min(high, offset));

// ---- the window

export const linesInView = () => [state.viewTop, state.viewTop + state.viewHeight]
  .map((edge, k) => [Math.floor, Math.ceil][k]((edge - ABOVE) / LINE))
  .map(line => within(line, 0, state.lines.length));
// Whether the window reaches well beyond these lines, or to the end of the text.
const reaches = (first, last) => (state.held[0] === 0 || state.held[0] <= first - MARGIN) &&
  (state.held[1] >= state.lines.length || state.held[1] >= last + MARGIN);
// Holds other lines, where those of the view aren't well inside of the window.
function holdView() {
  const [first, last] = linesInView();
  if (composing || reaches(first, last)) return;
  hold(...windowAt(first, last));
}
export function windowAt(first, last) {
  if (state.lines.length <= WHOLE) return [0, state.lines.length];
  return [Math.max(0, first - AROUND), Math.min(state.lines.length, last + AROUND)];
}
const heldFrom = () => state.starts[state.held[0]];
const heldTo = () => state.held[1] < state.lines.length ? state.starts[state.held[1]] - 1 : textLength();
export function hold(first, last) {
  set({held: [first, Math.max(first + 1, last)]});
  heldText = state.lines.slice(...state.held).join("\n");
  if (field.value !== heldText) field.value = heldText;
  placeField();
  placeSelection();
}
let laidOut = "";  // as it was put last: a style that is written again costs a layout
function placeField() {
  const [first, last] = state.held, high = 2 * ABOVE + LINE * (last - first), isLast = last >= state.lines.length;
  // Below the last line there is no text, but a click there is one into the field.
  const height = isLast ? Math.max(high, state.viewHeight - LINE * first) : high;
  const wanted = [first, height, state.lines.length, state.widest];
  if (laidOut === `${wanted}`) return;
  laidOut = `${wanted}`;
  sheet.style.height = `${2 * ABOVE + LINE * state.lines.length}px`;
  sheet.style.width = `max(100%, calc(${LEFT + 24}px + ${state.widest}ch))`;
  field.style.top = `${LINE * first}px`;
  field.style.height = `${wanted[1]}px`;
}
export function resizeField() {
  set({viewTop: scroller.scrollTop, viewHeight: scroller.clientHeight});
  placeField();
  holdView();
}
function onScroll() {
  const isOwn = scroller.scrollTop === state.viewTop;  // the page scrolled, and knows where it is
  set({viewTop: scroller.scrollTop});
  if (!isOwn) closeMenu(false);
  // What is selected is read before the field gets other lines: the event that tells of it may come later.
  readSelection();
  if (drag) drag = 2;
  holdView();
  drawPaper();
}

// ---- the selection

const isHeld = offset => heldFrom() <= offset && offset <= heldTo();
const isSelectionHeld = () => isHeld(state.anchor) && isHeld(state.head);
// Puts the selection into the field as far as its lines are there. A cursor that is elsewhere isn't shown.
export function placeSelection() {
  placed = [state.anchor, state.head].map(offset => within(offset, heldFrom(), heldTo()) - heldFrom());
  const [a, b] = placed;
  if (field.selectionStart !== Math.min(a, b) || field.selectionEnd !== Math.max(a, b) || a !== b) {
    field.setSelectionRange(Math.min(a, b), Math.max(a, b), a > b ? "backward" : "forward");
  }
  byId("editor").classList.toggle("away", !isHeld(state.head));
}
// Takes the selection of the field. An end that is beyond the window stays, as long as the field's own end does.
export function readSelection() {
  const {selectionStart: from, selectionEnd: to, selectionDirection} = field;
  const [a, b] = selectionDirection === "backward" ? [to, from] : [from, to];
  if (Math.min(...placed) === from && Math.max(...placed) === to) return;
  const all = from === 0 && to === heldText.length && heldText.length < textLength();
  const stays = !isHeld(state.anchor) && (a === placed[0] || drag === 2), moved = a !== placed[0];
  if (!stays) set({anchor: heldFrom() + a});
  set({head: heldFrom() + b});
  if (all) set({anchor: 0, head: textLength()});  // what a menu of the browser selects as all is all that the field has
  if (drag) drag = 2;
  placed = [a, b];
  byId("editor").classList.toggle("away", !isHeld(state.head));
  if (stays && moved) placeSelection();
}
export const selectionFrom = () => Math.min(state.anchor, state.head);
export const selectionTo = () => Math.max(state.anchor, state.head);
export function cursorLine() {
  readSelection();
  return lineAt(selectionFrom()) + 1;
}
// Selects a part of the text, whose end is the cursor.
export function select(from, to) {
  set({anchor: from, head: to});
  placeSelection();
  onCursor();
}
// Lets the cursor's line be seen, and be well inside of the window.
function showCursor() {
  const line = lineAt(state.head);
  if (!isHeld(state.head) || !reaches(line, line + 1)) scrollToLines(line + 1, line + 1);
}
export function scrollToLines(first, last) {
  const top = ABOVE + LINE * (first - 1), bottom = ABOVE + LINE * last;
  if (top < state.viewTop || bottom > state.viewTop + state.viewHeight) {
    scroller.scrollTop = Math.max(0, top - Math.max(LINE, (state.viewHeight - (bottom - top)) / 3));
    set({viewTop: scroller.scrollTop});
  }
  scroller.scrollLeft = 0;
  holdView();
  drawPaper();
}
// Shows lines of the text, with the cursor before the first. None is selected: the next key would write over it.
export function pointAt(first, last) {
  if (given.watch) return;
  scrollToLines(first, last);
  select(offsetOf(first), offsetOf(first));
}
// The same, and the next key is typed there.
export function showLines(first, last) {
  pointAt(first, last);
  if (!given.watch) field.focus({preventScroll: true});
}

// ---- changes

// Changes the text, notes how to undo it, and puts the cursor after what was written.
export function edit(from, to, words, isTyped, isJoined = false) {
  const gone = textBetween(from, to);
  const selection = [state.anchor, state.head];
  if (gone !== words) noteStep({from, gone, put: words, selection, at: performance.now()}, isTyped, isJoined);
  const more = change(from, to, words);
  set({anchor: from + words.length, head: from + words.length});
  return more;
}
// The field has other words than it had: what differs is put into the text.
function onInput() {
  const words = field.value, most = Math.min(words.length, heldText.length);
  if (words === heldText) return;
  let from = 0, end = 0;
  while (from < most && words[from] === heldText[from]) from += 1;
  while (end < most - from && words[words.length - 1 - end] === heldText[heldText.length - 1 - end]) end += 1;
  const begin = heldFrom() + from;
  const put = words.slice(from, words.length - end);
  state.held[1] += edit(begin, begin + heldText.length - end - from, put, true, isComposed);
  isComposed = composing;
  heldText = words;
  placed = [-1, -1];
  readSelection();
  placeField();
  if (!composing && state.held[1] - state.held[0] > 2 * WHOLE) hold(...windowAt(...linesInView()));
  afterChange();
}
// Writes words in place of a part of the text; it can be undone.
export function writeText(from, to, words) {
  field.focus({preventScroll: true});
  writeAside(from, to, words);
}
// The same, and the keys stay where they are. What is typed elsewhere is undone as what is typed in the text.
export function writeAside(from, to, words, isTyped = false) {
  edit(from, to, words.replace(/\r\n?/g, "\n"), isTyped);
  afterWriting();
}
function afterWriting() {
  hold(...windowAt(...linesInView()));
  const line = lineAt(state.head) + 1;
  scrollToLines(line, line);
  afterChange();
  onCursor();
}
const writeOver = words => writeText(selectionFrom(), selectionTo(), words);
// Puts another text in; what is the same at both ends stays.
export function replaceText(text) {
  if (wholeText() !== text) field.focus({preventScroll: true});
  replaceAside(text);
}
// The same, and the keys stay where they are.
export function replaceAside(text) {
  const old = wholeText(), most = Math.min(old.length, text.length);
  let from = 0, end = 0;
  while (from < most && old[from] === text[from]) from += 1;
  while (end < most - from && old[old.length - 1 - end] === text[text.length - 1 - end]) end += 1;
  if (old !== text) writeAside(from, old.length - end, text.slice(from, text.length - end));
}
function takeStep(step) {
  if (!step) return;
  change(step.from, step.to, step.words);
  const [stays, moves] = step.selection;
  set({anchor: stays, head: moves});
  afterWriting();
}
export const undo = () => takeStep(stepBack()), redo = () => takeStep(stepForth());

// ---- keys and the clipboard

// Moves the cursor; what is selected grows where that is wanted.
function goTo(offset, grows) {
  set({head: offset});
  if (!grows) set({anchor: state.head});
  const line = lineAt(state.head) + 1;
  scrollToLines(line, line);
  placeSelection();
  onCursor();
}
function goPage(down, grows) {
  const line = lineAt(state.head), column = state.head - state.starts[line];
  const by = Math.max(1, Math.floor(state.viewHeight / LINE) - 2);
  const to = within(line + (down ? by : -by), 0, state.lines.length - 1);
  scroller.scrollTop += (to - line) * LINE;
  set({viewTop: scroller.scrollTop});
  holdView();
  goTo(state.starts[to] + Math.min(column, state.lines[to].length), grows);
}
export const isMac = navigator.platform.startsWith("Mac");
// What a key does to the whole text, or null where the field does it.
function workOfKey(event) {
  const {key, shiftKey} = event, command = event.ctrlKey || event.metaKey, low = key.toLowerCase();
  if (event.altKey) return null;
  if (command && low === "z") return shiftKey ? redo : undo;
  if (command && low === "y" && !isMac) return redo;
  if (command && low === "a") return () => select(0, textLength());
  if (command && (key === "Home" || isMac && key === "ArrowUp")) return () => goTo(0, shiftKey);
  if (command && (key === "End" || isMac && key === "ArrowDown")) return () => goTo(textLength(), shiftKey);
  if (key === "PageUp" || key === "PageDown") return command ? null : () => goPage(key === "PageDown", shiftKey);
  // Tab with Shift goes back, so that the field can be left by keys.
  if (key === "Tab" && !command && !shiftKey) return () => writeOver("  ");
  return null;
}
const ARROWS = ["ArrowLeft", "ArrowRight", "ArrowUp", "ArrowDown", "Home", "End"];
const QUIET = ["Shift", "Control", "Alt", "Meta", "CapsLock", "Escape", "F1", "F3", "F5", "F11", "F12"];
function onFieldKey(event) {
  readSelection();
  const work = workOfKey(event);
  if (work) {
    event.preventDefault();
    return work();
  }
  if (QUIET.includes(event.key) || (event.ctrlKey || event.metaKey) && /^[a-z]$/i.test(event.key)) return null;
  // A selection that is longer than the window ends at the key's side of it.
  if (ARROWS.includes(event.key) && !event.shiftKey && state.anchor !== state.head && !isSelectionHeld()) {
    event.preventDefault();
    return goTo(["ArrowLeft", "ArrowUp", "Home"].includes(event.key) ? selectionFrom() : selectionTo(), false);
  }
  return showCursor();
}
// What the field would do to a selection that it doesn't hold as a whole is done to the whole text.
function onBeforeInput(event) {
  if (event.inputType === "historyUndo" || event.inputType === "historyRedo") {
    event.preventDefault();
    return event.inputType === "historyUndo" ? undo() : redo();
  }
  readSelection();
  // What is dropped goes where it is dropped, and takes nothing away.
  if (isSelectionHeld() || !event.cancelable || event.inputType === "insertFromDrop") return null;
  event.preventDefault();
  const isLine = ["insertLineBreak", "insertParagraph"].includes(event.inputType);
  const words = event.data ?? (event.dataTransfer ? event.dataTransfer.getData("text/plain") : "");
  return writeOver(isLine ? "\n" : event.inputType.startsWith("insert") ? words : "");
}
function onCopy(event) {
  readSelection();
  if (isSelectionHeld()) return;
  event.preventDefault();
  event.clipboardData.setData("text/plain", textBetween(selectionFrom(), selectionTo()));
  if (event.type === "cut") writeOver("");
}
function onPaste(event) {
  event.preventDefault();
  readSelection();
  writeOver(event.clipboardData.getData("text/plain"));
}
export function bindField() {
  field.addEventListener("input", onInput);
  field.addEventListener("keydown", onFieldKey);
  field.addEventListener("beforeinput", onBeforeInput);
  for (const kind of ["copy", "cut"]) field.addEventListener(kind, onCopy);
  field.addEventListener("paste", onPaste);
  field.addEventListener("dragstart", event => { if (!isSelectionHeld()) event.preventDefault(); });
  field.addEventListener("compositionstart", () => {
    readSelection();
    if (!isSelectionHeld()) writeOver("");
    composing = true;
    isComposed = false;
  });
  field.addEventListener("compositionend", () => {
    composing = isComposed = false;
    holdView();
  });
  field.addEventListener("pointerdown", () => { drag = 1; });
  for (const kind of ["pointerup", "pointercancel"]) addEventListener(kind, () => { readSelection(); drag = 0; });
  // The sheet scrolls, and never the field in it.
  field.addEventListener("scroll", () => { if (field.scrollTop || field.scrollLeft) field.scrollTo(0, 0); });
  scroller.addEventListener("scroll", onScroll);
  document.addEventListener("selectionchange", onCursor);
}
