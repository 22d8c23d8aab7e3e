// The text of ./show studio: what follows a change, saving it in the file, and what the page says.

import {byId, element} from "./elements.js";
import {endOfCue} from "./flight.js";
import {given} from "./given.js";
import {move, playOrStop, stop} from "./player.js";
import {askWhere, sayWhere} from "./studio_again.js";
import {placingOfKey} from "./studio_drag.js";
import {openMenu, pickDrones, pickedLines} from "./studio_edit.js";
import {field, hold, isMac, linesInView, redo, replaceText, undo, windowAt} from "./studio_field.js";
import {findSoon, goHit, openFind} from "./studio_find.js";
import {regionFault, setBar} from "./studio_found.js";
import {isStill, judge, judgeSoon} from "./studio_judge.js";
import {keep, keepSoon, kept} from "./studio_kept.js";
import {setContent, textLength, wholeText} from "./studio_lines.js";
import {markBeat} from "./studio_music.js";
import {closeOffer} from "./studio_offer.js";
import {drawPaper} from "./studio_paper.js";
import {leaveThrough} from "./studio_through.js";
import {leaveTool} from "./studio_tools.js";
import {endFilm} from "./studio_video.js";
import {set, state} from "./state.js";

export const LONG = 200000;  // letters of a long text
let saves = 0;  // texts that were saved from here
let markedLines = 1;  // how many lines there were when lines were marked
let saving = false, saveAgain = false;
const savedStamps = new Set();  // of what was saved from here: that the file has it isn't another program's change

// ---- after a change

// Marks of lines: the fault, the acts of two that are blocked, all lines of a drone that was clicked.
export function markLines() {
  set({marked: new Map()});
  markedLines = state.lines.length;
  const fault = state.found.verdict && state.found.verdict.fault;
  for (const number of pickedLines()) state.marked.set(number, {kind: "own"});
  for (const number of state.mark ? state.mark.lines : []) state.marked.set(number, {kind: "pair"});
  for (const number of regionFault() ? regionFault().lines : []) state.marked.set(number, {kind: "pair"});
  if (fault) state.marked.set(fault.line, {kind: "fault", say: fault.word === "marker" ? "a marker line" : fault.word});
  drawPaper();
}
// Nothing that is known of an older text is taken for this one from here on.
function newVersion() {
  leaveTool();
  closeOffer();
  endFilm(false);
  leaveThrough();
  set({version: state.version + 1});
  if (state.asking) state.asking.abort();
  byId("verdict").classList.add("old");
  byId("flight").classList.toggle("old", state.flight !== null);
}
export function afterChange() {
  set({typedAt: performance.now()});
  set({ghosts: new Map()});
  newVersion();
  if (state.lines.length !== markedLines) set({marked: new Map()});  // they would stand at other lines
  drawPaper();
  keepSoon();
  showState();
  findSoon();
  judgeSoon();
}
const STEP = 100;  // milliseconds by which an arrow moves the slider; ten times as many with Shift
// What takes keys itself: with the focus there Space and the arrows have another meaning.
const TAKES_KEYS = "textarea, select, button, summary, input:not([type=range])";
const WRITES = "textarea, select, #menu, #tools, input:not([type=range], [type=checkbox])";
// Which drones a key chooses: Ctrl-A outside of the text all, Escape none.
function choosingOfKey(event) {
  const isAll = (event.ctrlKey || event.metaKey) && event.key.toLowerCase() === "a";
  if (!state.flight || !isAll && event.key !== "Escape" || event.altKey || byId("offer").open) return null;
  if (event.target.closest && event.target.closest(WRITES)) return null;
  return () => pickDrones(isAll ? state.flight.names.map((_, k) => k) : []);
}
// What a key does to the flight, or null: Space plays and stops, the arrows step; Ctrl-Enter plays from the text, too.
function flyingOfKey(event) {
  const {key, shiftKey} = event, command = event.ctrlKey || event.metaKey, by = shiftKey ? 10 * STEP : STEP;
  if (!state.flight || isStill() || event.altKey || byId("offer").matches(":modal")) return null;
  if (command) return key === "Enter" ? playOrStop : null;
  if (event.target.closest && event.target.closest(TAKES_KEYS)) return null;
  const ends = [0, ...state.flight.cues.map((_, k) => endOfCue(k))];
  if (key === "ArrowUp") return () => { stop(); move(ends.reverse().find(ms => ms < state.now - 1) ?? 0); };
  if (key === "ArrowDown") return () => { stop(); move(ends.find(ms => ms > state.now + 1) ?? state.flight.end); };
  const step = {ArrowLeft: -by, ArrowRight: by, Home: -Infinity, End: Infinity}[key];
  if (step) return () => { stop(); move(state.now + step); };
  if (key.toLowerCase() === "b") return markBeat;
  return key === " " ? playOrStop : null;
}
// Undo reaches the text also from the flight, in which a cue can be dragged.
function undoOfKey(event) {
  const low = event.key.toLowerCase();
  if (given.watch || !(event.ctrlKey || event.metaKey) || event.altKey || byId("offer").matches(":modal")) return null;
  if (event.target === field || event.target.closest && event.target.closest("input:not([type=range])")) return null;
  return low === "z" ? event.shiftKey ? redo : undo : low === "y" && !isMac ? redo : null;
}
export function onKey(event) {
  const command = event.ctrlKey || event.metaKey, isHere = event.target.closest && event.target.closest("#editor");
  const work = placingOfKey(event) || choosingOfKey(event) || flyingOfKey(event) || undoOfKey(event);
  if (work) {
    event.preventDefault();
    work();
  } else if (command && event.key === "s") {
    event.preventDefault();
    save(false);
  } else if (isHere && command && event.key === "f") {
    event.preventDefault();
    openFind();
  } else if (isHere && (event.key === "F3" || command && event.key === "g")) {
    event.preventDefault();
    goHit(event.shiftKey);
  } else if (event.target === field && event.ctrlKey && event.key === " ") {
    event.preventDefault();
    openMenu();
  }
}

// ---- saving it

export const isAsFile = () => textLength() === state.file.text.length && wholeText() === state.file.text;
export const dirty = () => !given.watch && state.file !== null && (!isAsFile() || state.file.new);
export function showState() {
  const words = given.watch ? "follows the file" : !state.file ? "" : state.file.new ? "not written yet" :
    dirty() ? "changed, not saved" : "saved";
  byId("state").textContent = words;
  byId("save").disabled = !dirty();
  [byId("undo").disabled, byId("redo").disabled] = [!state.steps.length, !state.stepsBack.length];
  document.title = `${dirty() ? "• " : ""}${given.name} · studio`;
  const verdict = state.found.verdict, status = verdict ? verdict.status : -1;
  byId("cure").disabled = status !== 4 && status !== 5;
  byId("deal").disabled = ![0, 4, 5].includes(status) || state.formLines === 0;
  for (const it of [byId("fly"), byId("compile"), byId("certify")]) it.disabled = status !== 0 || !verdict.program;
}
// A line above the page, with buttons for what can be done.
export function tell(words, ...choices) {
  const told = byId("told");
  told.replaceChildren();
  told.hidden = !words;
  element("span", words, told);
  for (const [word, work] of choices) {
    element("button", word, told).onclick = () => { tell(""); work(); };
  }
  if (words && !choices.length) element("button", "OK", told).onclick = () => tell("");
}
export function post(path, more, signal) {
  return fetch(path, {method: "POST", signal, body: JSON.stringify({text: wholeText(), ...more})});
}
// Saves one text after the other: while one is on its way the next waits, since it has to know the stamp of the first.
export async function save(force) {
  if (given.watch || !state.file) return;
  if (saving) {
    saveAgain = true;
    return;
  }
  saving = true;
  await saveOnce(force);
  saving = false;
  if (saveAgain) {
    saveAgain = false;
    if (dirty()) save(false);
  }
}
async function saveOnce(force) {
  const text = wholeText();
  try {
    const answer = await post("save", {stamp: state.file.stamp, ends: state.file.ends, force, text});
    const said = await answer.json();
    if (answer.status === 409) return conflict();
    if (!answer.ok) return tell(`Not saved: ${said.words}. The text stays in this browser.`);
    savedStamps.add(said.stamp);
    saves++;
    Object.assign(state.file, {text, stamp: said.stamp, new: false});
    tell("");
  } catch (error) {
    tell("Not saved: the studio doesn't answer. The text stays in this browser.");
  }
  keep();
  showState();
}
function conflict() {
  tell("The file was changed by another program since it was read here.",
    [`Save this text, and keep the other one as ${given.name}~`, () => save(true)], ["Take the other text", takeFile]);
}
async function takeFile() {
  const answer = await fetch("text"), read = await answer.json();
  if (!answer.ok) return tell(`The file can't be read: ${read.words}`);
  Object.assign(state.file, read);
  replaceText(read.text);
  keep();
  showState();
}
// Takes a text that nobody typed: there is nothing to undo.
function takeText(text) {
  setContent(text);
  hold(...windowAt(...linesInView()));
  afterChange();
}
export async function begin() {
  byId("title").textContent = given.name;
  if (given.watch) return;
  const answer = await fetch("text"), read = await answer.json();
  if (!answer.ok) return tell(`The file can't be read: ${read.words}`);
  set({file: read});
  const before = kept();
  takeText(before && before.text !== state.file.text ? before.text : state.file.text);
  if (before && before.text !== state.file.text) {
    tell(`This text wasn't saved. The browser kept it on ${new Date(before.at).toLocaleString()}.`,
      ["Keep it", () => {}], ["Take the text of the file", () => replaceText(state.file.text)]);
  } else if (state.file.new) {
    tell(`There is no file ${given.name} yet. This is a template, and Save writes it.`);
  } else if (state.file.mixed) {
    tell("Some lines of the file end with a carriage return. Saved from here, all lines end with a line feed alone.");
  }
}
// What the server says of the file, as long as the page is seen. A browser has few connections for all tabs of a studio
// together, so a tab that isn't seen leaves its own, and asks anew once it is.
let events = null, lost = false;
export function listen() {
  if (document.hidden) {
    if (events) events.close();
    events = null;
    return;
  }
  if (events) return;
  events = new EventSource("events");
  events.onmessage = event => {
    const said = JSON.parse(event.data);
    if (given.watch) return follow(said);
    const count = saves;
    // It may be the text that is being saved, or the one before: over another program's text no save goes well.
    setTimeout(() => count === saves && warn(said), 500);
  };
  events.onerror = onLost;
  events.onopen = () => {
    if (lost && (state.file || given.watch)) judge();
    lost = false;
    sayWhere();
  };
}
const AGAIN = 5000;  // milliseconds until a page asks once more, where too many listen
async function onLost() {
  const isRefused = events.readyState === EventSource.CLOSED;
  const asked = isRefused ? await fetch("text").catch(() => null) : null;
  if (asked && asked.status !== 403) {  // this studio is there, and has too many pages
    events = null;
    setTimeout(listen, AGAIN);
    return;
  }
  lost = true;
  newVersion();
  if (isRefused) {
    setBar("", "The studio was started again", "this page goes on once its new address is open in this browser");
  } else {
    setBar("", "The studio has ended", [given.watch ? "" : "the text stays in this browser",
      "start the studio again, and this page goes on"]);
  }
  askWhere();
}
function warn(said) {
  if (state.file && !said.there && !state.file.new && !saving) {
    Object.assign(state.file, {new: true, stamp: said.stamp, gone: state.file.stamp});
    showState();
    return tell("The file isn't there any more. Save writes it anew.");
  }
  if (state.file && said.there && state.file.new && said.stamp === state.file.gone) {  // it was only away for a moment
    Object.assign(state.file, {new: false, stamp: said.stamp});
    showState();
    return tell("");
  }
  if (!state.file || saving || !said.there) return null;
  if (said.stamp === state.file.stamp || savedStamps.has(said.stamp)) return null;
  tell("The file was changed by another program.", ["Take its text", takeFile], ["Keep this text", () => {}]);
  return null;
}
function follow(said) {
  if (!said.there) return setBar("", "No file yet", `waiting for ${given.name}`);
  setContent(said.text);
  newVersion();
  showState();
  judge();
}
