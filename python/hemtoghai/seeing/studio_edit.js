// Writing without counting micrometres in ./show studio: the number under the cursor in metres or seconds, new drones,
// cues and acts with the numbers of where each drone is, cues that are dragged longer or shorter, and a drone's lines.
// A number is kept whole, in the unit of `choreo 1`, and written in the form of the text.

import {byId, element} from "./elements.js";
import {cueAt} from "./flight.js";
import {given} from "./given.js";
import {press} from "./player.js";
import {ABOVE, cursorLine, field, LEFT, LINE, redo, scrollToLines, select, selectionFrom, undo, writeAside,
  writeText} from "./studio_field.js";
import {readStages} from "./studio_judge.js";
import {draw} from "./studio_layout.js";
import {offsetOf, textBetween, textLength} from "./studio_lines.js";
import {quantityOf, quantityWord} from "./studio_quantities.js";
import {markLines, post, tell} from "./studio_text.js";
import {renewTool} from "./studio_tools.js";
import {set, state} from "./state.js";

// By the unit of a whole number: how many of it are one of the unit that is shown, its name, and a step.
const UNITS = {um: [1000000, "m", 100000], mm: [1000, "m", 10], ms: [1000, "s", 100], deg10: [10, "°", 100]};
export const MOST_SHOWN = 999999999;

// ---- the number under the cursor

let target = null;  // that number: from and to in the text, its line, its place among the words, unit, name, value
export const wordsOf = line => [...line.replace(/#.*/, "").matchAll(/\S+/g)].map(it => ({at: it.index, text: it[0]}));
// A whole number as a word of the text, and the whole number that a word of it is, or null.
export const numberWord = (unit, value) => state.textForm === 2 ? quantityWord(unit, value) : `${value}`;
const numberOf = (unit, word) => state.textForm === 2 ? quantityOf(unit, word) :
  state.textForm === 1 && /^-?[0-9]{1,9}$/.test(word) ? Number(word) : null;
// What the words of a line after its first ones are, with the name of the drone, or null.
export function slotsOf(words) {
  const {acts, lines: kinds} = given.language;
  if (words.length > 1 && Object.hasOwn(acts, words[1].text)) {
    return {slots: acts[words[1].text], first: 2, name: words[0].text};
  }
  if (!words.length || !Object.hasOwn(kinds, words[0].text)) return null;
  const named = ["drone", "at"].includes(words[0].text) && words[1];
  return {slots: kinds[words[0].text], first: 1, name: named ? words[1].text : words[0].text};
}
// The number that stands at an offset of a line, or null.
export function numberAt(line, column) {
  const words = wordsOf(state.lines[line - 1] || ""), row = slotsOf(words);
  const place = words.findIndex(word => word.at <= column && column <= word.at + word.text.length);
  if (!row || place < row.first) return null;
  const slot = row.slots[place - row.first], text = words[place].text;
  const value = Array.isArray(slot) && UNITS[slot[1]] ? numberOf(slot[1], text) : null;
  if (value === null || Math.abs(value) > MOST_SHOWN) return null;
  const from = offsetOf(line) + words[place].at;
  const named = `${slot[0]} of ${row.name}`;
  return {from, to: from + text.length, text, unit: slot[1], line, place, named, value};
}
const asShown = (value, unit) => {
  const [factor] = UNITS[unit], digits = Math.round(Math.log10(factor));
  return (value / factor).toFixed(digits).replace(/\.?0+$/, "") || "0";
};
// Shows the number of the cursor. While somebody writes into the field itself its letters stay: on the way to -0.5 they
// are -0, which isn't 0.
export function showNumber(force) {
  const input = byId("number-value");
  if ((state.isWriting || document.activeElement === input) && !force) return;
  const line = cursorLine();
  target = given.watch ? null : numberAt(line, selectionFrom() - offsetOf(line));
  byId("number").hidden = target === null;
  if (!target) return;
  byId("number").firstElementChild.textContent = target.named;
  byId("number").lastElementChild.textContent = UNITS[target.unit][1];
  input.value = asShown(target.value, target.unit);
  sayNumber(true);
}
// Writes a number of the field into the text, where the text still has the one that is shown; whether it was written.
function writeNumber(value) {
  if (!target || !Number.isFinite(value) || Math.abs(value) > MOST_SHOWN) return false;
  const text = value === target.value ? target.text : numberWord(target.unit, value);
  if (textBetween(target.from, target.to) !== target.text) return false;
  if (text !== target.text) {
    set({isWriting: true});
    writeAside(target.from, target.to, text, true);
    target = {...target, to: target.from + text.length, text, value};
    set({isWriting: false});
  }
  return true;
}
// The number of the field in whole numbers, or NaN. It may have its unit.
function numberOfField() {
  const words = byId("number-value").value.trim().replace(",", ".");
  if (/[a-z]$/.test(words)) return quantityOf(target.unit, words) ?? NaN;
  return /^-?([0-9]+\.?[0-9]*|\.[0-9]+)$/.test(words) ? Math.round(Number(words) * UNITS[target.unit][0]) : NaN;
}
export function onNumber() {
  if (target) sayNumber(writeNumber(numberOfField()));
}
// Says whether the field has a number for its place.
function sayNumber(isOne) {
  byId("number-value").setCustomValidity(isOne ? "" : "no number");
  byId("no-number").textContent = isOne ? "" : "no number";
}
export function onNumberKey(event) {
  isWaiting = false;
  const step = {ArrowUp: 1, ArrowDown: -1}[event.key];
  if (event.key === "Escape") {
    event.preventDefault();
    field.focus({preventScroll: true});
  } else if ((event.ctrlKey || event.metaKey) && event.key.toLowerCase() === "z") {
    event.preventDefault();  // of the text, whose number this is
    field.focus({preventScroll: true});
    if (event.shiftKey) redo(); else undo();
  } else if (event.key === "Enter") {
    event.preventDefault();
    onNumber();
    nextNumber();
  } else if (step && target) {
    event.preventDefault();
    const value = target.value + step * UNITS[target.unit][2] / (event.shiftKey ? 10 : 1);
    if (writeNumber(Math.round(value))) byId("number-value").value = asShown(target.value, target.unit);
  }
}
let isWaiting = false;  // whether the field has the keys and waits for a number: nobody came to it by the mouse
// The number can be written over at once, in metres or seconds.
export function selectNumber() {
  byId("number-value").focus();
  byId("number-value").select();
  isWaiting = true;
}
// The first click takes the whole number, also where the field waits for one; the next puts the cursor into it.
export function onNumberDown(event) {
  if (document.activeElement === event.target && !isWaiting) return;
  event.preventDefault();
  selectNumber();
  isWaiting = false;
}
// Goes to the next number of the line, and after the last one back to the text.
function nextNumber() {
  const words = wordsOf(state.lines[target.line - 1] || "");
  for (let place = target.place + 1; place < words.length; place += 1) {
    const next = numberAt(target.line, words[place].at);
    if (!next) continue;
    select(next.from, next.to);
    showNumber(true);
    return selectNumber();
  }
  select(target.to, target.to);
  return field.focus({preventScroll: true});
}

// ---- the menu

// Before which line it writes, or in place of it, of which text, and the blanks before the words there.
let menuLine = 0, menuReplaces = false, menuVersion = 0, menuIndent = "";
let actKind = "move";  // the act that the menu wrote last, with the sense of a quarter circle
const ACT_WORDS = {hold: "stay", line: "straight, at one speed", move: "straight, rest to rest", turn: "on the spot",
  curve: "by three points", arc: "quarter circle, at one speed", swing: "quarter circle, rest to rest",
  arc_in: "quarter circle, from rest", arc_out: "quarter circle, to rest"};
// Something new is written in place of the cursor's line where that is empty, before it where the cursor is at its
// beginning, else after it; and never before the first line with words, which says that this is a show.
function chooseLine() {
  const line = cursorLine(), column = selectionFrom() - offsetOf(line);
  const header = state.lines.findIndex(text => text.replace(/#.*/, "").trim()) + 1;
  menuReplaces = line > header && !state.lines[line - 1].trim();
  menuLine = Math.max(header + 1, menuReplaces || column === 0 ? line : line + 1);
  menuVersion = state.version;
}
export async function openMenu() {
  if (given.watch || !state.file) return;
  chooseLine();
  placeMenu();
  byId("menu").replaceChildren(element("p", "Looking where the drones are"));
  byId("menu").hidden = false;
  byId("insert").setAttribute("aria-expanded", "true");
  try {
    const answer = await post("places", {line: menuLine});
    if (!answer.ok) throw new Error(await answer.text());
    let places = null;
    await readStages(answer, stage => { if (stage.stage === "places") places = stage; }, () => false);
    if (menuVersion === state.version && places && !byId("menu").hidden) fillMenu(places);
    else closeMenu(false);
  } catch (error) {
    closeMenu(false);
    tell("The studio doesn't answer.");
  }
}
// Puts the menu below the line of the cursor, or above it where there is more room.
function placeMenu() {
  const line = cursorLine();
  scrollToLines(line, line);
  const menu = byId("menu"), below = ABOVE + LINE * line - state.viewTop, high = state.viewHeight;
  menu.style.left = `${LEFT + 12}px`;
  const above = below > high / 2;
  menu.style.top = above ? "auto" : `${Math.max(4, below + 2)}px`;
  menu.style.bottom = above ? `${Math.max(4, byId("editor").clientHeight - below + LINE + 2)}px` : "auto";
  menu.style.maxHeight = `${Math.max(120, above ? below - LINE - 10 : high - below - 8)}px`;
}
export function closeMenu(back) {
  byId("menu").hidden = true;
  byId("insert").setAttribute("aria-expanded", "false");
  if (back) field.focus({preventScroll: true});
}
function menuButton(words, work) {
  const button = element("button", words, byId("menu"));
  button.type = "button";
  button.onclick = () => {
    closeMenu(true);
    if (menuVersion !== state.version) return;
    if (isBare()) writeHeader();
    work();
  };
}
// Whether no line has words; then the first one says first which form of the language this is.
const isBare = () => state.lines.every(line => !line.replace(/#.*/, "").trim());
function writeHeader() {
  const end = textLength(), gap = end && state.lines[state.lines.length - 1] ? "\n" : "";
  writeText(end, end, `${gap}choreo 2\n`);
  [menuLine, menuReplaces, menuVersion] = [state.lines.length, true, state.version];
}
export function onMenuKey(event) {
  const step = {ArrowDown: 1, ArrowUp: -1}[event.key];
  if (event.key === "Escape") {
    event.stopPropagation();
    closeMenu(true);
  } else if (step && event.target.tagName === "BUTTON") {
    event.preventDefault();
    const buttons = [...byId("menu").querySelectorAll("button")];
    const at = buttons.findIndex(it => it === document.activeElement);
    buttons[(at + step + buttons.length) % buttons.length].focus();
  }
}
function fillMenu(places) {
  const menu = byId("menu"), inCue = places.where === "cue";
  const free = places.drones.filter(row => !places.acted.includes(row[0]));
  const beside = state.lines[menuLine - 1] || state.lines[menuLine - 2] || "";
  menuIndent = places.where === "top" ? "" : beside.match(/^\s*/)[0];
  menu.replaceChildren();
  if (!places.exact && !isBare()) {
    element("p", "The text before this line isn't right yet: the numbers are those of the starts.", menu);
  }
  if (inCue || ["top", "repeat", "figure"].includes(places.where)) addActChoice(menu, places);
  if (inCue) fillActs(places, free);
  else if (places.where === "formation") fillPlaces(free);
  else fillBlocks(places);
  const first = menu.querySelector("button");
  if (first) first.focus();
  else element("p", "Each drone has a line here already.", menu);
}
function addActChoice(menu, places) {
  const label = element("label", "act ", menu), choice = element("select", "", label);
  for (const [act, slots] of Object.entries(given.language.acts)) {
    const sense = slots.find(isSense);
    for (const kind of sense ? sense.map(it => `${act} ${it}`) : [act]) {
      const option = element("option", ACT_WORDS[act] ? `${kind}: ${ACT_WORDS[act]}` : kind, choice);
      option.value = kind;
      option.selected = kind === actKind;
    }
  }
  choice.onchange = () => {
    actKind = choice.value;
    fillMenu(places);
    menu.querySelector("select").focus();
  };
}
const isSense = slot => Array.isArray(slot) && slot.includes("ccw");
// What moves many stands first: a list of 32 drones is longer than the menu.
function fillActs(places, free) {
  const middle = middleOf(places.drones);
  if (free.length > 1) {
    menuButton(`all ${free.length}`, () => insert(free.map(row => actLine(row, middle)).join("\n")));
  }
  if (!places.in_figure) {
    for (const name of places.formations) menuButton(`form ${name}`, () => insert(`form ${name} move`));
  }
  for (const row of free) menuButton(row[0], () => insert(actLine(row, middle)));
}
function fillPlaces(free) {
  if (free.length > 1) {
    menuButton(`places of all ${free.length}`, () => insert(free.map(row => placeLine("at", row)).join("\n")));
  }
  for (const row of free) menuButton(`place of ${row[0]}`, () => insert(placeLine("at", row)));
}
// A line of a name with a place and a yaw.
export function placeLine(word, /** @type {any[]} */ [name, x, y, z, yaw]) {
  return [word, name, ...[x, y, z].map(it => numberWord("um", it)), numberWord("deg10", yaw)].join(" ");
}
function fillBlocks(places) {
  const middle = middleOf(places.drones), all = places.drones;
  const cue = body => insertBlock(`cue ${numberWord("ms", 3000)}\n${body}end`);
  if (all.length) {
    menuButton(`cue of 3 s with a line of each ${places.in_figure ? "role" : "drone"}: ${actKind}`,
      () => cue(all.map(row => `${actLine(row, middle)}\n`).join("")));
  }
  menuButton("cue of 3 s without a line", () => cue(""));
  if (places.where !== "top") return;
  menuButton("drone", () => insert(droneLine(all)));
  if (!all.length) return;
  const name = freeName("place", [...places.formations, ...places.figures]);
  const rows = all.map(row => `${placeLine("at", row)}\n`).join("");
  menuButton("formation with all drones where they are", () => insertBlock(`formation ${name}\n${rows}end`));
}
// The middle of all drones, in whole millimetres, for acts around a centre.
function middleOf(rows) {
  const mean = k => rows.reduce((sum, row) => sum + row[k], 0) / Math.max(1, rows.length);
  return [1, 2].map(k => 1000 * Math.round(mean(k) / 1000));
}
// A line with an act of a drone that leaves it where it is, or turns it by a quarter around the middle.
function actLine(/** @type {any[]} */ [name, x, y, z, yaw], /** @type {number[]} */ [cx, cy]) {
  const [act, sense] = actKind.split(" ");
  const own = {x, y, z, "centre x": cx, "centre y": cy, yaw: act === "turn" ? yaw + 900 : yaw};
  const numbers = given.language.acts[act].map(slot => {
    if (slot === "name") return name;
    if (isSense(slot)) return sense;
    return UNITS[slot[1]] ? numberWord(slot[1], own[slot[0]] ?? own[slot[0][0]] ?? 0) : slot[0];
  });
  return [name, act, ...numbers].join(" ");
}
// A new drone half a metre beside the others, at the height of the last one.
function droneLine(rows) {
  const names = rows.map(row => row[0]), last = rows[rows.length - 1] || ["", -500000, 0, 1000000, 0];
  const x = Math.max(...rows.map(row => row[1]), last[1]) + 500000;
  return placeLine("drone", [nextName(names), x, ...last.slice(2)]);
}
export function nextName(names) {
  const letters = [..."abcdefghijklmnopqrstuvwxyz"], last = names[names.length - 1] || "";
  if (names.every(name => /^[a-z]$/.test(name))) {
    const free = letters.filter(letter => !names.includes(letter));
    if (free.length) return free.find(letter => letter > last) || free[0];
  }
  const number = Number((last.match(/[0-9]+$/) || ["0"])[0]);
  return freeName(last.replace(/[0-9]+$/, "").slice(0, 12) || "d", names, number + 1);
}
function freeName(front, names, from = 1) {
  let number = from;
  while (names.includes(`${front}${number}`)) number += 1;
  return `${front}${number}`;
}
// Writes lines at the menu's line, and selects their first number.
function insert(words) {
  const isAfterLast = menuLine > state.lines.length;
  const block = words.split("\n").map(line => line && menuIndent + line).join("\n");
  const from = isAfterLast ? textLength() : offsetOf(menuLine);
  if (isAfterLast) writeText(from, from, `\n${block}`);
  else if (!menuReplaces) writeText(from, from, `${block}\n`);
  else writeText(from, from + state.lines[menuLine - 1].length, menuLine === state.lines.length ? `${block}\n` : block);
  const last = menuLine + words.split("\n").length - 1, number = firstNumber(menuLine, last);
  const end = offsetOf(menuLine) + state.lines[menuLine - 1].length;
  scrollToLines(menuLine, last);
  select(number ? number.from : end, number ? number.to : end);
  showNumber(true);
  if (number) selectNumber();
}
// A block at top stands apart from the one above it.
function insertBlock(words) {
  const above = menuLine > 1 ? state.lines[menuLine - 2] : "";
  insert(above.trim() && !menuIndent ? `\n${words}` : words);
}
function firstNumber(first, last) {
  for (let k = first; k <= last; k += 1) {
    for (const word of wordsOf(state.lines[k - 1] || "")) {
      const number = numberAt(k, word.at);
      if (number) return number;
    }
  }
  return null;
}

// ---- a cue that is dragged longer or shorter

// Writes the length of a cue into the text, where the flight that is drawn is that of the text.
export function stretchCue(cue, milliseconds) {
  if (given.watch || state.flightVersion !== state.version || !state.flight.lines) return;
  const line = state.flight.lines[cue][0][0], words = wordsOf(state.lines[line - 1] || "");
  if (words.length < 2 || words[0].text !== "cue") return;
  const number = numberAt(line, words[1].at), length = Math.max(1, Math.min(65535, Math.round(milliseconds)));
  if (!number || length === number.value) return;
  const value = numberWord("ms", length);
  writeAside(number.from, number.to, value);
  scrollToLines(line, line);
  select(number.from, number.from);
  showNumber(true);
}

// ---- the lines of a drone

let picked = null;  // the name of the drone that was clicked in space
// All lines of that drone: where it is declared, where formations place it, its acts.
export function pickedLines() {
  const isDrawn = state.flight && picked !== null && state.flightVersion === state.version;
  const k = isDrawn ? state.flight.names.indexOf(picked) : -1;
  if (k < 0 || !state.found.lines) return [];
  return new Set([state.found.lines.drones[k], ...state.found.lines.acts[k]].filter(Boolean));
}
// Marks the lines of a drone, and shows the one that it flies at this instant; null takes the marks away. With others
// it is chosen beside those that are.
export function pickDrone(k, withOthers) {
  const others = withOthers ? [...state.chosen].filter(it => it !== k) : [];
  const wasChosen = withOthers && state.chosen.has(k);
  picked = k === null || wasChosen ? null : state.flight.names[k];
  set({chosen: new Set(k === null || wasChosen ? others : [...others, k]), isChosenByMark: false});
  press();
  draw();
  renewTool();
  markLines();
  if (k === null || !state.found.lines || state.flightVersion !== state.version) return;
  const line = state.found.lines.acts[k][cueAt(state.now)] || state.found.lines.drones[k];
  if (!given.watch) scrollToLines(line, line);
}
// Chooses these drones, and no others.
export function pickDrones(drones) {
  pickDrone(null, false);
  set({chosen: new Set(drones)});
  press();
  draw();
  renewTool();
}
