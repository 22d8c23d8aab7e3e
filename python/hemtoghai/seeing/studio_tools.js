// Formation tools of ./show studio: the chosen drones, or all of them, are put on a ring, raised, turned and so on at
// the end of the cue under the playhead, or in a new cue behind it. What that flies is drawn as a ghost first; taken,
// it is one change of the text.

import {byId, element} from "./elements.js";
import {cueAt} from "./flight.js";
import {besideOf, TOOLS} from "./formations.js";
import {given} from "./given.js";
import {press} from "./player.js";
import {pointAt, writeAside} from "./studio_field.js";
import {isStill} from "./studio_judge.js";
import {copiesOf, cueEnding, endOf, isTooFar, joined, newCue, removalsOf, spotOf,
  textWith} from "./studio_placing.js";
import {leavePreview, showPreview} from "./studio_preview.js";
import {set, state} from "./state.js";

/** @typedef {import("./studio_placing.js").Edit} Edit */

const NAMES = {raise: "Raise", move: "Move", "mirror x": "Mirror ↔", "mirror y": "Mirror ↕", turn: "Turn",
  scale: "Scale", ring: "Ring", grid: "Grid", line: "Line", duplicate: "Duplicate", remove: "Remove"};
const WORDS = {"mirror x": "mirror left and right", "mirror y": "mirror front and back",
  duplicate: "new drones beside them, that fly the same",
  remove: "take the chosen drones out of the text, with their acts and places"};
const OF_TEXT = ["duplicate", "remove"];  // tools that put no drone elsewhere
const FACTOR = {m: 1000, "°": 1, "%": 1};  // of what a field shows in the number that it stands for
const PAUSE = 80;  // milliseconds from a number to its preview
// The tool that is open: its name, at the end of which cue it works, its fields, whether it writes a new cue, and the
// changes that it would make.
let open = null, waiting = null, wantsNew = false;  // a new cue stays wanted for the next tool

// The drones that a tool works on: those that are chosen, or all.
const worked = () => state.chosen.size ? [...state.chosen].sort((a, b) => a - b) : state.flight.names.map((_, k) => k);
// The cue at whose end drones are put elsewhere: that which ends at the playhead, or in which it is.
const cueOfTool = () => isStill() ? -1 : cueEnding() ?? cueAt(state.now);

export function bindTools() {
  byId("form").hidden = given.watch;
  byId("form").onclick = () => byId("tools").hidden ? openTools() : closeTools();
  byId("tools").addEventListener("keydown", event => {
    if (event.key === "Escape") leaveTool();
    else if (event.key === "Enter" && /** @type {Element} */ (event.target).matches("input")) takeTool();
    else return;
    event.preventDefault();
    event.stopPropagation();
  });
}
function openTools() {
  showTools(true);
  const row = byId("tools-kinds");
  row.replaceChildren();
  for (const name in NAMES) {
    const button = element("button", NAMES[name], row);
    if (WORDS[name]) Object.assign(button, {title: WORDS[name], ariaLabel: WORDS[name]});
    button.onclick = () => openTool(name);
  }
  byId("tools-own").hidden = true;
}
export function closeTools() {
  leaveTool();
  showTools(false);
}
function showTools(isShown) {
  byId("tools").hidden = !isShown;
  for (const word of ["aria-pressed", "aria-expanded"]) byId("form").setAttribute(word, `${isShown}`);
}
function openTool(name) {
  if (!state.flight || state.flightVersion !== state.version) return say("the flight of this text isn't there yet");
  const cue = cueOfTool(), places = worked().map(k => endOf(k, cue).place);
  const copy = [{name: "aside by", unit: "m", value: besideOf(places), step: 100}];
  const fields = name === "duplicate" ? copy : name === "remove" ? [] : TOOLS[name].fields(places);
  open = {name, cue, fields, isNew: wantsNew, edits: null};
  for (const it of byId("tools-kinds").children) it.setAttribute("aria-pressed", `${it.textContent === NAMES[name]}`);
  showFields();
  preview();
  return null;
}
// The numbers of the open tool, each with buttons for a step, and where it writes.
function showFields() {
  const own = byId("tools-fields");
  own.replaceChildren();
  for (const field of open.fields) {
    const label = element("label", `${field.name} `, own), input = element("input", "", label);
    Object.assign(input, {type: "number", step: `${field.step / FACTOR[field.unit]}`, size: 6});
    input.value = `${field.value / FACTOR[field.unit]}`;
    label.append(` ${field.unit}`);
    const take = () => {
      if (Number.isFinite(input.valueAsNumber)) field.value = Math.round(input.valueAsNumber * FACTOR[field.unit]);
      previewSoon();
    };
    input.oninput = take;
    for (const [sign, by] of /** @type {[string, number][]} */ ([["−", -1], ["+", 1]])) {
      const button = element("button", sign, own);
      button.setAttribute("aria-label", `${field.name}: a step ${by < 0 ? "less" : "more"}`);
      button.onclick = () => {
        input.value = `${(field.value + by * field.step) / FACTOR[field.unit]}`;
        take();
      };
    }
  }
  const where = byId("tools-where"), here = open.cue < 0 ? "at the start" : `at the end of cue ${open.cue + 1}`;
  where.hidden = OF_TEXT.includes(open.name);
  where.replaceChildren();
  for (const [words, value] of [[here, ""], ["in a new cue", "new"]]) {
    Object.assign(element("option", words, where), {value, selected: open.isNew === (value === "new")});
  }
  where.onchange = () => {
    open.isNew = wantsNew = where.value === "new";
    preview();
  };
  byId("tools-own").hidden = false;
  byId("tools-take").onclick = takeTool;
  byId("tools-leave").onclick = leaveTool;
}
function say(words) {
  byId("tools-own").hidden = false;
  byId("tools-said").textContent = words;
}
/**
 * The changes of the text that the open tool would make, or words why it can't.
 * @returns {Edit[] | string}
 */
function editsOf() {
  const drones = worked(), {cue, fields} = open, numbers = fields.map(it => it.value), most = given.drones;
  if (!state.found.lines) return "the lines of the drones aren't known yet";
  if (open.name === "duplicate") return copiesOf(drones, numbers[0], most) ?? `a show has at most ${most} drones`;
  if (open.name === "remove") return state.chosen.size ? removalsOf(drones) : "choose the drones first";
  const places = TOOLS[open.name].work(drones.map(k => endOf(k, cue).place), numbers);
  const targets = new Map(drones.map((k, at) => [k, places[at].map(it => 1000 * it)]));
  if ([...targets.values()].some(isTooFar)) return "that is too far away";
  if (open.isNew) return [newCue(cue, targets)];
  const edits = [], left = [];
  for (const [k, place] of targets) {
    const spot = spotOf(k, cue), isMoved = spot && place.some((v, axis) => Math.abs(v - spot.place[axis]) >= 1000);
    if (!spot) left.push(state.flight.names[k]);
    else if (isMoved) edits.push(...spot.edits(place));
  }
  return left.length ? `no place of the text puts ${left.slice(0, 4).join(", ")} there: take a new cue` : edits;
}
function previewSoon() {
  clearTimeout(waiting);
  waiting = setTimeout(preview, PAUSE);
}
async function preview() {
  clearTimeout(waiting);
  if (!open) return;
  const mine = open, edits = editsOf(), drones = worked();
  mine.edits = typeof edits === "string" || !edits.length ? null : edits;
  mine.version = state.version;
  byId("tools-take").toggleAttribute("disabled", !mine.edits);
  if (!mine.edits) {
    leavePreview();
    return say(typeof edits === "string" ? edits : "nothing changes");
  }
  say("working it out");
  const said = await showPreview(textWith(mine.edits), mine.isNew && !OF_TEXT.includes(mine.name) ? mine.cue + 1 : null);
  if (said !== null && mine === open) say(`${drones.length === 1 ? "one drone" : `${drones.length} drones`}: ${said}`);
}
function takeTool() {
  if (!open || !open.edits || open.version !== state.version) return;
  const {from, to, words, line} = joined(open.edits), {name, isNew, cue} = open;
  leaveTool();
  writeAside(from, to, words);
  pointAt(Math.min(line, state.lines.length), Math.min(line, state.lines.length));
  if (isNew && !OF_TEXT.includes(name)) set({goal: {version: state.version, cue: cue + 1}});
  if (!OF_TEXT.includes(name)) return;
  set({chosen: new Set()});  // the next tool works on the copies, too
  press();
}
// Puts the open tool away, with its preview; the tools stay.
export function leaveTool() {
  if (byId("tools-own").hidden) return;
  clearTimeout(waiting);
  open = null;
  leavePreview();
  byId("tools-own").hidden = true;
  for (const it of byId("tools-kinds").children) it.setAttribute("aria-pressed", "false");
}
// Other drones were chosen: the open tool works on them.
export function renewTool() {
  if (open) preview();
}
