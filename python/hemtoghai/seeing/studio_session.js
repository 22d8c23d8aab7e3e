// What stays of ./show studio over a reload of its tab: playhead, view, what the charts show, the chosen drones, and as
// long as the text is the same the cursor and undo. The browser keeps it for the tab.

import {byId} from "./elements.js";
import {given} from "./given.js";
import {LONG} from "./studio_text.js";
import {takeSteps, textLength, wholeText} from "./studio_lines.js";
import {cursorLine, scrollToLines, select} from "./studio_field.js";
import {showLanes} from "./studio_timeline.js";
import {set, state} from "./state.js";

const PART = "studio part", nameOf = () => `${state.file ? state.file.key : given.name} page`;
const VIEW = /** @type {const} */ (
  ["now", "turn", "tilt", "zoom", "aside", "timeZoom", "timeFrom", "chartKind", "farIn"]);

export function keepSession() {
  if (!state.flight) return;
  const view = Object.fromEntries(VIEW.map(key => [key, state[key]])), isShort = textLength() <= LONG;
  const kept = {view, names: [...state.chosen].map(k => state.flight.names[k]), speed: byId("speed").value,
    loop: byId("loop").checked, lanes: !byId("lanes").hidden};
  const {anchor, head, steps, stepsBack} = state;
  try {
    sessionStorage.setItem(nameOf(), JSON.stringify(kept));  // where there is no room for undo
    const all = {...kept, text: isShort && wholeText(), anchor, head, steps, stepsBack};
    if (isShort) sessionStorage.setItem(nameOf(), JSON.stringify(all));
  } catch (error) { /* no room */ }
}
// Takes what was kept, before the first flight is there.
export function takeSession() {
  let kept = null;
  try {
    kept = JSON.parse(sessionStorage.getItem(nameOf()));
  } catch (error) { /* none */ }
  if (!kept || !kept.view) return;
  set(Object.fromEntries(VIEW.filter(key => key in kept.view).map(key => [key, kept.view[key]])));
  set({wantedNames: kept.names || [], isRestored: true});
  [byId("speed").value, byId("loop").checked] = [kept.speed, kept.loop];
  [byId("chart-kind").value, byId("far-in").value] = [state.chartKind, state.farIn];
  if (kept.lanes) showLanes(true);
  if (typeof kept.text !== "string" || kept.text !== wholeText()) return;
  takeSteps(kept.steps, kept.stepsBack);
  select(kept.anchor, kept.head);
  const line = cursorLine();
  scrollToLines(line, line);
}

// ---- how wide the text is

const LEAST = 20, MOST = 75, STEP = 2;  // percent of the window
function setPart(percent) {
  const part = Math.round(10 * Math.max(LEAST, Math.min(MOST, percent))) / 10, splitter = byId("splitter");
  document.documentElement.style.setProperty("--part", `${part}%`);
  splitter.setAttribute("aria-valuenow", `${Math.round(part)}`);
  try {
    localStorage.setItem(PART, `${part}`);
  } catch (error) { /* no room */ }
  dispatchEvent(new Event("resize"));
}
export function bindSplitter() {
  const splitter = byId("splitter"), main = /** @type {HTMLElement} */ (splitter.parentElement);
  const here = () => 100 * /** @type {Element} */ (main.firstElementChild).clientWidth / main.clientWidth;
  splitter.onpointerdown = event => splitter.setPointerCapture(event.pointerId);
  splitter.onpointermove = event => {
    if (event.buttons) setPart(100 * (event.clientX - main.getBoundingClientRect().left) / main.clientWidth);
  };
  splitter.onkeydown = event => {
    const by = {ArrowLeft: -STEP, ArrowRight: STEP}[event.key];
    if (!by) return;
    event.preventDefault();
    event.stopPropagation();
    setPart(here() + by);
  };
  splitter.ondblclick = () => {
    document.documentElement.style.removeProperty("--part");
    localStorage.removeItem(PART);
    dispatchEvent(new Event("resize"));
  };
  const kept = Number(localStorage.getItem(PART));
  if (kept) setPart(kept);
}
