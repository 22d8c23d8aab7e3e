// What ./show studio finds: asking for it, and taking it stage by stage.

import {byId} from "./elements.js";
import {endOfCue, setFlight} from "./flight.js";
import {nearestAt, nearestPairs} from "./nearest.js";
import {buildLegend, press, setSlider, stop} from "./player.js";
import {namesOf} from "./studio_cues.js";
import {cursorLine, field, pointAt} from "./studio_field.js";
import {showFound, showVerdict} from "./studio_found.js";
import {draw, drawInParts, onCursor} from "./studio_layout.js";
import {carried, digestOf, runs, textLength, wholeText} from "./studio_lines.js";
import {LONG, markLines, showState} from "./studio_text.js";
import {drawLanes} from "./studio_timeline.js";
import {set, state} from "./state.js";

const PAUSE = 30;  // milliseconds without a key until the text is judged
const HALF = 450;  // milliseconds without a key until a fault is shown of the line that is being typed
export const page = [...crypto.getRandomValues(new Uint32Array(3))].join("-");
let waiting = null;  // the pause before the request

// ---- judging

export function judgeSoon() {
  clearTimeout(waiting);
  waiting = setTimeout(judge, PAUSE);
}
export async function judge() {
  clearTimeout(waiting);
  const mine = state.version;
  if (state.asking) state.asking.abort();
  set({asking: new AbortController()});
  byId("verdict").classList.add("old");
  try {
    const {signal} = state.asking, answer = await sendText(signal) || await sendText(signal);
    if (answer.status === 413) throw new Error("the text is larger than a show may be");
    if (!answer.ok) throw new Error(await answer.text());
    await readStages(answer, async stage => {
      if (stage.stage === "verdict") await checkJudged(stage.digest);
      return mine === state.version && take(stage);
    }, () => mine !== state.version);
  } catch (error) {
    if (error.name === "AbortError" || mine !== state.version) return;
    console.error(error);
    take({stage: "none", words: error instanceof TypeError ? "the studio doesn't answer" : error.message});
  }
}
let sent = 0;  // how many texts were sent to be judged
// Sends the text to be judged: the lines alone that changed, where the studio has an older one. Null where it hasn't.
async function sendText(signal) {
  const number = ++sent, mine = state.version, more = carried();
  const answer = await fetch("judge", {method: "POST", signal, body: JSON.stringify({number, page, ...more})});
  if (answer.status === 410 && "base" in more) {
    set({known: null});
    return null;
  }
  if (answer.ok && mine === state.version) takeAsKnown(number);
  return answer;
}
function takeAsKnown(number) {
  set({known: number});
  runs.judged = null;
}
const CHECK = 1500;  // milliseconds without a key until a long text is compared with the one that was judged
let checking = null;
// A verdict is shown for the text alone that was judged, by its SHA-256. Of a long one that takes some milliseconds, so
// it waits until nobody types; till then its length and its lines are known to be the same.
async function checkJudged(digest) {
  clearTimeout(checking);
  if (textLength() <= LONG) return compareJudged(digest);
  const mine = state.version;
  checking = setTimeout(() => compareJudged(digest).catch(error => {
    if (mine !== state.version) return;
    take({stage: "none", words: error.message});
    judge();
  }), CHECK);
  return null;
}
async function compareJudged(digest) {
  const mine = state.version, own = await digestOf(wholeText());
  if (own === null || own === digest || mine !== state.version) return;
  set({known: null});
  throw new Error("another text was judged than this one");
}
// Long work rests after some milliseconds, so that a key that came meanwhile is taken first.
const SLICE = 8;
export function rest() {
  const {port1, port2} = new MessageChannel();
  return new Promise(go => {
    port1.onmessage = () => { port1.close(); go(); };
    port2.postMessage(0);
  });
}
// Reads the lines of an answer, each as soon as it is there and the one before is done with.
export async function readStages(answer, work, isOver) {
  const reader = answer.body.pipeThrough(new TextDecoderStream()).getReader();
  let begun = [];  // the parts of a line whose end isn't there yet
  for (;;) {
    const {done: isDone, value} = await reader.read();
    if (isDone || isOver()) return;
    const parts = value.split("\n");
    for (const part of parts.slice(0, -1)) {
      const whole = begun.join("") + part;
      begun = [];
      await work(JSON.parse(whole));
      if (isOver()) return;
    }
    begun.push(parts[parts.length - 1]);
  }
}
// Takes what is known of the newest text.
export async function take(stage) {
  if (stage.stage === "stale" || stage.stale) return;
  // A line that is half typed is faulty nearly always: that would be a red flash at each key.
  const left = HALF - (performance.now() - state.typedAt), mine = state.version;
  if (stage.fault && left > 0 && stage.fault.line === cursorLine()) {
    await new Promise(go => setTimeout(go, left));  // what follows waits, too
    if (mine !== state.version) return;
  }
  note(stage);
  const drawn = drawFound(stage);  // nothing is waited for where nothing is drawn: the bar says the verdict at once
  if (drawn) {
    await drawn;
    if (mine !== state.version) return;
  }
  showVerdict();
  showFound();
  showState();
  showAge();
  document.body.dataset.stage = stage.stage;  // for tests
}
function note(stage) {
  if (stage.stage === "verdict") set({found: {verdict: stage}, mark: null});
  else if (stage.stage === "none") set({found: {none: stage}});
  else if (stage.stage === "margin") state.found.margin = {...state.found.margin, [stage.name]: stage};
  else state.found[stage.stage] = stage;
}
// Draws and marks what a stage says of the flight and of lines.
function drawFound(stage) {
  if (stage.stage === "flight") return isKept(stage.flight) ? null : takeFlight(stage.flight);
  if (stage.stage === "marks") return state.flight ? takeMarks(stage) : null;
  const isBroken = stage.stage === "regions" && stage.fault && state.flight;
  if (isBroken) set({broken: stage.fault});
  if (isBroken || stage.stage === "verdict" || stage.stage === "lines") markLines();
  if (stage.stage === "lines") drawLanes();
  return isBroken ? drawInParts() : null;
}
// Whether the older flight stays in place of that of a beginning: while the faulty line is being typed it says more.
function isKept({begun, names}) {
  const older = state.flight;
  return Boolean(begun && begun.line !== null && older && !older.begun && `${older.names}` === `${names}` &&
    document.activeElement === field && begun.line === cursorLine());
}
async function takeFlight(data) {
  const mine = state.version;
  data.nearest = [];
  const least = new Array(data.names.length ** 2).fill([Infinity]);
  for (let s = 0, begun = performance.now(); data.names.length > 1 && s < data.times.length; s += 1) {
    data.nearest.push(nearestAt(data, s, least));
    if (performance.now() - begun < SLICE) continue;
    await rest();
    if (mine !== state.version) return;
    begun = performance.now();
  }
  data.pairs = nearestPairs(least);
  showFlight(data);
  byId("flight").classList.replace("none", "old");  // a narrow page gives the charts no room before
  byId("flight").classList.toggle("still", isStill());
  await drawInParts();
  if (mine === state.version) onCursor();
}
// Puts a flight in the place of the one that is shown; what was chosen stays, as far as it is there.
function showFlight(data) {
  const isFirst = state.flight === null && !state.isRestored;
  const names = state.flight ? [...state.chosen].map(k => state.flight.names[k]) : state.wantedNames;
  const same = state.flight && `${state.flight.names}` === `${data.names}`;
  setFlight(data);
  set({cueNames: data.lines ? namesOf(data.lines) : data.names.map(() => "")});
  set({chosen: new Set(data.names.map((_, k) => k).filter(k => names.includes(data.names[k])))});
  if (state.isChosenByMark && !data.marks.length) set({chosen: new Set(), isChosenByMark: false});
  const {goal} = state, isThere = goal && goal.version === state.version && goal.cue < data.cues.length;
  set({now: isThere ? endOfCue(goal.cue) : Math.min(state.now, data.end), goal: null});
  set({flightVersion: state.version, flightLines: state.lines.length});
  setSlider();
  if (!same || byId("legend").children.length !== state.drones) buildLegend();
  if (data.marks.length) showMark(data.marks[0], false);
  // While somebody types the slider stays; a show that is opened begins where it is refused.
  if (data.marks.length && isFirst) {
    set({chosen: new Set(data.marks[0].pair), now: data.marks[0].nearest, isChosenByMark: true});
  }
  press();
}
function takeMarks(stage) {
  state.flight.marks = stage.marks;
  const named = state.mark && stage.marks.find(mark => mark.named);
  if (named) set({mark: {...named}});
  markLines();
  return drawInParts();
}
export function showMark(mark, go) {
  set({mark: mark});
  markLines();
  if (!go) return;
  set({chosen: new Set(mark.pair), isChosenByMark: true});
  press();
  stop();
  set({now: mark.nearest});
  draw();
  pointAt(mark.lines[0], mark.lines[0]);
}
// Whether the flight that is drawn is that of drones that no cue moves.
export const isStill = () => Boolean(state.flight && state.flight.begun && !state.flight.begun.cues);
// Says where the flight that is drawn isn't that of the text, or only of its beginning.
function showAge() {
  const fault = state.found.none || state.found.verdict && ![0, 4, 5].includes(state.found.verdict.status);
  const isOlder = state.flight !== null && state.flightVersion !== state.version;
  const begun = state.flight && !isOlder && state.flight.begun;
  const {classList} = byId("flight");
  classList.toggle("none", !state.flight);
  classList.toggle("still", isStill());
  classList.toggle("old", Boolean(isOlder || begun && begun.line !== null));
  byId("before").textContent = !state.flight ? fault ? "the flight is drawn once the text has a drone" : "" :
    isOlder ? fault ? "this is the flight of an earlier text" : "" :
    !begun ? "" : begun.line === null ? "the drones at their starts: there is no cue yet" :
    `line ${begun.line} isn't right yet: ` + (begun.cues ? "this is the flight of what stands before it" :
      "these are the drones at their starts");
  byId("before").hidden = !byId("before").textContent;
}
