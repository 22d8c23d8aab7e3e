// A film of the flight in ./show studio, from the present view: the browser's own recorder takes what is drawn while it
// is played, so it takes as long as that.

import {byId, element} from "./elements.js";
import {cueAt, time} from "./flight.js";
import {given} from "./given.js";
import {move, playOrStop, stop} from "./player.js";
import {tell} from "./studio_text.js";
import {moveDrones} from "./view.js";
import {set, state} from "./state.js";

const FRAMES = 30, BITS = 8e6, LAST = 400;  // a second; a second; milliseconds that the last picture stays
const KINDS = ["video/webm;codecs=vp8", "video/webm;codecs=vp9", "video/webm"];  // the one that costs least first
let recorder = /** @type {MediaRecorder | null} */ (null);
let waiting = /** @type {object | null} */ (null);  // a recording that begins once the view has its size

// What stands in each picture: the time, and the cue with its name.
export function captionNow() {
  const cue = cueAt(state.now), name = state.cueNames && state.cueNames[cue];
  const instant = `${time(Math.round(state.now / 100) * 100)} ${state.unit}`;
  return `${given.name} · ${instant} · cue ${cue + 1}${name ? `: ${name}` : ""}`;
}
export async function film() {
  if (recorder || waiting) return endFilm(false);
  const kind = globalThis.MediaRecorder && KINDS.find(it => MediaRecorder.isTypeSupported(it));
  if (!kind) return tell("This browser records no video.");
  const isThere = state.flight && state.flightVersion === state.version;
  if (!isThere) return tell("There is no flight of this text to record yet.");
  const seconds = (state.flight.end / 1000 / Number(byId("speed").value)).toFixed(0), parts = [];
  const mine = waiting = {};
  byId("loop").checked = false;
  tell(`Recording takes as long as the flight is played: ${seconds} s at this speed. Leave this tab in view.`,
    ["Stop", () => endFilm(false)]);
  byId("film").setAttribute("aria-pressed", "true");
  // Below that line the view gets another size, and a film has one.
  await new Promise(go => requestAnimationFrame(() => requestAnimationFrame(go)));
  if (waiting !== mine) return null;
  waiting = null;
  stop();
  move(0);
  set({caption: captionNow});
  recorder = new MediaRecorder(byId("space").captureStream(FRAMES), {mimeType: kind, videoBitsPerSecond: BITS});
  recorder.ondataavailable = event => parts.push(event.data);
  recorder.onstop = () => takeFilm(parts);
  recorder.start();
  playOrStop();
  return null;
}
// Once it was played to its end the film is kept; where somebody stops it before, or the text changes, it isn't.
export function endFilm(isWhole) {
  const own = recorder;
  if (!own && !waiting) return;
  recorder = waiting = null;
  stop();
  byId("film").setAttribute("aria-pressed", "false");
  if (isWhole) {
    moveDrones();
    setTimeout(() => own.stop(), LAST);
    return;
  }
  if (own) {
    own.onstop = null;
    own.stop();
    for (const track of own.stream.getTracks()) track.stop();
  }
  set({caption: null});
  tell("The recording was stopped, and nothing is kept.");
}
// The flight was stopped while it was recorded: at its end, or by somebody.
export function filmStopped() {
  if (recorder) endFilm(state.now >= state.flight.end);
}
function takeFilm(parts) {
  if (!recorder) set({caption: null});  // the next one may have begun
  moveDrones();
  const link = element("a", ""), name = `${given.name.replace(/\.choreo$/, "")}.webm`;
  link.href = URL.createObjectURL(new Blob(parts, {type: "video/webm"}));
  link.download = name;
  link.click();
  setTimeout(() => URL.revokeObjectURL(link.href), 60000);
  tell(`${name} is among your downloads.`);
}
