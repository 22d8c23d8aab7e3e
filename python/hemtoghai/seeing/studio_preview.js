// What another text would fly, in ./show studio: its flight is drawn as a ghost beside the one of the text, before it
// is taken. It is judged by nobody, so nothing of it is green, and the bar goes on speaking of the text.

import {placeAt, setFlight} from "./flight.js";
import {nearestOf} from "./nearest.js";
import {move, setSlider} from "./player.js";
import {draw} from "./studio_layout.js";
import {readStages} from "./studio_judge.js";
import {post} from "./studio_text.js";
import {set, state} from "./state.js";

const SAME = 2;  // millimetres within which a place is the same
let asked = 0, asking = null;  // how many were asked for, and how to end the request of the last one

/**
 * Draws what another text would fly. What is said of it: that it is faulty, or how near its drones come, or nothing
 * where the text was changed or another one was asked for meanwhile.
 * @param {string} text
 * @param {number | null} cue at whose end the ghosts stand until the playhead is moved, or null for the playhead
 * @returns {Promise<string | null>}
 */
export async function showPreview(text, cue = null) {
  const mine = asked += 1, version = state.version;
  if (asking) asking.abort();
  asking = new AbortController();
  let found = /** @type {any} */ (null);
  try {
    await readStages(await post("preview", {text}, asking.signal), stage => { found = stage; }, () => mine !== asked);
  } catch (error) {
    if (error.name !== "AbortError") return "the studio doesn't answer";
  }
  if (mine !== asked || version !== state.version) return null;
  const flight = found && found.flight;
  const at = !flight || cue === null ? state.now : (flight.cues[cue + 1] || [flight.end])[0];
  takePreview(flight ? {flight, changed: changedIn(flight), from: state.now, at} : null);
  if (!flight) return found && found.words ? `not right: ${found.words}` : "no flight is known of it";
  const [share, i, j] = nearestOf(flight);
  const near = i === null ? "" : `; nearest: ${flight.names[i]} and ${flight.names[j]} with ${share.toFixed(0)} %`;
  return `a preview, not judged${near}`;
}
export function leavePreview() {
  asked += 1;
  if (asking) asking.abort();
  asking = null;
  if (state.preview) takePreview(null);
}
function takePreview(preview) {
  set({preview});
  if (!state.flight) return;
  const {flight, broken, ghosts} = state;
  setFlight(flight);  // the view has room for both
  set({broken, ghosts});
  setSlider();
  move(state.now);
  draw();
}
// The drones that fly otherwise than in the flight that is drawn, by number.
function changedIn(flight) {
  const old = state.flight, out = new Set();
  flight.names.forEach((name, k) => {
    const before = old ? old.names.indexOf(name) : -1;
    const differs = (ms, s) => placeAt(before, ms, old).slice(0, 3).some((v, axis) =>
      Math.abs(v - flight.xyz[k][3 * s + axis]) > SAME);
    if (before < 0 || flight.times.some(differs)) out.add(k);
  });
  return out;
}
