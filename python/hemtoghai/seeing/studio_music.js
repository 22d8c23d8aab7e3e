// The music of a show in ./show studio: a file beside it, or one that is chosen, is played with the flight; and its
// beats, which are marked by hand or tapped. The browser keeps them, and the text gets nothing of them but the lengths
// of cues that are dragged to a beat.

import {evened, toggled} from "./beats.js";
import {byId} from "./elements.js";
import {given} from "./given.js";
import {drawTimes} from "./studio_layout.js";
import {tell} from "./studio_text.js";
import {set, state} from "./state.js";

const FAR = 0.12;  // seconds that the music may be away from the flight
const REST = 1000;  // milliseconds from one correction to the next
let audio = /** @type {HTMLAudioElement | null} */ (null), isPlaying = false, corrected = 0;

function takeMusic(blob, name) {
  if (audio) {
    audio.pause();
    URL.revokeObjectURL(audio.src);
  }
  audio = new Audio(URL.createObjectURL(blob));
  audio.preservesPitch = true;
  audio.onerror = () => tell(`The browser can't play ${name}.`);
  byId("music").title = `${name} is played with the flight; a click takes another file`;
  byId("music").setAttribute("aria-pressed", "true");
}
// Reads the file beside the show.
export async function beginMusic() {
  readBeats();
  if (!given.music) return;
  try {
    const answer = await fetch("music");
    if (answer.ok) takeMusic(await answer.blob(), given.music);
    else tell(`${given.music} can't be read: ${(await answer.json()).words}`);
  } catch (error) {
    tell(`${given.music} can't be read.`);
  }
}
// Plays the music from where the flight is, or stops it.
export function playMusic(plays) {
  isPlaying = plays;
  if (!audio) return;
  if (plays) follow(true);
  else audio.pause();
}
// Keeps the music at the flight: it may begin late, and a flight that begins anew goes back.
export function followMusic() {
  if (audio && isPlaying) follow(false);
}
function follow(isNew) {
  const at = state.now / 1000, isOver = at >= (audio.duration || Infinity);
  audio.playbackRate = Number(byId("speed").value);
  if (isOver) return audio.pause();
  const isAway = Math.abs(audio.currentTime - at) > FAR * Math.max(1, audio.playbackRate);
  if (isNew || isAway && performance.now() - corrected > REST) {
    corrected = performance.now();
    audio.currentTime = at;
  }
  if (audio.paused) {
    audio.play().catch(error => { if (error.name !== "AbortError") tell(`No music: ${error.message}`); });
  }
  return null;
}

// ---- beats

const keptBeats = () => state.file && `${state.file.key} beats`;
function readBeats() {
  try {
    const beats = JSON.parse(localStorage.getItem(keptBeats()) || "[]");
    if (Array.isArray(beats) && beats.every(Number.isFinite)) set({beats});
  } catch (error) { /* none */ }
  showBeats();
}
function takeBeats(beats) {
  set({beats});
  try {
    if (!beats.length) localStorage.removeItem(keptBeats());
    else if (keptBeats()) localStorage.setItem(keptBeats(), JSON.stringify(beats));
  } catch (error) { /* no room */ }
  showBeats();
  drawTimes();
}
function showBeats() {
  byId("beats-even").hidden = state.beats.length < 3;
  byId("beats-none").hidden = !state.beats.length;
}
// A beat at the playhead, or none there any more.
export const markBeat = () => takeBeats(toggled(state.beats, state.now));
export function bindMusic() {
  const file = byId("music-file");
  byId("music").onclick = () => file.click();
  file.onchange = () => { if (file.files.length) takeMusic(file.files[0], file.files[0].name); };
  byId("beat").onclick = markBeat;
  byId("beats-even").onclick = () => {
    const end = Math.max(state.flight.end, audio && Number.isFinite(audio.duration) ? 1000 * audio.duration : 0);
    takeBeats(evened(state.beats, end) || state.beats);
  };
  byId("beats-none").onclick = () => takeBeats([]);
}
// What is played, or null; for tests.
export const heardAudio = () => audio;
