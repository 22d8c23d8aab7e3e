// The page of ./show studio: the flight beside the text, the buttons, and what is bound to what.

import {byId} from "./elements.js";
import {given} from "./given.js";
import {buildControls} from "./player.js";
import {closeMenu, onMenuKey, onNumber, onNumberDown, onNumberKey, openMenu, showNumber} from "./studio_edit.js";
import {bindField, redo, undo} from "./studio_field.js";
import {bindFind} from "./studio_find.js";
import {keep, onOtherTab} from "./studio_kept.js";
import {bindDrawings, dark, isSmall, onCursor, repaint, resize, toCue} from "./studio_layout.js";
import {beginMusic, bindMusic} from "./studio_music.js";
import {closeOffer, download, endStudio, offer, onOfferKey} from "./studio_offer.js";
import {bindSplitter, keepSession, takeSession} from "./studio_session.js";
import {begin, listen, onKey, save, tell} from "./studio_text.js";
import {bindTimeline} from "./studio_timeline.js";
import {bindTools} from "./studio_tools.js";
import {film} from "./studio_video.js";
import {zoomBy} from "./view_hand.js";
import {state} from "./state.js";

function bindText() {
  bindField();
  bindFind();
  addEventListener("keydown", onKey);
  addEventListener("resize", resize);
  addEventListener("pagehide", keep);
  addEventListener("pagehide", keepSession);
  addEventListener("visibilitychange", () => { if (document.hidden) keep(); });
  addEventListener("storage", onOtherTab);
  byId("number-value").addEventListener("mousedown", onNumberDown);
  byId("number-value").addEventListener("input", onNumber);
  byId("number-value").addEventListener("keydown", onNumberKey);
  byId("number-value").addEventListener("blur", () => { if (!state.isWriting) showNumber(true); });
  byId("insert").onclick = () => byId("menu").hidden ? openMenu() : closeMenu(true);
  byId("menu").addEventListener("keydown", onMenuKey);
  addEventListener("pointerdown", event => {
    if (!byId("menu").hidden && !/** @type {Element} */ (event.target).closest("#menu, #insert")) closeMenu(false);
  });
}
function bindButtons() {
  byId("save").onclick = () => save(false);
  byId("cure").onclick = () => offer("cure", "A change after which no two are too near");
  byId("deal").onclick = () => offer("deal", "The places of formations go to nearer drones");
  byId("fly").onclick = () => offer("fly", "A flight with simulated drones (./show fly)");
  byId("compile").onclick = () => download("compile", ".plan");
  byId("certify").onclick = () => download("certify", ".certificate");
  byId("end").onclick = endStudio;
  byId("film").onclick = film;
  byId("undo").onclick = undo;
  byId("redo").onclick = redo;
  byId("leave").onclick = closeOffer;
  byId("offer").addEventListener("keydown", onOfferKey);
  byId("to-cue").onclick = toCue;
  byId("follow").onchange = onCursor;
  // The mouse leaves the keys to the text there.
  for (const id of ["to-cue", "follows"]) byId(id).addEventListener("mousedown", event => event.preventDefault());
  // After a click Space plays; who came to a button by keys presses it by Space.
  for (const id of ["flight", "verdict", "found"]) byId(id).addEventListener("click", event => {
    const under = /** @type {Element} */ (event.target);
    const button = /** @type {HTMLElement | null} */ (under.closest("button, input[type=checkbox]"));
    if (event.detail && button) button.blur();
  });
  const middle = () => [byId("space").clientWidth / 2, byId("space").clientHeight / 2];
  byId("nearer").onclick = () => { if (state.flight) zoomBy(1.25, middle()); };
  byId("farther").onclick = () => { if (state.flight) zoomBy(0.8, middle()); };
  byId("space").addEventListener("wheel", event => {
    if (isSmall() && !event.ctrlKey || !state.flight) return;  // it scrolls a page that is longer than the window
    event.preventDefault();
    zoomBy(Math.exp(-event.deltaY / 500), [event.offsetX, event.offsetY]);
  }, {passive: false});
}
document.body.classList.toggle("watch", given.watch);
if (given.watch) for (const id of ["editor", "cursor", "save", "cure", "deal"]) byId(id).hidden = true;
buildControls();
bindDrawings();
bindTools();
bindTimeline();
bindMusic();
bindSplitter();
bindText();
bindButtons();
dark.addEventListener("change", repaint);
repaint();
resize();
begin().then(() => {
  addEventListener("visibilitychange", listen);
  listen();
  takeSession();
  beginMusic();
}, () => tell("The studio doesn't answer."));
