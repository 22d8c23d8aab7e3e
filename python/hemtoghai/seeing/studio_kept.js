// What isn't saved in ./show studio is kept by the browser, so that it is there after the tab was closed. A long text
// is kept once as a whole, and then the lines that changed since: to write a megabyte at each pause would hold up keys.

import {given} from "./given.js";
import {page} from "./studio_judge.js";
import {changedLines, runs, textLength, wholeText} from "./studio_lines.js";
import {isAsFile, LONG, tell} from "./studio_text.js";
import {set, state} from "./state.js";

const KEEP = 300;  // milliseconds until what was typed is kept
const MOST_KEPT = 1000;  // lines that are kept beside a whole text
let readAs = null;  // the name of the text that was there when the page was opened, and that it takes over
const keptName = () => `${state.file.key} name`, keptRun = () => `${state.file.key} lines`;

// While somebody types without a pause it is kept as well, at most once in this time; a long text takes longer to keep.
export function keepSoon() {
  if (state.keeping === null) set({keeping: setTimeout(keep, textLength() > LONG ? 5 * KEEP : KEEP)});
}
// Where the browser has no room keeping fails, and nothing else does.
export function keep() {
  clearTimeout(state.keeping);
  set({keeping: null});
  if (given.watch || !state.file) return;
  try {
    if (isAsFile()) forget();
    else if (!keepLines()) keepWhole();
  } catch (error) { /* no room */ }
}
function forget() {
  set({keptAs: null});
  const name = localStorage.getItem(keptName());
  if (name && name !== readAs && !name.startsWith(`${page} `)) return;  // another tab's, which isn't saved
  for (const name of [state.file.key, keptName(), keptRun()]) localStorage.removeItem(name);
}
function keepWhole() {
  set({keptAs: null});
  const name = `${page} ${state.version}`;
  localStorage.removeItem(keptRun());
  localStorage.setItem(state.file.key, JSON.stringify({text: wholeText(), at: Date.now(), name}));
  localStorage.setItem(keptName(), name);
  set({keptAs: name});
  runs.kept = null;
}
// Keeps the lines that changed since the whole text was kept; whether it could. Another tab may have kept its own text.
function keepLines() {
  if (state.keptAs === null || localStorage.getItem(keptName()) !== state.keptAs) return false;
  if (textLength() <= LONG || runs.kept && runs.kept.put > MOST_KEPT) return false;
  localStorage.setItem(keptRun(), JSON.stringify({name: state.keptAs, at: Date.now(), ...changedLines("kept")}));
  return true;
}
// The text that the browser has, and when it was kept, or null.
export function kept() {
  try {
    const stored = JSON.parse(localStorage.getItem(state.file.key)), more = JSON.parse(localStorage.getItem(keptRun()));
    if (!stored || typeof stored.text !== "string") return null;
    readAs = stored.name || null;
    if (!more || more.name !== stored.name) return stored;
    const old = stored.text.split("\n"), from = more.line - 1;
    return {text: [...old.slice(0, from), ...more.put, ...old.slice(from + more.gone)].join("\n"), at: more.at};
  } catch (error) {
    return null;
  }
}
export function onOtherTab(event) {
  if (!state.file || ![state.file.key, keptRun()].includes(event.key) || event.newValue === null) return;
  tell("This show is open in another tab, too. The browser keeps the text of the tab in which you typed last.");
}
