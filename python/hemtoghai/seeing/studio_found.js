// What ./show studio finds, in words: the verdict in the bar, and what stands below the text.

import {byId, element} from "./elements.js";
import {cueAt, gapAt, metres} from "./flight.js";
import {given} from "./given.js";
import {move, press, stop} from "./player.js";
import {pointAt, showLines} from "./studio_field.js";
import {showMark} from "./studio_judge.js";
import {draw} from "./studio_layout.js";
import {set, state} from "./state.js";

const MOST_LISTED = 60;
const MOST_MARGIN = 1000;  // millimetres of a stray, and milliseconds of lateness, in the language
// ---- the verdict in words

export const grouped = count => Number(count).toLocaleString("en");
const many = (count, word) => `${grouped(count)} ${word}${count === 1 ? "" : "s"}`;
const inSeconds = ms => `${(ms / 1000).toFixed(ms % 1000 && ms < 100000 ? 2 : 1)} s`;
const plain = words => words.replaceAll("`", "");
export function setBar(kind, headline, more, go) {
  const bar = byId("verdict");
  bar.className = kind + (go ? " goes" : "");
  bar.replaceChildren();
  element("b", headline, bar);
  for (const words of [more].flat()) if (words) element("span", words, bar);
  bar.onclick = go || null;
  // Where a click does nothing it is no button for those who hear the page or go through it by Tab.
  bar.tabIndex = go ? 0 : -1;
  if (go) bar.removeAttribute("role");
  else bar.setAttribute("role", "status");
}
export function showVerdict() {
  const {verdict, none} = state.found;
  if (none) return setBar("", "NO ANSWER", none.words);
  const by = verdict.judge !== "check" ? `NOT PROVED: ${verdict.why}` :
    `judged in ${verdict.ms} ms${verdict.proved ? "" : ` · NOT PROVED: ${verdict.why}`}`;
  if (verdict.status === 0) return showAccepted(verdict, by);
  if (verdict.fault) return showFault(verdict, by);
  if (verdict.status === 5) return showNear(verdict, by);
  if (verdict.status === 4) return setBar("bad", `NO ROOM: ${roomWords(verdict.line)}`, by);
  if (/too-large/.test(verdict.line)) return setBar("bad", "TOO LARGE: a show has at most 1,048,576 bytes", by);
  return setBar("", `NO ANSWER: ${verdict.line || `status ${verdict.status}`}`, by);
}
// An accepted show is green only where all is kept that was asked for: the regions, and what drones can fly.
function showAccepted(verdict, by) {
  const [, names, cues, ms] = verdict.line.match(/drones (\d+) cues (\d+) duration_ms (\d+)/).map(Number);
  const size = `${many(names, "drone")}, ${many(cues, "cue")}, ${inSeconds(ms)}`;
  const isProved = verdict.proved, short = names > 1 ? "PROVED APART" : "PROVED";
  const proved = names > 1 ? "PROVED APART at every instant" : "PROVED: one drone, near its text at every instant";
  const accepted = isProved ? proved : "NOT PROVED, but accepted";
  const rest = isProved ? [`${size} · ${by}`] : [size, by.replace("NOT PROVED: ", "")];
  if (regionFault()) {
    return showRegion(regionFault(), [names > 1 && isProved ? "apart from each other: proved" : "", ...rest]);
  }
  const fault = state.found.notes && state.found.notes.faults[0];
  const wait = given.regions && !state.found.regions && !state.found.halted;
  if (fault) {
    const why = isProved ? fault.words : `but ${fault.words}`;
    setBar("care", isProved ? `${short}, but no drone can fly it` : accepted, [why, ...rest],
      fault.line ? () => goFault(fault) : null);
    byId("verdict").children[1].className = "care";
  } else if (given.regions && !wait && !/^kept /.test((state.found.regions || {}).line || "")) {
    setBar("care", isProved ? `${short}, but the regions aren't judged` : accepted, rest);
  } else {
    setBar(!isProved ? "care" : wait ? "" : "good", accepted, [wait ? "the regions are being judged" : "", ...rest]);
  }
  return null;
}
// The place at which a region isn't kept, where the flight that is drawn is that of the text.
export function regionFault() {
  const {regions} = state.found, isDrawn = state.flight && state.flightVersion === state.version;
  return regions && regions.fault && isDrawn ? regions.fault : null;
}
const regionWords = ({region}) =>
  state.flight.regions[region][0] === "volume" ? "may reach out of it" : "may reach into it";
function showRegion(fault, rest) {
  const isRoom = state.flight.regions[fault.region][0] === "volume", name = state.flight.names[fault.drone];
  setBar("bad", `${isRoom ? "NOT INSIDE" : "NOT OUT OF"} REGION ${fault.region + 1}: ${name} in cue ${fault.cue + 1}`,
    [`at ${inSeconds(Math.round(fault.from))}, line${fault.lines.length > 1 ? "s" : ""} ${fault.lines.join(", ")}: ` +
      `its ellipsoid ${regionWords(fault)} (boxes)`, ...rest], () => goRegion(fault));
}
function goRegion(fault) {
  stop();
  set({chosen: new Set([fault.drone]), isChosenByMark: true});
  set({now: Math.round((fault.from + fault.to) / 2)});
  press();
  draw();
  pointAt(fault.lines[0], fault.lines[0]);
}
function showFault(verdict, by) {
  const {line, word, row} = verdict.fault, value = verdict.line.match(/out-of-range (\S+) (-?\d+)/);
  const more = value ? ` (${value[1]} ${grouped(value[2])})` : "";
  setBar("bad", `line ${line}: ${word}${more}`, [plain(row ? row[0] : ""), verdict.judge === "check" ? "" : by],
    () => showLines(line, line));
}
// What the program's `explain` says of these two in this cue, where it found an instant at which they touch.
function touchOf(mark) {
  const touch = state.found.explained && state.found.explained.touch;
  return touch && touch.pair && touch.cue === mark.cue && `${touch.pair}` === `${mark.pair}` ? touch : null;
}
function showNear(verdict, by) {
  const [, first, second, cue, part, parts] = verdict.line.match(/pair (\S+) (\S+) cue (\d+) part (\d+) of (\d+)/);
  const mark = state.mark;
  if (!mark || state.flightVersion !== state.version) {
    return setBar("bad", `REFUSED: ${first} and ${second} in cue ${cue}`, [`part ${part} of ${parts}`, by]);
  }
  const touch = touchOf(mark), pair = mark.pair.map(k => state.flight.names[k]).join(" and ");
  const headline = touch || mark.touch ? "TOO NEAR" : mark.cause ? "TOO LITTLE ROOM" : "NOT SHOWN APART";
  const lines = `line${mark.lines.length > 1 ? "s" : ""} ${mark.lines.join(", ")}`;
  const share = `${mark.share.toFixed(0)} % of the distance at which they touch`;
  const room = touch ? `nearest at ${inSeconds(mark.nearest)} with ${share}` : mark.touch ? share :
    mark.cause ? `apart while they fly exactly; the cause is ${plain(mark.cause)}` :
    `${share}, but apart along no direction: leave a tenth more room`;
  const places = state.found.marks && state.found.marks.many > 1 ?
    `${many(state.found.marks.many, "place")} ${state.found.marks.all ? "in all" : "so far"}` : "";
  setBar("bad", `${headline}: ${pair} in cue ${mark.cue + 1}`,
    [touch ? `they touch at ${inSeconds(touch.at)} (explain)${verdict.proved ? ", proved" : ""}; ${lines}: ${room}` :
      `at ${inSeconds(mark.nearest)}, ${lines}: ${room}`, places, state.found.notes && state.found.notes.small, by],
    () => showMark(mark, true));
}
function roomWords(line) {
  const bytes = line.match(/drone (\S+) bytes (\d+) room (\d+)/), pieces = line.match(/drone (\S+) segments (\d+)/);
  if (bytes) return `${bytes[1]} needs ${grouped(bytes[2])} bytes, and has ${grouped(bytes[3])}`;
  return `${pieces[1]} needs ${pieces[2]} segments, and has 255`;
}

// ---- below the text

// Words with parts in backquotes as code.
function rich(words, parent) {
  words.split("`").forEach((part, k) => { if (part) k % 2 ? element("code", part, parent) : parent.append(part); });
  return parent;
}
export function showFound() {
  const {verdict, marks, notes} = state.found, panel = byId("found");
  // Until more is known the older words stay, so that nothing jumps at each key; they fade where that takes long.
  const waits = verdict && !verdict.fault && !notes && !state.found.halted && [0, 4, 5].includes(verdict.status);
  panel.classList.toggle("old", Boolean(waits));
  if (waits) return;
  const open = panel.querySelector("details[open]") !== null, at = panel.scrollTop;
  panel.replaceChildren();
  if (verdict && verdict.fault) return listFault(verdict.fault, panel);
  if (state.found.halted) element("p", `Some parts are missing: ${state.found.halted.words}`, panel).className = "care";
  if (verdict && verdict.status === 5 && state.flightVersion === state.version) listMarks(marks, panel);
  if (notes) listNotes(notes, panel, open);
  panel.scrollTop = at;
}
function listFault(fault, panel) {
  element("h2", `Line ${fault.line}: ${fault.word}`, panel);
  if (given.watch) element("code", fault.text, element("p", "", panel));
  const list = element("dl", "", panel);
  const labels = ["What is wrong", "Most often", "Cure"];
  (fault.row || []).forEach((words, k) => {
    if (!words) return;
    element("dt", labels[k], list);
    rich(words, element("dd", "", list));
  });
}
function listMarks(marks, panel) {
  const listed = marks ? marks.marks : state.flight.marks;
  element("h2", !marks ? "Looking for all places" : many(marks.many, "place") +
    (marks.all ? " where two are blocked" : " so far; looking for more"), panel);
  for (const mark of listed.slice(0, MOST_LISTED)) {
    const [a, b] = mark.pair.map(k => state.flight.names[k]);
    const words = `${a} and ${b} in cue ${mark.cue + 1}, at ${inSeconds(mark.nearest)}: ${mark.share.toFixed(0)} %` +
      (mark.touch ? "" : mark.cause ? `, the cause is ${plain(mark.cause)}` : ", apart but along no direction");
    goButton(words, panel, () => { showMark(mark, true); showVerdict(); });
  }
  const more = (marks && marks.many || 0) - Math.min(listed.length, MOST_LISTED);
  if (more > 0) element("p", `and ${grouped(more)} more: ./show why lists all`, panel);
}
function goButton(words, parent, work) {
  const button = element("button", words, parent);
  button.className = "go";
  button.onclick = work;
}
function goFault(fault) {
  stop();
  if (fault.cue !== null) move(state.flight.cues[fault.cue][0]);
  showLines(fault.line, fault.line);
}
const greatestBy = (rows, key) => rows.reduce((best, row) => row[key] > best[key] ? row : best);
function listNotes(notes, panel, open) {
  element("h2", "What the drones have to do", panel);
  const list = element("dl", "", panel);
  const add = (label, words, care) => {
    element("dt", label, list);
    const entry = element("dd", words, list);
    if (care) entry.className = "care";
    return entry;
  };
  for (const fault of notes.faults) {
    const entry = add("can't be flown", "", true);
    if (!fault.line) entry.textContent = fault.words;
    else goButton(fault.words, entry, () => goFault(fault));
  }
  const {regions} = state.found;
  if (regions && regionFault()) {
    const {fault} = regions, words = `${state.flight.names[fault.drone]} in cue ${fault.cue + 1} ${regionWords(fault)}`;
    goButton(`region ${fault.region + 1}: ${words}`, add("regions", "", true), () => goRegion(fault));
  } else if (regions) {
    add("regions", regions.line || "not judged: the program isn't built", !/^kept/.test(regions.line));
  }
  listMotion(notes, add);
  const full = notes.drones.reduce((best, row) => row.left < best.left ? row : best);
  add("memory", `least left: ${grouped(full.left)} of ${grouped(notes.room)} bytes (${full.name})`, full.left < 0);
  const span = k => `${metres(state.lowest[k])} to ${metres(state.highest[k])}`;
  add("box in metres", `x ${span(0)}, y ${span(1)}, z ${span(2)}`);
  listMargin(add);
  if (state.flightVersion === state.version && state.flight.pairs.length) listPairs(panel);
  listDrones(notes, panel, open);
}
// The pairs that come nearest, with their distance aside and up at that instant; a click goes there.
function listPairs(panel) {
  element("h2", "Pairs that come nearest", panel);
  const table = element("table", "", panel), head = element("tr", "", table);
  for (const word of ["pair", "share", "aside", "up", "at"]) element("th", word, head);
  for (const [share, i, j, s] of state.flight.pairs) {
    const row = element("tr", "", table), ms = state.flight.times[s], [aside, up] = gapAt(i, j, s);
    goButton(`${state.flight.names[i]}, ${state.flight.names[j]}`, element("td", "", row), () => goPair(i, j, ms));
    const where = `${inSeconds(ms)}, cue ${cueAt(ms) + 1}`;
    const cells = [`${share.toFixed(0)} %`, `${metres(aside)} m`, `${metres(up)} m`, where];
    for (const cell of cells) element("td", cell, row);
  }
}
function goPair(i, j, ms) {
  stop();
  set({chosen: new Set([i, j]), isChosenByMark: true, now: ms});
  press();
  draw();
}
function listMotion(notes, add) {
  const rows = notes.drones;
  if (!notes.asked) return add("speeds", "not known: the program isn't built, or refuses the show");
  const force = greatestBy(rows, "force"), jump = greatestBy(rows, "jump");
  add("acceleration", `at most ${force.force.toFixed(2)} m/s² on an axis (${force.name})`);
  if (rows.every(row => row.speed !== null)) {
    const speed = greatestBy(rows, "speed");
    add("speed", `at most ${speed.speed.toFixed(2)} m/s on an axis (${speed.name})`);
  }
  return add("jumps of speed", jump.jump > 0.03 ? `at most ${jump.jump.toFixed(2)} m/s (${jump.name})` : "none");
}
function listMargin(add) {
  if (state.found.verdict.status !== 0 || state.drones < 2) return;
  const part = (name, unit) => {
    const margin = state.found.margin && state.found.margin[name];
    return !margin ? `${name} ..` : margin.most === null ? `no ${name}` :
      `${name} ${grouped(margin.most)} ${unit}${margin.most < MOST_MARGIN ? "" : ", the most that the language has"}`;
  };
  const asked = ["stray", "late"].filter(name => state.flight[name]);
  const now = asked.length ? ` (now: ${asked.map(name => `${name} ${state.flight[name]}`).join(", ")})` : "";
  add("accepted up to", `${part("stray", "mm")}, or ${part("late", "ms")}${now}`);
}
function listDrones(notes, panel, open) {
  const more = element("details", "", panel), table = element("table", "", more), head = element("tr", "", table);
  more.prepend(element("summary", "Each drone"));
  more.open = open;
  for (const word of ["drone", "bytes left", "segments", "m/s", "m/s²", "jump m/s"]) element("th", word, head);
  const rounded = value => value === null ? "–" : value.toFixed(2);
  for (const it of notes.drones) {
    const row = element("tr", "", table);
    for (const cell of [it.name, it.left, it.segments, rounded(it.speed)]) element("td", cell, row);
    for (const key of ["force", "jump"]) {
      element("td", rounded(it[key]), row).className = it[key] > notes.most[key] ? "care" : "";
    }
  }
}
