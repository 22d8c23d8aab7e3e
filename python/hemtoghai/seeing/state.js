// What a page knows: one object, which everybody reads and only `set` changes.

import {LIGHT} from "./palettes.js";

/**
 * A flight as seeing/sampling.py gives it, millimetres and milliseconds.
 * @typedef {{names: string[], times: number[], xyz: number[][], yaw: number[][], cues: [number, string][],
 *   nearest: [number, number, number][], pairs: [number, number, number, number][], r: number, h: number,
 *   stray: number, late: number, end: number, regions: [string, ...number[]][], marks: Mark[],
 *   lines?: [number, number][][], begun?: {line: number | null, cues: number}}} Flight
 * A place where two drones are blocked.
 * @typedef {{pair: number[], cue: number, from: number, to: number, nearest: number, share: number, named: boolean,
 *   touch: boolean, cause: string, words: string, lines: number[]}} Mark
 * A region that isn't kept.
 * @typedef {{region: number, drone: number, cue: number, from: number, to: number, lines: number[]}} Broken
 * How fast drones fly, by their numbers, at instants in milliseconds: millimetres a second, and a second squared, of
 * which no drone flies more than the limit; and of which version of the text, for which drones.
 * @typedef {{times: number[], speed: Record<number, number[]>, force: Record<number, number[]>, limit: number,
 *   asked: string}} Motion
 * The view in space: the pen, where a point of space is on the canvas, and pixels a millimetre.
 * @typedef {{pen: CanvasRenderingContext2D, to: (point: number[]) => number[], scale: number, width: number,
 *   height: number, se: number, ce: number, origin: number[], steps: number[][],
 *   still: HTMLCanvasElement | null}} View
 * What the studio found of a text, by stage.
 * @typedef {{verdict?: any, none?: any, notes?: any, regions?: any, lines?: any, marks?: any, explained?: any,
 *   margin?: any, halted?: any, flight?: any}} Found
 * A step that undo takes back.
 * @typedef {{from: number, gone: string, put: string, selection: number[], at: number, typed?: boolean}} Step
 * What a drag in space does: with each move, and at its end, which says whether it counts.
 * @typedef {{step: (event: PointerEvent) => void, end: (isDone: boolean) => void}} Grab
 * @typedef {Record<string, string>} Palette
 */

const values = {
  // The flight that is drawn, with its last sample, how many drones fly, and the unit in which its time is written.
  flight: /** @type {Flight | null} */ (null), last: 0, drones: 0, unit: "s",
  // The least and the greatest place on x, y and z; half axes of what is kept clear; what the view in space shows.
  lowest: [0, 0, 0], highest: [0, 0, 0], beside: 0, up: 0, floor: 0,
  room: /** @type {{low: number[], high: number[], regions: {kind: string, box: number[]}[]} | null} */ (null),
  // What another text would fly, which of its drones fly otherwise than in the flight of the text, and the instant at
  // which they are drawn as long as the playhead stays where it was.
  preview: /** @type {{flight: Flight, changed: Set<number>, from: number, at: number} | null} */ (null),
  // The cue to whose end the playhead goes once the flight of a version of the text is there.
  goal: /** @type {{version: number, cue: number} | null} */ (null),
  // The region that isn't kept.
  broken: /** @type {Broken | null} */ (null),
  // The playhead in milliseconds, and the drones that are chosen, by number.
  now: 0, chosen: /** @type {Set<number>} */ (new Set()),
  // By drone how far it was dragged on x, y and z in millimetres, until a flight has it.
  ghosts: /** @type {Map<number, number[]>} */ (new Map()),

  // The view in space: where the eye is in degrees, how much nearer, and how far the middle is moved, in pixels.
  turn: 28, tilt: 28, zoom: 1, aside: [0, 0], view: /** @type {View | null} */ (null),
  band: /** @type {number[] | null} */ (null),  // a rectangle of the canvas that chooses drones: two of its corners
  isRough: false,  // while it is turned, paths are drawn with fewer points
  paint: /** @type {Palette} */ (LIGHT),
  chartHeight: 250,
  // The part of the show that the charts have: how many times nearer than all of it, and the instant at its left.
  timeZoom: 1, timeFrom: 0,
  // What the upper chart shows of drones: a place on an axis, or how they move; and the lower one: percent or metres.
  chartKind: /** @type {"x" | "y" | "z" | "speed" | "force"} */ ("z"), farIn: /** @type {"%" | "m"} */ ("%"),
  motion: /** @type {Motion | null} */ (null),
  // Of a page that was there before: the names of the drones that were chosen, and whether there was one.
  wantedNames: /** @type {string[]} */ ([]), isRestored: false,
  // Words in the view in space while it is recorded.
  caption: /** @type {(() => string) | null} */ (null),
  beats: /** @type {number[]} */ ([]),  // of the music, in milliseconds
  // By cue its name or nothing, where the charts have a strip of cues.
  cueNames: /** @type {string[] | null} */ (null),
  shareWords: "share",  // below the chart of the nearest pair
  // By the id of a chart the room above and below it; without it that for cue numbers and times.
  chartEdges: /** @type {Record<string, [number, number]>} */ ({}),

  // What a page does: its own height of the view in space, by its width;
  spaceHeight: /** @type {((width: number) => number) | null} */ (null),
  // with a click into a chart, and with a click in space, which is given the drone or null beside all;
  onPick: /** @type {((ms: number) => void) | null} */ (null),
  onDrone: /** @type {((drone: number | null, withOthers: boolean) => void) | null} */ (null),
  // with drones that are chosen at once, by their numbers;
  onBand: /** @type {((drones: number[]) => void) | null} */ (null),
  // with a drag in space, given its event and drone, and with a cue whose end is dragged;
  onGrab: /** @type {((event: PointerEvent, drone: number | null) => Grab | null) | null} */ (null),
  onStretch: /** @type {((cue: number, milliseconds: number) => void) | null} */ (null),
  // with a cue that is carried before or behind another one, or a copy of it;
  onCarry: /** @type {((cue: number, other: number, isBehind: boolean, isCopy: boolean) => void) | null} */ (null),
  // once the playhead was moved, once other drones are chosen, and once the flight is played or stopped.
  onMove: /** @type {(() => void) | null} */ (null), onChoose: /** @type {(() => void) | null} */ (null),
  onPlay: /** @type {((plays: boolean) => void) | null} */ (null),

  // The text: its lines, where in it each begins, its widest line in columns, and how many lines begin with `form`.
  lines: [""], starts: [0], widest: 0, formLines: 0,
  textForm: /** @type {1 | 2 | null} */ (null),  // the form of the language that it names
  version: 0,  // each change makes a new one, and a result of an older one isn't shown
  typedAt: 0,  // the instant of the last key
  // The number of a text that the studio has, and the name of one that the browser keeps.
  known: /** @type {number | null} */ (null), keptAs: /** @type {string | null} */ (null),
  keeping: /** @type {any} */ (null),  // the wait until it is kept
  steps: /** @type {Step[]} */ ([]), stepsBack: /** @type {Step[]} */ ([]),  // that undo and redo have
  // The file: the text as it was read or saved, its stamp, its line ends, the key by which the browser keeps it.
  file: /** @type {any} */ (null),

  // The field: the lines that it has, by number from 0, the first, and that after the last; the selection, the end that
  // stays, and the one that moves; what is seen of the sheet, since to ask the browser each time would cost a layout.
  held: [0, 1], anchor: 0, head: 0, viewTop: 0, viewHeight: 600,
  isWriting: false,  // while a number of the field of numbers is written, that field isn't left
  marked: /** @type {Map<number, {kind: string, say?: string}>} */ (new Map()),  // by line the mark that it has

  // What is known of the newest text, and how to end the request for it.
  found: /** @type {Found} */ ({}), asking: /** @type {AbortController | null} */ (null),
  // The version of the text whose flight is drawn, and how many lines that has.
  flightVersion: 0, flightLines: 0,
  // The blocked place that is shown, and whether its pair is chosen.
  mark: /** @type {Mark | null} */ (null), isChosenByMark: false,
};

/** @typedef {typeof values} State */

export const state = /** @type {Readonly<State>} */ (values);

/** @type {((changes: Partial<State>) => void)[]} */
const watchers = [];

/**
 * Changes what the page knows.
 * @param {Partial<State>} changes
 */
export function set(changes) {
  Object.assign(values, changes);
  for (const work of watchers) work(changes);
}

/**
 * Has a function called after each change, with what was set.
 * @param {(changes: Partial<State>) => void} work
 */
export function watch(work) {
  watchers.push(work);
}
