// Quantities in ./show studio: the numbers of a text in `choreo 2`, exact, by the rules of docs/LANGUAGE.md,
// Quantities. The same as language/quantities.py; tests/test_studio_quantities.py compares both.

import {given} from "./given.js";

// By the unit of whole numbers what a place counts: the kind, the unit in which it is written, and the powers of ten.
const COUNTS = given.language.counts;
// The digits of a number times ten to the power of `places`, or null where that isn't whole.
function movedDigits(digits, places) {
  if (places >= 0) return digits + "0".repeat(places);
  const at = Math.max(0, digits.length + places);
  return /^0*$/.test(digits.slice(at)) ? digits.slice(0, at) : null;
}
// The quantity that a word is, in whole numbers of what its place counts, or null where it is none there; one of more
// than twelve digits is beyond every range.
export function quantityOf(unit, word) {
  const {units} = COUNTS[unit];
  if (/^-?0+$/.test(word)) return 0;
  const found = /^(-?)([0-9]+)(?:\.([0-9]+))?([a-z]+)$/.exec(word);
  if (!found || !Object.hasOwn(units, found[4])) return null;
  const fraction = found[3] || "", moved = movedDigits(found[2] + fraction, units[found[4]] - fraction.length);
  if (moved === null) return null;
  const digits = moved.replace(/^0+/, ""), number = digits.length <= 12 ? Number(digits) : 1e12;
  return found[1] && number ? -number : number;
}
// A whole number of what a place counts, as a word of `choreo 2` with no digit more than it takes.
export function quantityWord(unit, value) {
  if (value === 0) return "0";
  const {kind, usual, units} = COUNTS[unit], isShort = kind === "time" && Math.abs(value) < 1000;
  const name = isShort ? "ms" : usual, places = units[name], digits = `${Math.abs(value)}`.padStart(places + 1, "0");
  const fraction = digits.slice(digits.length - places).replace(/0+$/, "");
  const whole = digits.slice(0, digits.length - places);
  return `${value < 0 ? "-" : ""}${whole}${places && fraction ? `.${fraction}` : ""}${name}`;
}
