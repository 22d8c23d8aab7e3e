// Elements of a page, and of its drawings in SVG.

/**
 * The elements that are more than an HTMLElement, by their ids.
 * @typedef {{space: HTMLCanvasElement, text: HTMLTextAreaElement, offer: HTMLDialogElement, slider: HTMLInputElement,
 *   speed: HTMLSelectElement, loop: HTMLInputElement, follow: HTMLInputElement, "number-value": HTMLInputElement,
 *   "find-words": HTMLInputElement, "offer-more": HTMLDetailsElement, save: HTMLButtonElement, cure: HTMLButtonElement,
 *   deal: HTMLButtonElement, fly: HTMLButtonElement, compile: HTMLButtonElement, certify: HTMLButtonElement,
 *   undo: HTMLButtonElement, redo: HTMLButtonElement, "tools-where": HTMLSelectElement,
 *   "chart-kind": HTMLSelectElement, "far-in": HTMLSelectElement, "music-file": HTMLInputElement}} Elements
 */

/**
 * @template {string} Id
 * @param {Id} id
 * @returns {Id extends keyof Elements ? Elements[Id] : HTMLElement}
 */
export const byId = id => /** @type {any} */ (document.getElementById(id));
/**
 * @param {string} kind
 * @param {Record<string, string | number>} attributes
 * @param {string | number} [words]
 */
export function node(kind, attributes, words) {
  const it = document.createElementNS("http://www.w3.org/2000/svg", kind);
  for (const key in attributes) it.setAttribute(key, `${attributes[key]}`);
  if (words !== undefined) it.textContent = `${words}`;
  return it;
}
/**
 * @param {Element} svg
 * @param {number} x1
 * @param {number} y1
 * @param {number} x2
 * @param {number} y2
 * @param {string} stroke
 * @param {Record<string, string | number>} [more]
 */
export function line(svg, x1, y1, x2, y2, stroke, more) {
  svg.append(node("line", {x1, y1, x2, y2, stroke, ...more}));
}
/**
 * @param {Element} svg
 * @param {number[]} edges
 * @param {Record<string, string | number>} more
 */
export function box(svg, [left, above, right, below], more) {
  svg.append(node("rect", {x: left, y: above, width: right - left, height: below - above, ...more}));
}
/**
 * @param {Element} svg
 * @param {number} x
 * @param {number} y
 * @param {string | number} words
 * @param {string} anchor
 * @param {Record<string, string | number>} [more]
 */
export function text(svg, x, y, words, anchor, more) {
  svg.append(node("text", {x, y, "text-anchor": anchor, ...more}, words));
}
/**
 * @template {keyof HTMLElementTagNameMap} Kind
 * @param {Kind} kind
 * @param {string | number} words
 * @param {Element} [parent]
 */
export function element(kind, words, parent) {
  const it = document.createElement(kind);
  it.textContent = `${words}`;
  if (parent) parent.append(it);
  return it;
}
