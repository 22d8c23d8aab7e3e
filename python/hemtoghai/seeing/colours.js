// Which drone has which colour and dashes.

import {LIGHT} from "./palettes.js";
import {state} from "./state.js";

export function colour(k) {
  const few = state.paint === LIGHT ?
    ["#0072b2", "#d55e00", "#008a64", "#b8478f", "#7a5c00", "#5b3fb0", "#0092a8", "#a01830"] :
    ["#56b4e9", "#f0803c", "#2fc596", "#e07cb4", "#c9a227", "#a48cf2", "#35c4d9", "#f0667a"];
  if (state.drones <= few.length) return few[k];
  // Steps of the golden angle, so that drones beside each other in the list differ; yellow and green are darker.
  const hue = k * 137.5 % 360, darker = hue > 40 && hue < 190 ? 10 : 0;
  return `hsl(${Math.round(hue)} ${k % 2 ? 65 : 95}% ${[36, 48][k % 2] - darker + (state.paint === LIGHT ? 0 : 26)}%)`;
}
export const dashes = k => state.drones <= 8 ? "" : ["", "7 3", "2 3"][k % 3];
export const faint = k => state.chosen.size > 0 && !state.chosen.has(k);
