// What is drawn with which colour, on a light ground and on a dark one; a page chooses.

export const LIGHT = {paper: "#fff", ink: "#222", label: "#555", axis: "#999", soft: "#777", grid: "#e2e2e2",
  rule: "#ccc", touch: "#d00000", mark: "#f3b6b6", volume: "#3a7d3a", keepout: "#8a5a00", inside: "#e0a83022",
  grip: "#1d5fbf"};
export const DARK = {paper: "#171b20", ink: "#e4e8ec", label: "#a4aeb9", axis: "#78828d", soft: "#97a1ac",
  grid: "#2c333b", rule: "#4a545f", touch: "#ff5a52", mark: "#6b2b2b", volume: "#6fbf73", keepout: "#d9a441",
  inside: "#e0a83022", grip: "#7db2f5"};
