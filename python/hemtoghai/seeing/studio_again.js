// How a page of ./show studio goes on once its studio was started again, at an address with another random word: the
// pages of a browser tell each other where the studio of a file is, by a channel that those of this port alone hear.

import {given} from "./given.js";

const ADDRESS = /^\/[\w-]+\/$/;
const channel = new BroadcastChannel("studio");
let isLost = false;  // whether no studio answers at the address of this page

// Says where the studio of this file is, once it answers here.
export function sayWhere() {
  isLost = false;
  channel.postMessage({key: given.key, path: location.pathname});
}
// Asks the other pages where it is, once it doesn't.
export function askWhere() {
  isLost = true;
  channel.postMessage({key: given.key});
}
// A page without its studio goes to an address that it hears of, if that answers. The browser keeps its text till then.
channel.onmessage = async ({data: {key, path}}) => {
  if (key !== given.key) return;
  if (!path && !isLost) sayWhere();
  if (!isLost || !path || path === location.pathname || !ADDRESS.test(path)) return;
  const answer = await fetch(`${path}text`).catch(() => null);
  if (answer && answer.ok) location.replace(path);
};
