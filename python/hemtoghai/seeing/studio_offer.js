// What the buttons of ./show studio do: a new text that a tool offers, and files to download.

import {byId, element} from "./elements.js";
import {given} from "./given.js";
import {replaceText} from "./studio_field.js";
import {keep} from "./studio_kept.js";
import {dirty, post, tell} from "./studio_text.js";
import {leavePreview, showPreview} from "./studio_preview.js";
import {state} from "./state.js";

export async function offer(path, title) {
  const asked = state.version;
  tell("Working, for two minutes at most", ["Hide", () => {}]);
  try {
    const answer = await (await post(path)).json();
    tell("");
    if (asked !== state.version) {
      return tell("The text was changed meanwhile, so this result isn't shown.", ["Again", () => offer(path, title)]);
    }
    showOffer(answer, path === "fly" || answer.choices.length ? title : "Nothing to write");
  } catch (error) {
    tell("The studio doesn't answer.");
  }
  return null;
}
// An offer of a text stands beside the flight, which shows as a ghost what that text would fly.
function showOffer(answer, title) {
  const {choices = []} = answer, isText = choices.length > 0;
  byId("offer-title").textContent = title;
  byId("offer-said").textContent = answer.said;
  byId("offer-more").hidden = !answer.more;
  byId("offer-more").open = !isText;
  byId("offer-more").lastChild.textContent = answer.more || "";
  byId("take").hidden = !isText;
  byId("leave").textContent = isText ? "Cancel" : "Close";
  for (const id of ["offered", "offer-near"]) byId(id).hidden = !isText;
  byId("offer").classList.toggle("beside", isText);
  listChoices(choices);
  if (isText) byId("offer").show();
  else byId("offer").showModal();
  byId(isText ? "take" : "leave").focus();
  if (isText) showChoice(choices[0]);
}
function listChoices(choices) {
  const list = byId("choices");
  list.hidden = choices.length < 2;
  list.replaceChildren();
  choices.forEach((choice, k) => {
    const label = element("label", "", list), input = element("input", "", label);
    Object.assign(input, {type: "radio", name: "choice", checked: k === 0, onchange: () => showChoice(choice)});
    label.append(choice.words);
  });
}
async function showChoice(choice) {
  byId("offered").replaceChildren(...choice.diff.map(([kind, words]) => {
    const row = element("span", kind === "@" ? words : `${kind} ${words}`);
    row.className = {"+": "added", "-": "gone", "@": "gap"}[kind] || "";
    return row;
  }));
  byId("take").onclick = () => {
    closeOffer();
    replaceText(choice.text);
  };
  byId("offer-near").textContent = "working out its flight";
  const said = await showPreview(choice.text);
  if (said !== null) byId("offer-near").textContent = `The ghost is ${said}`;
}
export function closeOffer() {
  if (!byId("offer").open) return;
  byId("offer").close();
  leavePreview();
}
// Escape leaves an offer that stands beside the flight.
export function onOfferKey(event) {
  if (event.key !== "Escape") return;
  event.preventDefault();
  event.stopPropagation();
  closeOffer();
}
export async function download(path, ending) {
  try {
    const answer = await post(path);
    if (!answer.ok) return tell(`Nothing was written: ${(await answer.json()).words}`);
    const link = element("a", "");
    link.href = URL.createObjectURL(await answer.blob());
    link.download = given.name.replace(/\.choreo$/, "") + ending;
    link.click();
    setTimeout(() => URL.revokeObjectURL(link.href), 10000);
  } catch (error) {
    tell("The studio doesn't answer.");
  }
  return null;
}
// It is asked first: End stands beside buttons that are often pressed, and ends the studio for all its tabs.
export function endStudio() {
  keep();
  const more = dirty() ? " The text isn't saved, and stays in this browser." : "";
  tell(`End the studio, also for its other tabs?${more}`,
    ["End it", () => { post("end").catch(() => {}); }], ["Go on", () => {}]);
}
