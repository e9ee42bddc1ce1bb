// Keys for the whole page: N for a new switching, / for the search. They do nothing while somebody types, and can be turned off.
import { el } from "./elements.js";
import { store } from "./unanswered.js";

const OFF = "outagebook-keys-off";

/** What each key does; a page may have its own. */
export const shortcuts = { n: () => location.assign("/enter"), "/": search };

/** Goes to the page's search, or to that of the switching log where it has none. */
export function search() {
  const field = document.querySelector("[data-search]");
  if (!field) {
    location.assign("/sheet#search");
    return;
  }
  field.closest("details")?.setAttribute("open", "");
  field.focus();
  field.select();
}

document.addEventListener("keydown", (event) => {
  const work = shortcuts[event.key.toLowerCase()];
  const isTyping = event.target.matches("input, select, textarea");
  if (!work || isTyping || event.ctrlKey || event.altKey || event.metaKey || store?.getItem(OFF)) return;
  event.preventDefault();
  work();
});

/** Says which keys there are, and turns them off for this browser: who speaks to a computer may press them without meaning to. */
export function keysNote() {
  const change = () => (box.checked ? store?.removeItem(OFF) : store?.setItem(OFF, "yes"));
  const box = el("input", { type: "checkbox", checked: !store?.getItem(OFF), change });
  return el("label", { class: "check keys no-print" }, box, "Keys: N new switching, / search");
}
