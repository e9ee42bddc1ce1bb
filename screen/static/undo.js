// A way back for what was just saved: the commands that take it back, forecast and sent as any others.
import { el } from "./common.js";
import { Sender } from "./sender.js";

let made = 0;

/** Offers it below a reply; nothing where there are no such commands. */
export function offerUndo(place, undo) {
  if (!undo) return;
  const button = el("button", { type: "button", class: "undo", click: () => ask() }, "Undo");
  const part = el("div", { class: "buttons no-print" }, button);
  place.append(part);
  const ask = () => {
    const form = el("form", { id: `undo-${(made += 1)}`, class: "card", tabindex: "-1", "aria-label": "Undo" });
    const read = () => (form.isConnected ? undo.commands : null);
    const said = el("p", { class: "ask", role: "status" }, "Nothing is undone yet: it is only when you press Send the undo.");
    const after = (replies) => replies && said.replaceChildren("Undone: what was saved above is taken back.");
    const sender = new Sender({ read, form, hasFields: false, after, label: "Send the undo", missing: "This undo isn't offered any more." });
    form.append(el("h2", {}, `Undo: ${undo.words}`), said, sender.element);
    part.replaceWith(form);
    form.focus({ preventScroll: true });
    sender.look().then(() => form.scrollIntoView()); // the whole of it, where it has room
  };
}
