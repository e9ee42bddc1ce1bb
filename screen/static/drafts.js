// What is typed into a form and isn't sent: kept for this tab until it is, so that a page that was left, by Back, a link or a
// reload, comes back as it was. No form with a password is among them.
import { el } from "./elements.js";
import { known } from "./requests.js";
import { storage } from "./unanswered.js";

const tab = storage("sessionStorage");

export class Draft {
  /** `name` tells the forms of one address apart; `typed` answers what the form says, empty still. */
  constructor(name, form, typed) {
    this.key = `outagebook-form ${known.me.name} ${location.pathname} ${name}`;
    this.form = form;
    this.typed = () => JSON.stringify(typed());
    this.empty = this.typed();
    this.isTouched = false; // by hand, and not sent
    form.addEventListener("input", () => this.touch());
    window.addEventListener("pagehide", () => form.isConnected && this.keep());
    window.addEventListener("pageshow", ({ persisted }) => persisted && this.isTouched && !tab?.getItem(this.key) && location.reload()); // sent meanwhile by another page of this tab
  }

  touch() {
    this.isTouched = true;
    this.keep();
  }

  keep() {
    if (!this.isTouched) return;
    const told = this.typed();
    if (told === this.empty) tab?.removeItem(this.key);
    else tab?.setItem(this.key, told);
  }

  /** From now on it is a command on its way, which is kept elsewhere: the form isn't offered again. */
  drop() {
    this.isTouched = false;
    tab?.removeItem(this.key);
  }

  /** Has `fill` put back what was typed, and says so. */
  async restore(fill) {
    const kept = tab?.getItem(this.key);
    if (!kept) return;
    await fill(JSON.parse(kept));
    this.isTouched = true;
    const anew = el("button", { type: "button", class: "small anew-form", click: () => { this.drop(); location.reload(); } }, "Begin anew");
    this.form.prepend(el("p", { class: "note restored", role: "status" }, "This is as you left it. ", anew));
  }
}
