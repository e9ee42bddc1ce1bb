// Commands on their way: what they would do, by the desk; then, each under a reference of its own, the desk's answers. One
// command, or the steps of an outage, which go as one list.
import { el, get, known, momentWords, newReference, onCommands, own, settled } from "./common.js";
import { entryLinks, forecastParts, replyParts, same } from "./forecast.js";
import { offerUndo } from "./undo.js";
import { adopt, forget, keep, look, onAnswered, refOf, release, sendRest } from "./unanswered.js";

const NOT_NOW = 503; // asked again after some seconds
const AGAIN_SECONDS = 5;
const FOLLOW_SECONDS = 20; // between two forecasts of a switching whose time is the one that is now

const SHOWN_FIRST = "Not sent: what it would do is shown first. Look at it, and send then.";
const supplyOf = (found) => found.sections.map((row) => [row.section, row.loses > 0, row.gets_back > 0]);

/** What the server forecasts: one command, or the steps of an outage. */
function forecastOf(commands) {
  const stepOf = ({ kind, ...fields }) => [kind, ...Object.values(fields)];
  return get("/api/forecast", commands.length > 1 ? { steps: JSON.stringify(commands.map(stepOf)) } : commands[0]);
}

/** What is sent: the commands in the order in which they go, each under its reference before the first one is sent. A remark
 * goes with the step that is the first in time. */
function intentOf(commands, shown, { name = "", remark = "" }) {
  const { number, moved, up_to_now, words, order = [0], sent = [moved], steps } = shown;
  const ordered = order.map((place) => ({ ...commands[place], ref: newReference(name) }));
  if (remark) ordered[order.indexOf(steps ? steps[0].place : 0)].remark = remark;
  return { commands: ordered, places: order, replies: [], forecast: { number, moved, up_to_now, sent }, words, sent: Date.now() };
}

/** `read` answers the command or a list of them, or null where a field is missing. `form` sends by the Enter key too, in its
 * fields if it has some. While `clock` shows the time that is now, a command's second is the one at which it is sent. `outage`
 * answers the name and the remark of an outage. `after` hears the replies, or null and the refusal, and what was sent; `left`,
 * that the form is free for others. */
export class Sender {
  constructor({ read, lock, form, hasFields = true, clock = null, outage = () => ({}), after = () => {}, left = () => {}, label = "Send", missing = "Fill in the fields: what it would do is shown here before it is sent." }) {
    this.read = () => [read() ?? []].flat();
    this.outage = outage;
    this.left = left;
    this.missing = missing;
    this.lock = lock || (() => {});
    this.clock = clock;
    this.after = after;
    this.intent = null;
    this.isBusy = false;
    this.draft = null; // keeps what is typed for a page that is left
    this.count = 0;
    this.shown = null; // the forecast, and the commands that it is of
    this.commands = null;
    this.forecast = el("div", { class: "forecast", "aria-live": "polite" });
    this.outcome = el("div", { class: "outcome", role: "status", tabindex: "-1" });
    this.tick = el("input", { type: "checkbox", input: () => this.enable() });
    this.button = el("button", { type: "submit", class: "main send", disabled: true }, label);
    this.element = el("div", { class: "sender" }, this.forecast, el("div", { class: "buttons" }, this.button, form && hasFields ? el("span", { class: "note enter-too" }, "Enter in a field sends, too.") : ""), this.outcome);
    this.rests = false; // after an answer, until a field is changed
    const later = settled(() => this.rests || this.look());
    this.update = () => {
      this.rests = false;
      this.age();
      later();
    };
    onCommands(() => this.intent || this.rests || later());
    onAnswered((ref) => this.intent && ref === refOf(this.intent) && !this.isBusy && this.answeredElsewhere());
    if (form) this.attach(form);
    if (clock) setInterval(() => clock.isNow && this.shown && !this.rests && !this.isBusy && this.follow(), FOLLOW_SECONDS * 1000);
  }

  /** The Enter key in a field of the form does what the button does; if nothing can be sent yet, that is said. */
  attach(form) {
    form.id ||= "command";
    form.noValidate = true;
    this.button.setAttribute("form", form.id);
    form.addEventListener("submit", (event) => {
      event.preventDefault();
      this.send();
    });
    form.addEventListener("keydown", (event) => {
      if (event.key === "Enter" && event.target.matches("input, select") && this.button.disabled) this.send();
    });
  }

  /** What the form says, for comparing: the time that is now counts as one. */
  told_by(commands) {
    return JSON.stringify(this.clock?.isNow ? this.clock.masked(commands) : commands);
  }

  /** A forecast of what the form said before counts no more, at once; it stays where the book alone has changed. */
  age() {
    if (this.told_by(this.read()) === this.told) return;
    this.shown = null;
    this.tick.checked = false;
    this.enable();
  }

  enable() {
    this.button.disabled = !known.me.may_send || !this.shown || Boolean(this.shown.future && !this.tick.checked) || Boolean(this.intent);
  }

  /** Looks again while the clock goes on: nobody has asked, so nothing is read out. */
  async follow() {
    this.forecast.setAttribute("aria-live", "off");
    await this.look();
    setTimeout(() => this.forecast.setAttribute("aria-live", "polite"), 1000);
  }

  async look() {
    if (this.intent) return;
    const count = ++this.count;
    const commands = this.read();
    this.age();
    this.told = this.told_by(commands);
    if (!commands.length) {
      this.forecast.replaceChildren(el("p", { class: "note" }, this.missing));
      return;
    }
    try {
      const found = await forecastOf(commands);
      if (count !== this.count) return;
      this.shown = found;
      this.commands = commands;
      this.draw(found);
    } catch (trouble) {
      if (count !== this.count) return;
      this.shown = null;
      this.forecast.replaceChildren(el("p", { class: "bad" }, `Not possible: ${trouble.message.replace(/\.$/, "")}.`));
      if (trouble.status === NOT_NOW) setTimeout(() => count === this.count && this.look(), AGAIN_SECONDS * 1000);
    }
    this.enable();
  }

  /** Shows a forecast; one that says the same as what stands there moves nothing on the page, and is read out no second time. */
  draw(found) {
    const told = JSON.stringify({ ...found, number: null, up_to_now: null });
    if (told === this.drawn && this.forecast.querySelector("h2")) return;
    this.drawn = told;
    const wasOpen = this.forecast.querySelector("details")?.open;
    this.forecast.replaceChildren(...forecastParts(found, this.tick));
    if (wasOpen) this.forecast.querySelector("details")?.setAttribute("open", "");
  }

  /** Sends the one intent, whose forecast is shown: the second click of a double one finds it on its way. */
  async send() {
    if (this.intent || this.rests || this.isBusy) return;
    const { length } = this.read();
    this.age();
    this.isBusy = true; // the second click of a double one comes before an answer of the server
    const isReady = length && this.shown && !this.button.disabled && (await this.isOfNow());
    this.isBusy = false;
    if (!isReady) {
      const why = this.clock?.isReading ? SHOWN_FIRST : !length ? this.missing : this.shown?.future && !this.tick.checked ? "Not sent: it lies in the future. Tick that it is planned, and send then." : SHOWN_FIRST;
      this.outcome.replaceChildren(el("p", { class: "note" }, why));
      if (!this.shown) this.update();
      return;
    }
    this.intent = intentOf(this.commands, this.shown, this.outage());
    this.intent.commands.forEach((command) => own.add(command.ref));
    adopt(refOf(this.intent), () => this.tryIt());
    await this.tryIt();
  }

  /** Where the time is the one that is now, it is that of the sending: the forecast is made for it, and has to name the same
   * sections as the one that was shown. */
  async isOfNow() {
    if (!this.clock?.isNow) return true;
    const before = supplyOf(this.shown);
    this.clock.tick({ isSent: true });
    await this.look();
    return Boolean(this.shown) && same(before, supplyOf(this.shown));
  }

  async tryIt() {
    if (this.isBusy) return;
    this.isBusy = true;
    this.lock(true);
    this.enable();
    const { intent } = this;
    const { commands, replies } = intent;
    const onItsWay = (command) => {
      keep(intent); // first: what is said to be on its way is known after the page is left, too
      this.draft?.drop();
      const step = commands.length > 1 ? `, step ${replies.length + 1} of ${commands.length}` : "";
      this.outcome.replaceChildren(el("p", { class: "ask" }, `On its way as ${command.ref}${step}.`));
    };
    try {
      await sendRest(intent, onItsWay);
      this.isBusy = false;
      this.done();
    } catch (trouble) {
      this.isBusy = false;
      if (trouble.status === undefined) throw trouble;
      const isOpen = trouble.status === 0 || trouble.status >= 500 || (this.intent.isUnknown && !trouble.shown.reply);
      if (isOpen) this.unknown(trouble);
      else this.refused(trouble);
    }
    this.outcome.focus({ preventScroll: true });
    this.outcome.scrollIntoView();
  }

  unknown(trouble) {
    const { intent } = this;
    intent.isUnknown = true;
    const again = el("button", { type: "button", class: "main again", click: () => this.tryIt() }, "Send again");
    const leave = el("button", { type: "button", class: "leave", click: () => this.leave() }, "Leave it in the list at the page's top, and enter another");
    const words = "It isn't known whether this is saved. Send it again: it goes under the same reference, and acts once.";
    const why = trouble.shown.error === "away" ? trouble.message : `${words} (${trouble.message})`;
    this.outcome.replaceChildren(el("div", { class: "bad" }, el("p", {}, why), this.savedBefore(), el("p", {}, `${intent.words} (${refOf(intent)})`), el("div", { class: "buttons" }, again, leave)));
    look();
  }

  /** The form is free for another command; this one stays in the list of those without an answer. */
  leave() {
    const ref = refOf(this.intent);
    this.intent = null;
    this.lock(false);
    this.outcome.replaceChildren();
    release(ref);
    this.left();
    this.update();
  }

  /** What of a list is saved, where that isn't all of it. */
  savedBefore() {
    const { replies, commands } = this.intent;
    return replies.length ? el("p", { class: "saved-before" }, "Saved so far: ", entryLinks(replies), ` (${replies.length} of ${commands.length} steps).`) : "";
  }

  answeredElsewhere() {
    this.outcome.replaceChildren(el("p", { class: "warn" }, `This change isn't in the list of those without an answer any more: ${this.intent.words}. The switching log shows what is saved.`));
    this.end();
    this.update();
  }

  done() {
    const { intent } = this;
    this.end();
    this.outcome.replaceChildren(el("div", { class: "card" }, replyParts(intent)));
    this.forecast.replaceChildren();
    this.shown = null;
    this.told = null;
    this.count += 1;
    this.rests = true;
    this.enable();
    this.after(intent.replies, null, intent);
    offerUndo(this.outcome, undoOf(intent.replies));
  }

  refused(trouble) {
    const { intent } = this;
    const before = this.savedBefore();
    this.end();
    const reply = trouble.shown.reply;
    const number = reply ? `Refused: ${reply.refused} ${reply.name}${reply.detail === undefined ? "" : ` ${reply.detail}`}. ` : "Not sent: ";
    const parts = [el("p", {}, el("b", {}, number), trouble.message), before];
    if (trouble.shown.entry) parts.push(el("p", { class: "stale" }, `The entry is now: ${entryWords(trouble.shown.entry)}`));
    this.outcome.replaceChildren(el("div", { class: "bad refusal" }, parts));
    this.after(null, trouble.shown, intent);
    this.draft?.touch();
    this.update();
  }

  end() {
    const ref = refOf(this.intent);
    this.intent = null;
    forget(ref);
    release(ref);
    this.lock(false);
  }
}

/** What takes answered commands back: the last one first. */
function undoOf(replies) {
  const undone = replies.map((shown) => shown.undo).reverse();
  return undone.every(Boolean) && { commands: undone.map((each) => each.command), words: undone.map((each) => each.words).join(", ") };
}

export function entryWords(entry) {
  const what = entry.kept ? "" : " (withdrawn)";
  return `${entry.no}, revision ${entry.revision}: ${entry.device} ${entry.action} at ${momentWords(entry.second.text)}, cause ${entry.cause} ${entry.cause_name}, crew ${entry.crew}${what}`;
}
