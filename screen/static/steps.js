// The steps of an outage in a form: a device, a time and a position each. Below the last one there is always room for another.
import { choice, el, field, get, known, momentWords, settled, text, zoneName } from "./common.js";
import { MomentField } from "./moments.js";

const OTHER = { open: "close", close: "open" };
const isKnown = (name) => known.book.devices.some((each) => each.name === name);

class Step {
  constructor(steps, number) {
    this.isChosen = false; // the position, by hand
    this.device = text({ list: "devices", maxlength: 24, required: true });
    this.position = choice([["open", "open"], ["close", "close"]]);
    this.note = el("div", { class: "note", role: "status" });
    const touched = () => { this.isChosen = false; steps.touched(); };
    this.second = new MomentField(`Time (${zoneName()})`, "", () => steps.look(), { goes: true, touched });
    this.rest = el("div", { class: "rest" }, this.second.element, field("Switched to", this.position));
    this.element = el("div", { class: "step", role: "group", "aria-label": `Step ${number}` }, field("Device", this.device, this.note), this.rest);
    this.device.addEventListener("input", () => { touched(); steps.look(); steps.tidy(); });
    this.position.addEventListener("input", () => { this.isChosen = true; steps.look(); });
  }

  get name() {
    return this.device.value.trim().toUpperCase();
  }

  get typed() {
    return { device: this.device.value, time: this.second.typed, position: this.isChosen ? this.position.value : "" };
  }

  lock(locked) {
    for (const input of [this.device, this.position, this.second.input]) input.disabled = locked;
  }

  /** Offers the other position than the device has then, unless one was chosen by hand. */
  offer(position) {
    if (!this.isChosen) this.position.value = OTHER[position];
  }

  say(words) {
    if (this.note.textContent !== words) this.note.replaceChildren(words);
  }
}

/** `touched` is called at once when something is typed, `changed` when the steps say something else; `offered` hears the cause
 * of the switching that a step takes back. */
export class Steps {
  constructor({ touched, changed, offered }) {
    this.rows = [];
    this.asked = new Map(); // positions by the book, by device and second
    this.touched = touched;
    this.changed = changed;
    this.offered = offered;
    this.element = el("div", { class: "all-steps" });
    this.look = settled(() => this.offerAll().then(changed), 60);
    this.add();
  }

  get filled() {
    return this.rows.filter((row) => row.name);
  }

  /** The fields that can be sent, or nothing where one is missing. */
  read() {
    const commands = this.filled.map((row) => ({ kind: "switch", f1: row.name, f2: row.position.value, f3: row.second.second }));
    return commands.every((command) => command.f3) ? commands : [];
  }

  add() {
    const row = new Step(this, this.rows.length + 1);
    this.rows.push(row);
    this.element.append(row.element);
    row.second.now({ quiet: true }).catch(() => {});
    this.tidy();
    return row;
  }

  /** One empty row comes last, of which the device alone is shown where there are others. */
  tidy() {
    if (this.rows.at(-1).name) this.add();
    while (this.rows.length > 1 && !this.rows.at(-2).name) this.rows.pop().element.remove();
    for (const row of this.rows) row.rest.hidden = this.rows.length > 1 && row === this.rows.at(-1);
  }

  /** Puts back what was typed into some rows. */
  async restore(rows) {
    for (const [at, { device, time, position }] of rows.entries()) {
      const row = this.rows[at];
      row.device.value = device;
      this.tidy();
      if (time) await row.second.set(time);
      row.isChosen = Boolean(position);
      if (position) row.position.value = position;
    }
    this.look();
  }

  /** Takes out the rows that are sent, or all of them. */
  take(sent = this.rows) {
    for (const row of sent) row.element.remove();
    this.rows = this.rows.filter((row) => !sent.includes(row));
    this.forgetBook();
    if (this.rows.length) this.tidy();
    else this.add();
  }

  lock(locked) {
    this.rows.forEach((row) => row.lock(locked));
  }

  /** The book has another command: it is asked again. */
  forgetBook() {
    this.asked.clear();
  }

  async offerAll() {
    for (const row of this.filled) await this.offer(row);
    this.rows.filter((row) => !row.name).forEach((row) => row.say(""));
  }

  async offer(row) {
    const { name, second: { second } } = row;
    if (!isKnown(name) || !second) {
      row.say(isKnown(name) ? "" : "This is an unknown device.");
      return;
    }
    const before = this.before(row);
    const found = before ? { closed: before.position.value === "close", alive: true } : await this.position(name, second);
    if (!found || row.name !== name || row.second.second === null) return;
    row.say(`${name} is ${found.closed ? "closed" : "open"} then${found.alive ? "" : ", and not in the network"}.`);
    row.offer(found.closed ? "close" : "open");
    if (!found.closed && found.cause) this.offered(found.cause);
  }

  /** The step that acts on the same device last before another one. */
  before(row) {
    const at = this.rows.indexOf(row);
    const isBefore = (other) => Number(other.second.second) - Number(row.second.second) || this.rows.indexOf(other) - at;
    const found = this.filled.filter((other) => other.name === row.name && other.second.second && isBefore(other) < 0);
    return found.sort((one, other) => Number(one.second.second) - Number(other.second.second)).at(-1);
  }

  async position(device, at) {
    const key = `${device} ${at}`;
    if (!this.asked.has(key)) this.asked.set(key, await get("/api/position", { device, at }).catch(() => null));
    return this.asked.get(key);
  }

  // What a sender asks of the clock.

  get isNow() {
    return this.filled.some((row) => row.second.isNow);
  }

  get isReading() {
    return this.filled.some((row) => row.second.isReading);
  }

  tick(options) {
    this.filled.filter((row) => row.second.isNow).forEach((row) => row.second.tick(options));
  }

  masked(commands) {
    return commands.map((command, at) => (this.filled[at].second.isNow ? { ...command, f3: "now" } : command));
  }
}

/** The entries that an outage has already: each is corrected in the switching log. */
export function savedSteps(entries) {
  const row = (entry) => el("li", {}, `${entry.device} ${entry.action} at ${momentWords(entry.second.text)}: `, el("a", { href: `/sheet?entry=${entry.no}` }, `entry ${entry.no}`));
  return [el("h2", {}, "Saved steps of this outage"), el("ol", { class: "steps" }, entries.map(row))];
}
