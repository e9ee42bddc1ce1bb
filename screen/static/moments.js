// A field for a moment, typed by the clock of the book's zone. The server reads it: the browser's zone has no part in it.
import { el, field, get, known, momentWords, settled, text } from "./common.js";

const SET_AGAIN_SECONDS = 20; // between two questions for the server's clock
const SHARED_SECONDS = 5; // for which an answer is that of all fields
let clock = { asked: -Infinity, answer: null };

/** The time by the server's clock, with when this computer's clock was at it. */
function serverTime() {
  const asked = Date.now();
  if (asked - clock.asked > SHARED_SECONDS * 1000) {
    const answer = get("/api/second").then((found) => ({ ...found, at: (asked + Date.now()) / 2 })); // it looked at its clock in between
    clock = { asked, answer };
    answer.catch(() => (clock.asked = -Infinity));
  }
  return clock.answer;
}

/** A moment's text some seconds later, by the same offset. */
function later(words, seconds) {
  const shown = new Date(Date.parse(`${words.slice(0, 19)}Z`) + seconds * 1000);
  return shown.toISOString().slice(0, 19) + words.slice(19);
}

export class MomentField {
  /** With `goes` the field shows the time that is now, as a clock, until something is typed. `touched` is called at once when
   * something is typed, `changed` when it has been read. */
  constructor(label, value, changed, { may_be_empty = false, goes = false, touched = () => {} } = {}) {
    this.second = null;
    this.meant = null; // the moment that was read, or chosen of two, as it would be typed in full
    this.isNow = false;
    this.goes = goes;
    this.input = text({ value, placeholder: `${known.book.today} 06:10:00` });
    this.told = el("div", { class: "note", role: "status" });
    this.changed = changed;
    this.may_be_empty = may_be_empty;
    this.element = el("div", { class: "moment" }, field(label, this.input, this.told));
    this.count = 0;
    const read = settled(() => this.read());
    this.input.addEventListener("input", () => {
      this.isNow = false;
      this.second = this.meant = null;
      this.count += 1; // an answer that is on its way comes too late
      touched();
      read();
    });
    if (!goes) return;
    this.input.addEventListener("blur", () => this.input.value.trim() || this.now());
    setInterval(() => this.isNow && this.tick(), 1000);
    setInterval(() => this.isNow && this.ask(), SET_AGAIN_SECONDS * 1000);
    document.addEventListener("visibilitychange", () => !document.hidden && this.isNow && this.ask());
    window.addEventListener("awake", () => this.isNow && this.ask());
  }

  /** What is typed, as `set` takes it on another day, too; nothing where the field shows the time that is now. */
  get typed() {
    return this.isNow ? "" : this.meant ?? this.input.value;
  }

  /** What is typed isn't read yet. */
  get isReading() {
    return this.second === null && this.input.value.trim() !== "" && !this.told.querySelector(".bad, .ask");
  }

  /** The time by the server's clock, from which the field's own goes on. */
  async ask() {
    this.base = await serverTime();
    return this.base;
  }

  /** Back to the time that is now; a book whose period is over, or hasn't begun, has its nearest second. */
  async now({ quiet = false } = {}) {
    const count = ++this.count;
    const found = await this.ask();
    if (count !== this.count) return;
    this.isNow = found.goes;
    if (found.goes) this.tick({ isSent: true });
    else [this.input.value, this.second] = [momentWords(found.text), String(found.second)];
    this.told.replaceChildren(found.goes ? "Now: this clock goes on until you type a time." : "The book's period doesn't hold today: this is its nearest second.");
    if (!quiet) this.changed();
  }

  /** Goes on by what has passed; a field in which somebody may be about to type keeps its text until its moment is sent. */
  tick({ isSent = false } = {}) {
    const gone = Math.floor(this.base.gone + (Date.now() - this.base.at) / 1000);
    this.second = String(this.base.second + gone);
    if (isSent || document.activeElement !== this.input) this.input.value = momentWords(later(this.base.text, gone));
  }

  /** Sets a moment, also one as a number of seconds: it is shown as it would be typed. */
  async set(value) {
    this.isNow = false;
    this.input.value = value;
    const found = await this.read();
    if (found?.length === 1 && this.input.value === value) this.input.value = momentWords(found[0].text);
  }

  async read() {
    const count = ++this.count;
    this.second = this.meant = null;
    if (!this.input.value.trim()) {
      this.told.replaceChildren(this.may_be_empty ? "" : this.goes ? "Type a time, or leave the field empty for now." : "A time is needed.");
      this.second = this.may_be_empty ? "" : null;
      this.changed();
      return;
    }
    let found;
    try {
      found = await get("/api/moment", { text: this.input.value });
    } catch (trouble) {
      if (count === this.count) {
        this.told.replaceChildren(el("span", { class: "bad" }, trouble.message));
        this.changed();
      }
      return;
    }
    if (count !== this.count) return;
    if (found.length === 1) {
      this.second = String(found[0].second);
      this.meant = momentWords(found[0].text);
      this.told.replaceChildren(`${found[0].text.slice(0, 10)} ${found[0].text.slice(11, 19)}, ${found[0].text.slice(19)} from UTC`);
    } else {
      this.choose(found);
    }
    this.changed();
    return found;
  }

  /** The clock shows this hour twice: which one is meant? */
  choose(found) {
    const name = `which-${Math.random().toString(36).slice(2)}`;
    const options = found.map((each, place) =>
      el(
        "label",
        { class: "row" },
        el("input", {
          type: "radio",
          name,
          value: each.second,
          change: () => {
            this.second = String(each.second);
            this.meant = momentWords(each.text);
            this.changed();
          },
        }),
        `the ${place ? "second" : "first"} time: ${each.text.slice(11, 19)} ${each.text.slice(19)}`,
      ),
    );
    this.told.replaceChildren(el("fieldset", { class: "ask" }, el("legend", {}, "The clock shows this hour twice. Which one?"), options));
  }
}
