// Outages that others have just entered: the last one in the line of the page's heading, all in a list, and their number in
// the tab. The line has one height, so that nothing moves on the page and nothing is covered.
import { el, listed, number } from "./elements.js";
import { get, known } from "./requests.js";
import { senderOf, store } from "./unanswered.js";

const KEPT = 50;
const SHOWN_SECONDS = 12; // of what isn't an outage
const SPOKEN_SECONDS = 15; // between two sentences to a reader of the screen
const SECTIONS_NAMED = 2;
const SEEN = "outagebook-seen", QUIET = "outagebook-quiet";

const whoOf = (outage) => senderOf(outage.ref) ?? outage.crew;
const feederOf = ({ feeders }) => `feeder${feeders.length > 1 ? "s" : ""} ${feeders.join(", ")}`;
const sectionsOf = ({ sections }) => (sections.length > SECTIONS_NAMED ? `${number(sections.length)} sections` : sections.map((row) => row.section).join(", "));
const customersOf = ({ customers }) => `${number(customers)} customer${customers === 1 ? "" : "s"}`;
const wordsOf = (outage) => `${outage.device}: ${customersOf(outage)} out, ${feederOf(outage)}, ${sectionsOf(outage)}, by ${whoOf(outage)}`;
const newWords = (count) => `${number(count)} new outage${count === 1 ? "" : "s"}`;

export class News {
  /** `counted` is called where the number of outages that nobody has looked at is another one. */
  constructor(counted) {
    this.counted = counted;
    this.outages = [];
    this.seen = 0;
    this.said = el("div", { class: "said" });
    this.spoken = el("div", { class: "hidden", role: "status" });
    this.waiting = [];
    this.rows = el("ul", {});
    this.title = el("summary", {}, "New outages");
    this.quiet = el("input", { type: "checkbox", checked: store?.getItem(QUIET) === "yes", input: () => store?.setItem(QUIET, this.quiet.checked ? "yes" : "no") });
    const panel = el("div", { class: "card panel" }, el("label", { class: "quiet" }, this.quiet, "Quiet: what is new isn't read out"), this.rows);
    this.list = el("details", { class: "last no-print", toggle: () => this.open(), keydown: (event) => event.key === "Escape" && this.close() }, this.title, panel);
    this.element = el("div", { class: "news" }, this.said, this.list, this.spoken);
    window.addEventListener("storage", ({ key }) => key === this.key && this.show());
  }

  /** What was seen last in this book, by the number of its command: all pages of a browser share it. */
  get key() {
    return `${SEEN} ${known.me.book}`;
  }

  get unseen() {
    if (!known.me) return [];
    const seen = Math.max(this.seen, Number(store?.getItem(this.key) ?? known.me.number));
    return this.outages.filter((outage) => outage.no > seen && senderOf(outage.ref) !== known.me.name);
  }

  async load() {
    if (store && !(Number(store.getItem(this.key) ?? Infinity) <= known.me.number)) store.setItem(this.key, known.me.number); // the first time, or another book of this name
    const found = await get("/api/news").catch(() => null);
    if (!found) return;
    this.outages = found;
    this.show();
  }

  add(outages) {
    this.outages = [...outages, ...this.outages].slice(0, KEPT);
    const others = outages.filter((outage) => senderOf(outage.ref) !== known.me.name);
    others.slice(0, 1).forEach((largest) => this.speak(others.length > 1 ? `${newWords(others.length)}, the largest: ${wordsOf(largest)}` : `New outage: ${wordsOf(largest)}`));
    if (outages.length) this.show();
  }

  /** The latest outage that nobody has looked at stays in the line; a click leads to its row. */
  show() {
    const { unseen } = this;
    this.title.textContent = unseen.length ? newWords(unseen.length) : "New outages";
    this.list.classList.toggle("fresh", unseen.length > 0);
    if (unseen.length) this.said.replaceChildren(this.link(unseen[0], `New outage: ${wordsOf(unseen[0])}`));
    else if (this.said.querySelector("a")) this.said.replaceChildren();
    if (this.list.open) this.draw();
    this.counted();
  }

  link({ entry }, words) {
    const place = `#entry-${entry}`;
    return el("a", { href: location.pathname === "/" ? place : `/${place}`, click: () => this.see() }, words);
  }

  draw() {
    const rows = this.outages.map((outage) => el("li", {}, this.link(outage, outage.device), ` ${customersOf(outage)}, ${feederOf(outage)}, ${sectionsOf(outage)}, by ${whoOf(outage)}, `, listed(outage.since)));
    this.rows.replaceChildren(...(rows.length ? rows : [el("li", {}, "None since the screen was started.")]));
  }

  open() {
    if (!this.list.open) return;
    this.draw();
    this.see();
  }

  close() {
    this.list.open = false;
    this.title.focus();
  }

  see() {
    this.seen = Math.max(known.me.number, ...this.outages.map((outage) => outage.no));
    store?.setItem(this.key, this.seen);
    this.show();
  }

  /** Shows for a while what is no outage; what went wrong comes before all else. */
  say(words, kind = null) {
    this.speak(words);
    if (this.unseen.length && !kind) return;
    this.said.replaceChildren(kind ? el("span", { class: kind }, words) : words);
    clearTimeout(this.hush);
    this.hush = setTimeout(() => { this.said.replaceChildren(); this.show(); }, SHOWN_SECONDS * 1000);
  }

  /** A reader of the screen hears one sentence at a time, also in a storm, and none where it is to be quiet. */
  speak(words) {
    if (this.quiet.checked) return;
    this.waiting.push(words);
    if (this.speaking) return;
    const { length } = this.waiting;
    this.spoken.textContent = length > 1 ? `${length} messages, the last one: ${words}` : words;
    this.waiting = [];
    this.speaking = setTimeout(() => { this.speaking = null; if (this.waiting.length) this.speak(this.waiting.pop()); }, SPOKEN_SECONDS * 1000);
  }
}
