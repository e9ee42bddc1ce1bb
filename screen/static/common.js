// What all pages share: the head, the events, tables and fields.
import { duration, el, moment, momentWords, number, signed, svg } from "./elements.js";
import { keysNote } from "./keys.js";
import { News } from "./news.js";
import { get, known, post, Trouble } from "./requests.js";
import { Stream } from "./stream.js";
import { senderOf, unanswered } from "./unanswered.js";

export { duration, el, get, known, moment, momentWords, number, post, signed, svg };

const AGAIN_SECONDS = 2; // between two questions of a page that can't begin

export const own = new Set(); // references of this page: their answers are shown where they were sent
const listeners = [];

const REFERENCE = 40; // letters at most
const UNIQUE = 8; // letters at a reference's end, where it has the outage's name before them

/** So many letters by chance. */
export function randomLetters(count) {
  const letters = "ABCDEFGHJKLMNPQRSTUVWXYZ23456789";
  return Array.from(crypto.getRandomValues(new Uint8Array(count)), (byte) => letters[byte % 32]).join("");
}

/** A reference for one command, made before its first try. Those of an outage have its name in common: its ticket's number, or
 * one that begins with `_`. */
export const newReference = (outage = "") => `SCR-${known.me.name}-${outage ? `${outage}_${randomLetters(UNIQUE)}` : randomLetters(12)}`;

/** How many letters of a ticket's number a reference has room for. */
export const ticketLetters = () => REFERENCE - UNIQUE - `SCR-${known.me.name}-_`.length;

/** Customer-seconds as customer-minutes, to two decimals where they aren't whole. */
export const inMinutes = (seconds) => Math.round((Number(seconds) / 60) * 100) / 100;

/** Whether the book's period goes on: what is open counts to its end. */
export const isLive = () => Date.now() <= known.book.last.second * 1000;

/** What customer-minutes lost change by; `until` says up to when. */
export const lostWords = (seconds, until = "") => `Customer-minutes lost${until}: ${seconds ? signed(inMinutes(seconds)) : "no change"}`;

/** The names of the book's zone, as CET/CEST. */
export function zoneName() {
  const name = "[A-Za-z]{3,}|<[^>]*>";
  const [, standard, summer] = new RegExp(`^(${name})[-+0-9:]+(${name})?`).exec(known.book.zone) ?? [];
  return [standard, summer].filter(Boolean).map((each) => each.replace(/[<>]/g, "")).join("/") || "the book's zone";
}

export const BRIEF = 12; // letters, that stay in one line

/** A text that may be broken within its long words. */
export function breakable(words) {
  return (words.match(/[^\s-]+[\s-]*|[\s-]+/g) || []).flatMap((word) => {
    if (word.length <= BRIEF) return [word];
    return word.match(/.{1,8}/gs).flatMap((part, at) => (at ? [el("wbr"), part] : [part]));
  });
}

/** Work for when the browser has time. */
export const idle = window.requestIdleCallback ? (work) => requestIdleCallback(work, { timeout: 300 }) : (work) => setTimeout(work, 20);

const SLICE = 100; // rows that are drawn in one go
export const COLUMNS = { "#": "n", "~": "no-print" }; // classes of a column, by how its head begins

/** Draws rows into a table, a slice at a time, for as long as it is shown. */
function drawRows(body, rows, draw) {
  body.append(...rows.slice(0, SLICE).map(draw));
  if (rows.length > SLICE) idle(() => body.isConnected && drawRows(body, rows.slice(SLICE), draw));
}

/** A table of rows of cells; heads that begin with # are of numbers, with ~ of what can be done. On a narrow page each row
 * is a card. */
export function table(heads, rows, caption, rowClasses = []) {
  const names = heads.map((head) => head.replace(/^[#~]/, ""));
  const kinds = heads.map((head) => COLUMNS[head[0]]);
  const brief = (cell) => ((cell.textContent ?? cell).length > BRIEF ? null : "brief");
  const cells = (row) => row.map((cell, place) => el("td", { class: kinds[place] ?? brief(cell), "data-label": names[place] }, typeof cell === "string" ? breakable(cell) : cell));
  const head = heads.map((_, place) => el("th", { scope: "col", class: kinds[place] }, names[place]));
  const body = el("tbody", {});
  drawRows(body, rows.map((row, at) => [row, rowClasses[at] || null]), ([row, kind]) => el("tr", { class: kind }, cells(row)));
  return el(
    "div",
    { class: "scroll" },
    el(
      "table",
      { class: heads.length > 3 ? "cards" : null },
      el("caption", { class: "hidden" }, caption),
      el("thead", {}, el("tr", {}, head)),
      body,
    ),
  );
}

let made = 0;
const newId = (words) => `f-${words.toLowerCase().replace(/[^a-z0-9]+/g, "-")}-${(made += 1)}`;

/** A label with its field, and a note of which a reader of the screen hears with the field. */
export function field(label, input, note = null) {
  input.id ||= newId(label);
  const beside = typeof note === "string" ? el("div", { class: "note" }, note) : note;
  if (beside) {
    beside.id ||= newId("note");
    input.setAttribute("aria-describedby", beside.id);
  }
  return el("div", { class: "field" }, el("label", { for: input.id }, label), input, beside);
}

/** What is higher than its place scrolls, by the keyboard too. */
export function scrolling(label, ...children) {
  return el("div", { class: "tall scroll", tabindex: "0", role: "region", "aria-label": `${label}, scrolls` }, children);
}

const nameOf = (element) => `${element.tagName} ${element.getAttribute("href") || element.getAttribute("aria-label") || element.textContent}`;

/** Puts new children in the place of old ones: what had the focus keeps it, where it is there again, and what was scrolled
 * stays so. */
export function renew(place, ...children) {
  const had = place.contains(document.activeElement) ? nameOf(document.activeElement) : null;
  const scrolled = [...place.querySelectorAll(".scroll")].map((each) => [each.scrollLeft, each.scrollTop]);
  place.replaceChildren(...children);
  if (had) [...place.querySelectorAll("a, button, summary, [tabindex]")].find((each) => nameOf(each) === had)?.focus({ preventScroll: true });
  place.querySelectorAll(".scroll").forEach((each, at) => scrolled[at] && each.scrollTo(...scrolled[at]));
}

/** Lets the browser show what is there, before more work is done; a page that isn't looked at shows nothing. */
export function painted() {
  return new Promise((resolve) => {
    requestAnimationFrame(() => setTimeout(resolve));
    setTimeout(resolve, 100);
  });
}

/** A select. A browser tells each choice twice, as input and as change; a program that fills in a form tells it as change
 * alone, which counts as well. */
export function choice(options, chosen = "") {
  let isTold = false;
  const input = () => { isTold = true; };
  const change = ({ target }) => {
    if (!isTold) target.dispatchEvent(new Event("input", { bubbles: true }));
    isTold = false;
  };
  return el("select", { input, change }, options.map(([value, text]) => el("option", { value, selected: value === chosen }, text)));
}

export function list(id, values) {
  return el("datalist", { id }, values.map((value) => el("option", { value })));
}

export function text(attributes = {}) {
  return el("input", { type: "text", autocomplete: "off", spellcheck: "false", ...attributes });
}

/** Runs a function when nothing has called again for a moment. */
export function settled(work, milliseconds = 150) {
  let timer = null;
  return () => {
    clearTimeout(timer);
    timer = setTimeout(work, milliseconds);
  };
}

// The head of each page.

const PAGES = [
  ["/", "Now"],
  ["/sheet", "Switching log"],
  ["/enter", "New switching"],
  ["/network", "Network"],
  ["/year", "Figures"],
  ["/shift", "Hand-over"],
];
const heading = document.querySelector("main h1");
heading.textContent = PAGES.find(([href]) => href === location.pathname)[1];
const state = el("span", { role: "status", class: "state" });
const printed = el("span", { class: "print-only" });
window.addEventListener("beforeprint", () => { printed.textContent = `Printed ${new Date().toLocaleDateString("sv-SE")} ${time()} by this computer's clock`; });
const alarmWords = el("summary", {});
const banner = el("div", { class: "alarm", role: "alert", hidden: true }, el("details", {}, alarmWords));
const news = new News(() => showTitle());

function head() {
  const links = PAGES.map(([href, name]) =>
    el("a", { href, "aria-current": location.pathname === href ? "page" : null }, name),
  );
  const me = known.me;
  const rename = me.asks_name && me.could_send ? el("button", { type: "button", class: "small", "aria-label": "Change name", click: () => askName(true) }, "Change") : "";
  const who = el("span", {}, me.name ? `You are ${me.name}${me.may_send ? "" : ", looking only"}` : me.could_send ? "No name yet" : "Looking only");
  title = `${heading.textContent} - ${me.training ? "TRAINING - " : ""}${me.book} - outage book`;
  document.body.classList.toggle("training", me.training);
  document.getElementById("head").replaceChildren(
    el("b", { class: "book" }, `${me.training ? "TRAINING: " : ""}${me.book}`),
    el("nav", { "aria-label": "Pages" }, links),
    el("div", { class: "who" }, state, who, rename, printed),
  );
  links.find((link) => link.hasAttribute("aria-current"))?.scrollIntoView({ block: "nearest", inline: "center" }); // on a phone the links scroll
  const line = el("div", { class: "line" }, unanswered(), banner, news.element);
  heading.replaceWith(el("div", { class: "page-top" }, line));
  line.prepend(heading);
  showTitle();
}

/** Sets a text where it is another one: what is set again would be read out again. */
function say(place, words) {
  if (place.textContent !== words) place.textContent = words;
}

const alarms = new Map(); // why what is shown may be old or wrong, by what it comes from
let title = `${heading.textContent} - outage book`;
showTitle();

/** The tab's title: an alarm, or how many outages are new, comes first. */
function showTitle() {
  const sign = alarms.size ? "(!) " : news.unseen.length ? `(${news.unseen.length}) ` : "";
  document.title = sign + title;
}

/** Shows or takes back an alarm: in the page's top line, which stays in sight and keeps its height, so that nothing that somebody is
 * about to click moves; a red frame around the window; and a sign in the tab. What the line has no room for unfolds. */
function alarm(name, words) {
  if (words) alarms.set(name, words);
  else alarms.delete(name);
  const all = [...alarms.values()];
  showTitle();
  if (all.join("\n") === banner.dataset.told) return;
  banner.dataset.told = all.join("\n");
  banner.hidden = !all.length;
  if (all.length && news.said.contains(document.activeElement)) news.title.focus(); // what is said is covered: the list has it
  alarmWords.replaceChildren(...all.map((each) => el("p", {}, each)));
}

const time = () => new Date().toLocaleTimeString("en-GB");

export function showDesk(shown) {
  const words = { here: "Connected", away: "Not connected", none: "A copy of a book" };
  say(state, words[shown.desk]);
  alarm("server", null);
  alarm("desk", shown.desk === "away" && `The book's server is away: nothing can be saved now. What is shown is as of change no. ${shown.number} of the book. The screen tries again each second. (${shown.why})`);
  alarm("differs", shown.differs && `What is shown may be old: ${shown.differs}.`);
}

let nameField = null; // of the form that asks for it, while it is there

/** Whether somebody could send, who has given no name yet. */
export const lacksName = () => known.me.asks_name && known.me.could_send && !known.me.name;

/** Leads to the form that asks for the name. */
export function toName(event) {
  event.preventDefault();
  nameField?.scrollIntoView({ block: "center" });
  nameField?.focus({ preventScroll: true });
}

function askName(again = false) {
  const given = text({ maxlength: 16, required: true, value: known.me.name });
  const trouble = el("p", {});
  const form = el(
    "form",
    {
      class: "card",
      submit: async (event) => {
        event.preventDefault();
        try {
          await post("/api/name", JSON.stringify({ name: given.value }));
          location.reload();
        } catch (error) {
          trouble.replaceChildren(el("span", { class: "bad" }, error.message));
        }
      },
    },
    field("Your name, for what you enter (upper case; 1 to 16 of A-Z, 0-9, - and _)", given),
    trouble,
    el("div", { class: "buttons" }, el("button", { class: "main" }, "This is my name")),
  );
  document.querySelector("main .page-top").after(form);
  nameField = given;
  if (again) given.focus();
}

// Events.

export function onCommands(work) {
  listeners.push(work);
}

let seen = null; // the number of the last command whose news this page has taken in
let heardAt = null;
let isDue = false; // the page is hidden: it is shown again when somebody looks at it

function listen() {
  const heard = (event) => {
    const isLater = event.number !== seen || (event.what === "hello" && heardAt !== null);
    seen = event.number;
    heardAt = time();
    showDesk(event);
    if (event.what === "commands") tell(event);
    else if (isLater) news.load();
    if (event.what === "commands" || isLater) renewAll(event);
  };
  const lost = (words) => {
    say(state, "Not connected");
    alarm("server", `WHAT IS SHOWN MAY BE OLD: ${words}. ${heardAt ? `Last news at ${heardAt} by this computer's clock.` : ""} This page tries again by itself.`);
  };
  document.addEventListener("visibilitychange", () => !document.hidden && isDue && renewAll({}));
  new Stream({ heard, lost });
}

function renewAll(event) {
  isDue = document.hidden;
  if (!isDue) listeners.forEach((work) => work(event));
}

// What no part of a page has dealt with is told all the same.
window.addEventListener("unhandledrejection", (event) => {
  if (!(event.reason instanceof Trouble)) return;
  event.preventDefault();
  news.say(event.reason.message, "bad");
});

function tell(event) {
  const command = event.command;
  news.add(event.outages);
  if (event.outages.length || (event.count === 1 && own.has(command.ref))) return;
  const who = senderOf(command.ref) ?? "Another program";
  const more = event.count > 1 ? `${event.count} changes; the last one: ` : "";
  const at = command.second ? ` at ${momentWords(command.second)}` : "";
  news.say(`${more}${who}: ${command.kind} ${command.fields.slice(0, 2).join(" ")}${at}. ${lostWords(event.moved, isLive() ? ", to the period's end" : "")}.`);
}

/** Who asks, and the book's names; asked for until the server answers. */
async function ask() {
  for (;;) {
    try {
      [known.me, known.book] = await Promise.all([get("/api/me"), get("/api/book")]);
      return;
    } catch (trouble) {
      heading.before(banner);
      alarm("server", `Nothing can be shown: ${trouble.message}. This page tries again by itself.`);
      await new Promise((resolve) => setTimeout(resolve, AGAIN_SECONDS * 1000));
    }
  }
}

/** Begins a page: who asks, the book's names, the head, the events. */
export async function begin(work) {
  await ask();
  head();
  showDesk(known.me);
  seen = known.me.number;
  news.load();
  if (lacksName()) askName();
  listen();
  try {
    await work();
  } catch (trouble) {
    if (!(trouble instanceof Trouble)) throw trouble;
    document.getElementById("main").append(el("p", { class: "bad" }, trouble.message));
  }
  document.body.dataset.ready = "yes";
}

export function reloadBook() {
  return get("/api/book").then((book) => (known.book = book));
}

export const feeders = () => [...new Set(known.book.nodes.map((node) => node.feeder).filter(Boolean))].sort((one, other) => one - other).map((each) => [String(each), String(each)]);
export const causes = () => known.book.causes.filter(([code]) => code > 0).map(([code, name]) => [String(code), `${code} ${name}`]);

/** Whose figures are those of the program, as this page gets them. */
export const source = () => (known.me.desk === "none" ? "from the book" : "from the book's server");

/** One line at a page's foot: where its figures come from. */
export function foot(words) {
  return el("div", { class: "note foot" }, `${words} Times are those of ${zoneName()}.`, keysNote());
}

/** Why nothing can be sent, for a page with a form; nothing where something can. */
export function lookOnly() {
  const { me } = known;
  if (me.may_send) return "";
  const why = me.desk === "none" ? "This is a copy of a book" : me.could_send ? "This login is for looking" : "This screen is for looking";
  const words = lacksName() ? "Give your name first" : why;
  return el("p", { class: "warn" }, `${words}: what a change would do is shown, and nothing can be sent.`);
}

const LETTERS = { crew: 16, name: 24 };

/** A field for a name: what the book can't hold is said beside it. Answers the note to show there. */
export function spelled(input, kind, most = LETTERS[kind]) {
  const note = el("div", { class: "note spelling", role: "status" });
  input.pattern = `[A-Za-z0-9_\\-]{1,${most}}`;
  const check = () => {
    const wrong = [...new Set(input.value.trim().replace(/[A-Za-z0-9_-]/g, ""))].map((each) => (each === " " ? "a space" : each));
    const words = wrong.length ? `A ${kind} has A-Z, 0-9, - and _ alone, and not ${wrong.join(", ")}.` : input.value.trim().length > most ? `A ${kind} has ${most} letters at most.` : "";
    input.setAttribute("aria-invalid", String(Boolean(words)));
    note.replaceChildren(words ? el("span", { class: "bad" }, words) : "");
  };
  input.addEventListener("input", check);
  check();
  return note;
}
