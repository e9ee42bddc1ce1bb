// The switching log: entries, what each command moved, corrections and withdrawals; and the screen's own log.
import { fromAddress, toAddress } from "./address.js";
import { begin, causes, choice, el, feeders, field, foot, get, known, list, lookOnly, momentWords, number, onCommands, renew, scrolling, settled, source, spelled, table, text, zoneName } from "./common.js";
import { Draft } from "./drafts.js";
import { listed, ticketOf } from "./elements.js";
import { MomentField } from "./moments.js";
import { movesTable } from "./forecast.js";
import { search as goToSearch } from "./keys.js";
import { entryWords, Sender } from "./sender.js";
import { shiftLog, showLog } from "./shiftlog.js";

const main = document.getElementById("main");
const detail = el("section", { id: "detail", tabindex: "-1", "aria-label": "An entry" });
const rows = el("section", { "aria-label": "Entries" });
const wanted = {};
let from = 0;
let opened = null;

const tags = (entry) => ["late", "corrected"].filter((name) => entry[name]).concat(entry.kept ? [] : ["withdrawn"]).map((name) => el("span", { class: `tag ${name}` }, name));

const NOT_READ = 422; // the status of a search that can't be read
const SEARCHED = { device: "device", cause: "cause", crew: "crew", section: "section", feeder: "feeder", day: "day", marked: "status" };
const ORDERS = {
  newest: ["latest switching", "by time of switching, latest first"],
  second: ["earliest switching", "by time of switching, earliest first"],
  entered: ["latest entry", "by time of entry, latest first"],
}; // in the field, and in the heading
const inputs = {};

/** What is searched for changed: the first rows of it are shown. */
function search() {
  for (const name of Object.keys(inputs)) wanted[name] = inputs[name].value.trim();
  from = 0;
  show();
}

/** Buttons for two days of the book: today and yesterday, or the last two of a period that is over. */
async function dayButtons() {
  const now = await get("/api/second");
  const today = now.text.slice(0, 10);
  const yesterday = new Date(Date.parse(`${today}T12:00:00Z`) - 86400000).toISOString().slice(0, 10);
  const days = now.goes ? [["Today", today], ["Yesterday", yesterday]] : [["Last day", today], ["Day before", yesterday]];
  const button = ([words, day]) => el("button", { type: "button", click: () => { inputs.day.value = day; search(); } }, words);
  return days.filter(([, day]) => known.book.days.includes(day)).map(button);
}

function clear() {
  for (const [name, input] of Object.entries(inputs)) if (name in SEARCHED) input.value = "";
  search();
}

async function filters() {
  const make = (name, input) => {
    inputs[name] = input;
    if (wanted[name]) input.value = wanted[name];
    input.addEventListener("input", settled(search));
    return input;
  };
  const { days } = known.book;
  return el(
    "form",
    { class: "card short", submit: (event) => event.preventDefault(), "aria-label": "Search" },
    list("devices", known.book.devices.map((each) => each.name)),
    list("crews", known.book.crews),
    list("sections", known.book.nodes.filter((node) => node.kind === 2).map((node) => node.name)),
    el(
      "div",
      { class: "row" },
      field("Device", make("device", text({ list: "devices", "data-search": "yes" }))),
      field("Cause", make("cause", choice([["", "any"], ...causes()]))),
      field("Crew", make("crew", text({ list: "crews" }))),
      field("Section", make("section", text({ list: "sections" }))),
      field("Feeder", make("feeder", choice([["", "any"], ...feeders()]))),
      el("div", { class: "together" }, field("Day", make("day", el("input", { type: "date", min: days[0], max: days[days.length - 1] }))), await dayButtons()),
      field("Status", make("marked", choice([["", "all"], ["late", "late"], ["corrected", "corrected"], ["withdrawn", "withdrawn"]]))),
      field("Order", make("order", choice(Object.entries(ORDERS).map(([name, [words]]) => [name, words])))),
    ),
  );
}

const searchWords = () => Object.entries(SEARCHED).filter(([name]) => wanted[name]).map(([name, words]) => `${words} ${wanted[name]}`).join(", ");
const clearing = () => el("div", { class: "buttons no-print" }, el("button", { type: "button", class: "clear", click: clear }, "Clear the search"));

/** Turns the pages of the list; which way they lead is said by the order. */
function turns(shown) {
  const [back, on] = wanted.order === "second" ? ["Earlier entries", "Later entries"] : ["Newer entries", "Older entries"];
  const turn = (by, words, ends) => el("button", { type: "button", disabled: ends, click: () => { from += by; show(); } }, words);
  const last = from + shown.rows.length;
  const place = el("span", {}, `${number(from + 1)}\u2013${number(last)} of ${number(shown.found)}`);
  return el("div", { class: "buttons turns no-print" }, turn(-100, back, from === 0), place, turn(100, on, last >= shown.found));
}

async function show() {
  let shown;
  toAddress({ ...wanted, order: wanted.order === "newest" ? "" : wanted.order, from: from ? String(from) : "" });
  try {
    shown = await get("/api/sheet", { ...wanted, from });
  } catch (trouble) {
    if (trouble.status !== NOT_READ && rows.children.length) throw trouble; // the rows stay: the head says that they may be old
    renew(rows, el("h2", {}, "Not searched"), el("p", { class: "bad" }, `${trouble.message}.`), searchWords() ? clearing() : "");
    return;
  }
  if (shown.day) inputs.day.value = shown.day; // a day in words, as its date
  const lines = shown.rows.map((entry) => [
    el("button", { type: "button", class: "small open-entry", "data-entry": entry.no, "aria-label": `Entry ${entry.no}: look, correct, withdraw`, click: () => open(entry.no) }, String(entry.no)),
    listed(entry.second),
    entry.device,
    entry.action,
    `${entry.cause} ${entry.cause_name}`,
    entry.crew,
    ticketOf(entry.reference),
    tags(entry).length ? el("span", {}, tags(entry)) : "",
  ]);
  const classes = shown.rows.map((entry) => (entry.kept ? "" : "gone"));
  const empty = searchWords() ? [el("p", { class: "warn" }, `No entries for ${searchWords()}.`), clearing()] : [el("p", {}, "The book has no entries yet.")];
  renew(
    rows,
    el("h2", {}, `${number(shown.found)} of ${number(shown.of)} entries, ${(ORDERS[wanted.order] ?? ORDERS.newest)[1]}${shown.found > lines.length ? `: ${number(from + 1)}\u2013${number(from + lines.length)}` : ""}`),
    ...(lines.length ? [table(["entry", "time", "device", "position", "cause", "crew", "reference", "status"], lines, "Entries", classes)] : empty),
    shown.found > 100 ? turns(shown) : "",
  );
  document.body.dataset.number = shown.number;
}

/** Somebody changed the entry that is open: it is offered as it is now. */
async function lookAgain() {
  if (!opened || opened.sender?.intent) return;
  const entry = await get(`/api/entries/${opened.no}`);
  if (entry.revision === opened.revision || detail.querySelector(".changed")) return;
  const again = el("button", { type: "button", class: "main anew", click: () => open(entry.no) }, "Look at it as it is now");
  const place = opened.sender?.outcome ?? detail.firstElementChild; // below what can be clicked, so that nothing moves
  place?.append(el("div", { class: "warn changed", role: "status" }, el("p", {}, `Somebody changed this entry: ${entryWords(entry)}`), again));
}

async function open(no, { kind = "correct" } = {}) {
  let entry;
  try {
    entry = await get(`/api/entries/${no}`);
  } catch (trouble) {
    detail.replaceChildren(el("p", { class: "bad" }, `Entry ${no} can't be shown: ${trouble.message}.`));
    return;
  }
  opened = { no: entry.no, revision: entry.revision, sender: null };
  toAddress({ entry: String(entry.no), withdraw: kind === "withdraw" ? "yes" : "" });
  const words = el("p", {}, entryWords(entry));
  const parts = [el("h2", {}, `Entry ${entry.no} `, tags(entry)), words];
  for (const command of entry.history) {
    const reply = command.text ? JSON.parse(command.text) : null;
    const words = `Change no. ${command.no} of the book: ${command.kind}, ${command.ref}${command.second ? `, ${momentWords(command.second)}` : ""}`;
    if (command.remark) parts.push(el("p", { class: "remark" }, `Remark: ${command.remark}`));
    parts.push(el("details", {}, el("summary", {}, words), reply ? scrolling("What it changed", movesTable(reply.moved)) : "the book's server gives no reply now"));
  }
  if (entry.kept && known.me.may_send) parts.push(work(entry, words, kind));
  parts.push(el("div", { class: "buttons" }, el("button", { type: "button", click: () => { opened = null; toAddress({ entry: "", withdraw: "" }); detail.replaceChildren(); rows.querySelector(`[data-entry="${no}"]`)?.focus(); } }, "Close")));
  detail.replaceChildren(el("div", { class: "card" }, parts));
  detail.focus();
}

/** A correction or a withdrawal, from the revision that is seen. */
function work(entry, words, asked) {
  const form = el("form", { class: "two wide" });
  const kind = choice([["correct", "Correct it"], ["withdraw", "Withdraw it"]], asked);
  const position = choice([["open", "open"], ["close", "close"]], entry.action);
  const cause = choice(causes(), String(entry.cause));
  const crew = text({ list: "crews", maxlength: 16, value: entry.crew });
  const changed = () => sender.update();
  const second = new MomentField(`Time (${zoneName()})`, momentWords(entry.second.text), changed, { touched: () => sender.age() });
  const told = el("div", {}, second.element, field("Position", position), field("Cause of the entry", cause), field("Crew of the entry", crew, spelled(crew, "crew")));
  const read = () => {
    const seen = { f1: String(entry.no), f2: String(entry.revision) };
    if (kind.value === "withdraw") return { kind: "withdraw", ...seen };
    const fields = [position.value, second.second, cause.value, crew.value.trim().toUpperCase()];
    const as_it_is = [entry.action, entry.second.second, entry.cause, entry.crew].join();
    if (fields.some((each) => !each) || fields.join() === as_it_is) return null;
    const [f3, f4, f5, f6] = fields;
    return { kind: "correct", ...seen, f3, f4, f5, f6 };
  };
  const inputs = [kind, position, cause, crew, second.input];
  const sender = new Sender({
    read,
    form,
    missing: "Change a field, or choose to withdraw it: what that would do is shown here before it is sent.",
    lock: (locked) => inputs.forEach((input) => (input.disabled = locked)),
    after: (shown, refused) => {
      if (shown) { opened.revision = entry.revision += 1; entry.kept = kind.value === "correct"; inputs.forEach((input) => (input.disabled = true)); get(`/api/entries/${entry.no}`).then((now) => words.replaceChildren(entryWords(now))); }
      if (refused?.entry) offerAnew(refused.entry);
    },
  });
  const offerAnew = (now) => {
    const again = el("button", { type: "button", class: "main anew", click: () => open(now.no) }, "Look at it as it is now");
    sender.outcome.append(el("div", { class: "buttons" }, again));
  };
  opened.sender = sender;
  told.hidden = kind.value === "withdraw";
  kind.addEventListener("input", () => { told.hidden = kind.value === "withdraw"; changed(); });
  for (const input of [position, cause, crew]) input.addEventListener("input", changed);
  const fields = el("div", {}, field("What", kind), told);
  form.append(fields, sender.element);
  sender.draft = new Draft(`${entry.no} ${entry.revision}`, fields, () => [kind.value, second.typed, position.value, cause.value, crew.value]);
  second.read().then(() => sender.draft.restore(async (typed) => {
    [kind.value, , position.value, cause.value, crew.value] = typed;
    told.hidden = kind.value === "withdraw";
    await second.set(typed[1]);
  }));
  return form;
}

begin(async () => {
  Object.assign(wanted, fromAddress([...Object.keys(SEARCHED), "order"]));
  from = Number(fromAddress(["from"]).from ?? 0) || 0;
  const narrow = matchMedia("(max-width: 40rem)").matches;
  main.append(lookOnly(), el("details", { class: "search no-print", open: !narrow }, el("summary", {}, "Search"), await filters()), detail, rows, shiftLog(), foot(`What each entry changed is ${source()}, in its own reply; status and search follow from what was entered.`));
  onCommands(() => { show(); showLog(); lookAgain(); });
  await Promise.all([show(), showLog()]);
  const asked = new URLSearchParams(location.search);
  if (location.hash === "#search") goToSearch();
  if (asked.get("entry")) open(asked.get("entry"), { kind: asked.has("withdraw") ? "withdraw" : "correct" });
});
