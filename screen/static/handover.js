// What a shift hands over, on paper too: open outages, what was entered or changed since a time, what ended, what else was sent,
// and the marked days.
import { fromAddress, toAddress } from "./address.js";
import { begin, duration, el, field, foot, get, known, number, onCommands, renew, settled, source, table, text } from "./common.js";
import { listed, toMinute } from "./elements.js";
import { markedDays } from "./marks.js";

const main = document.getElementById("main");
const parts = el("div", {});
const FIELDS = {
  since: ["Since", "eight hours ago", "As 06:00 for today, yesterday 22:00, or TODAY 06:00; a day alone from its start on."],
  until: ["Until", "now", "In the same way; a day alone up to its end."],
  name: ["Sent by", "everybody", "A login or a name, or a part of it."],
};
const inputs = Object.fromEntries(Object.entries(FIELDS).map(([name, [, placeholder]]) => [name, text({ placeholder, value: fromAddress([name])[name] ?? "" })]));
const asked = () => Object.fromEntries(Object.entries(inputs).map(([name, input]) => [name, input.value.trim()]));

const entryLink = (entry) => (entry ? el("a", { href: `/sheet?entry=${entry}` }, `entry ${entry}`) : "");
const withRemark = (words, { remark }) => (remark ? `${words} (${remark})` : words);
const deviceOf = (outage) => outage.device ?? "no switching";
const sectionsOf = ({ sections }) => `${number(sections.length)}: ${sections.map((row) => row.section).sort().join(", ")}`;
const done = (each, at) => el("div", {}, at ? "; " : "", `${each.what} at `, listed(each.at), withRemark(` by ${each.by}`, each));
const counted = (rows, found) => (rows.length === found ? number(found) : `the latest ${number(rows.length)} of ${number(found)}`);

/** A part of the page: its heading, and a table or the words where it has no rows. */
const part = (title, heads, rows, empty) => [el("h2", {}, title), rows.length ? table(heads, rows, title) : el("p", {}, empty)];

function openPart({ open, as_of }) {
  const sections = open.reduce((sum, row) => sum + row.sections.length, 0);
  const customers = open.reduce((sum, row) => sum + row.customers, 0);
  const rows = open.map((row) => [
    deviceOf(row), number(row.customers), listed(row.since), duration(as_of.second - row.since.second), row.entry ? `${row.cause} ${row.cause_name}` : "0 UNASSIGNED",
    row.feeders.join(", "), sectionsOf(row), row.crew ?? "", entryLink(row.entry), row.until ? listed(row.until) : "",
  ]);
  const heads = ["cut off by", "#customers", "since", "#for", "cause", "feeder", "sections", "crew", "entry", "ends at"];
  return part(`Open outages: ${number(open.length)}, of ${number(sections)} sections and ${number(customers)} customers`, heads, rows, "All sections are supplied.");
}

function enteredPart({ entered, entered_found }) {
  const rows = entered.map((row) => [
    entryLink(row.no), listed(row.second), row.device, row.action, `${row.cause} ${row.cause_name}`, row.crew,
    el("div", {}, [...row.done].reverse().map(done)), ["late", "corrected", "withdrawn"].filter((name) => row[name]).join(", "),
  ]);
  const heads = ["entry", "time", "device", "position", "cause", "crew", "what was done", "status"];
  return part(`Entered or changed: ${counted(entered, entered_found)}, each as it is now, by time of switching`, heads, rows, "No switching was entered or changed in this time.");
}

function endedPart({ ended }) {
  const rows = ended.map((row) => [deviceOf(row), number(row.customers), listed(row.since), listed(row.until), duration(row.until.second - row.since.second), sectionsOf(row), entryLink(row.entry)]);
  return part(`Outages that ended: ${number(ended.length)}`, ["cut off by", "#customers", "since", "ended", "#after", "sections", "entry"], rows, "No outage ended in this time.");
}

function restPart({ rest, rest_found }) {
  const rows = rest.map((row) => [listed(row.at), row.by, withRemark(row.words, row), row.result]);
  return part(`What else was sent, also what isn't saved: ${counted(rest, rest_found)}`, ["sent", "by", "change", "result"], rows, "Nothing else was sent in this time.");
}

function heading(shown) {
  const by = asked().name ? `, sent by ${asked().name}` : "";
  const count = shown.unanswered;
  return [
    el("p", {}, "From ", toMinute(shown.since), " up to ", toMinute(shown.until), by, `, as of change no. ${shown.number} of the book. The book's period goes from ${known.book.days[0]} to ${known.book.days.at(-1)}.`),
    count ? el("p", { class: "warn" }, `Changes without an answer: ${number(count)}. It isn't known whether they are saved.`) : "",
  ];
}

/** For paper: who hands over and who takes over, each with a name and a time. */
function signatures() {
  const line = (words) => el("p", {}, el("b", {}, words), ["name", "date and time", "signature"].map((each) => el("span", {}, each)));
  return el("section", { class: "signatures print-only", "aria-label": "Signatures" }, ["Handed over by", "Taken over by"].map(line));
}

async function show() {
  toAddress(asked());
  try {
    const shown = await get("/api/changes", asked());
    renew(parts, ...[heading, openPart, enteredPart, endedPart, restPart].flatMap((make) => make(shown)).filter(Boolean));
    document.body.dataset.number = shown.number;
  } catch (trouble) {
    if (trouble.status !== 422 && parts.children.length) throw trouble; // the rows stay: the page's top says that they may be old
    renew(parts, el("p", { class: "bad" }, `Not shown as asked: ${trouble.message}.`));
  }
}

begin(async () => {
  for (const input of Object.values(inputs)) input.addEventListener("input", settled(show));
  const print = el("button", { type: "button", class: "main", click: () => window.print() }, "Print");
  const fields = Object.entries(FIELDS).map(([name, [label, , note]]) => field(label, inputs[name], note.replace("TODAY", known.book.today)));
  const form = el("form", { class: "card short no-print", "aria-label": "Which time, and sent by whom", submit: (event) => event.preventDefault() }, el("div", { class: "row top" }, fields), el("div", { class: "buttons" }, print));
  main.append(form, parts, markedDays(), signatures(), foot(`Open outages are ${source()}; outages that ended follow from what was entered.`));
  onCommands(show);
  await show();
});
