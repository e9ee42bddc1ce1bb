// The figures: up to now where the period goes on, and of the whole period as the desk answers them; marks, imports, downloads.
import { begin, choice, el, field, foot, get, inMinutes, known, list, moment, number, onCommands, post, reloadBook, renew, scrolling, source, table, text } from "./common.js";
import { Draft } from "./drafts.js";
import { IMPORT_SECONDS } from "./requests.js";
import { markedDays } from "./marks.js";
import { Sender } from "./sender.js";

const main = document.getElementById("main");
const figures = el("div", {});
let early = get("/api/year").catch(() => null); // is asked for while the page's head is

/** A fraction in per cent, to three decimals, rounded half up. */
function percent(fraction) {
  const [part, whole] = fraction.split("/").map(BigInt);
  const thousandths = (200000n * part + whole) / (2n * whole);
  return `${thousandths / 1000n}.${String(thousandths % 1000n).padStart(3, "0")} %`;
}

/** An index for reading: its decimals, an availability in per cent. */
function decimals(name, value) {
  const [fraction, rounded] = value;
  return rounded === undefined ? fraction : name === "ASAI" ? percent(fraction) : rounded;
}

/** An index with its exact fraction, small, behind it. */
function indexCell(name, value) {
  if (!value) return "";
  const [fraction, rounded] = value;
  return el("span", { class: "index" }, el("b", {}, decimals(name, value)), rounded === undefined ? "" : el("span", { class: "fraction" }, ` ${fraction}`));
}

/** The share of an amount in the whole, as a bar and in per cent. */
function share(amount, whole) {
  const part = whole ? (100 * amount) / whole : 0;
  const words = amount && part < 0.1 ? "< 0.1 %" : `${part.toFixed(1)} %`;
  return el("span", { class: "share" }, el("meter", { min: 0, max: 100, value: part, "aria-hidden": "true" }), el("span", {}, words));
}

/** Amounts by name, each with its share; `later` has those to the period's end, where the first ones are up to now. */
function amounts(rows, head, later = null) {
  const whole = rows.reduce((sum, [, amount]) => sum + amount, 0);
  const heads = [head, later ? "#customer-seconds up to now" : "#customer-seconds", "share", ...(later ? ["#to the period's end"] : [])];
  return table(heads, rows.map(([name, amount], at) => [name, number(amount), share(amount, whole), ...(later ? [number(later[at])] : [])]), `Customer-seconds by ${head}`);
}

const tile = (name, words, unit) => el("div", { class: "tile" }, `${name} `, el("b", {}, words), ` ${unit}`);
const lost = (seconds) => tile("Customer-minutes lost", number(inMinutes(seconds)), `${number(seconds)} customer-seconds`);

function indexTiles(indices) {
  const units = { SAIDI: "minutes per customer", SAIFI: "interruptions per customer", CAIDI: "minutes per interruption", ASAI: "of the time supplied" };
  return Object.entries(units).map(([name, unit]) => tile(name, decimals(name, indices[name].all), unit));
}

/** What is open counts to the period's end: that is said before any figure of the whole period. */
function openBanner({ open, to_now }) {
  if (!open) return to_now ? el("p", { class: "good open-outages" }, "No outage is open.") : "";
  const end = known.book.days.at(-1);
  const words = `${number(open)} outage${open > 1 ? "s are" : " is"} open and count${open > 1 ? "" : "s"} to the period's end, ${end}, in every figure of the whole period.`;
  return el("p", { class: "warn open-outages" }, words);
}

function toNowPart({ to_now: toNow, open }) {
  return el("section", { class: "to-now", "aria-label": "Up to now" },
    el("h2", {}, "Up to now, ", moment(toNow.at)),
    el("p", { class: "counted" }, `From ${known.book.days[0]} on. What is open is counted up to now${open ? `: ${number(open)} outage${open > 1 ? "s" : ""}` : ""}.`),
    el("div", { class: "tiles" }, indexTiles(toNow.indices), lost(toNow.W)));
}

function wholePart(shown) {
  const { W, S, P } = shown.totals;
  const title = shown.to_now ? `To the period's end${shown.open ? ", if nothing is closed before" : ""}` : "The period";
  const service = tile("Customer time in service", number(inMinutes(S)), "customer-minutes");
  return el("section", { class: "whole", "aria-label": title },
    el("h2", {}, title), el("p", { class: "mono" }, shown.heading),
    el("div", { class: "tiles" }, indexTiles(shown.indices), lost(W), service, tile("Length of the period", number(P), "seconds")));
}

/** Rows of name and amount: up to now where the period goes on, with the whole period's beside them. */
function amountParts(shown) {
  const whole = { causes: shown.causes.map((row) => [`${row[0]} ${row[1]}`, Number(row[2]), Number(row[0])]), feeders: shown.feeders.map((row) => [`feeder ${row[0]}`, Number(row[1]), Number(row[0])]) };
  const part = (name, head) => {
    if (!shown.to_now) return amounts(whole[name], head);
    const now = new Map(shown.to_now[name]);
    return amounts(whole[name].map(([words, , key]) => [words, now.get(key) ?? 0]), head, whole[name].map(([, amount]) => amount));
  };
  return el("section", {}, el("h2", {}, "Causes"), part("causes", "cause"), el("h2", {}, "Feeders"), part("feeders", "feeder"));
}

/** Days that have passed: what an open outage counts on days to come isn't shown by day. */
function daysPart(shown) {
  const name = (day, isMarked) => (isMarked ? `${day} marked` : day);
  const rows = shown.to_now ? shown.to_now.days.map(([day, amount, isMarked]) => [name(day, isMarked), amount]) : shown.days.map((row) => [name(row[0], row.at(-1) === "marked"), Number(row[1])]);
  const note = `Customer-seconds that fall on a day: not the standard's daily SAIDI. Days without any aren't listed${shown.to_now ? ", nor days to come" : ""}.`;
  return el("section", {}, el("h2", {}, "Days, latest first"), el("p", { class: "note" }, note), scrolling("Days", amounts([...rows].reverse(), "day")));
}

async function show() {
  let shown = await early;
  early = null;
  try {
    shown ??= await get("/api/year");
  } catch (trouble) {
    if (figures.children.length) throw trouble; // the figures stay: the page's top says that they may be old
    figures.replaceChildren(el("p", { class: "bad" }, trouble.message));
    return;
  }
  const indices = Object.entries(shown.indices).map(([name, sets]) => [name, indexCell(name, sets.all), indexCell(name, sets.unmarked)]);
  const note = "Decimals are rounded; the fraction behind them is the figure. SAIDI and CAIDI in minutes.";
  renew(
    figures,
    openBanner(shown),
    shown.to_now ? toNowPart(shown) : shown.why ? el("p", { class: "warn" }, `Figures up to now can't be had: ${shown.why}.`) : "",
    wholePart(shown),
    el("div", { class: "two" },
      el("section", {}, el("h2", {}, shown.to_now ? "Indices, to the period's end" : "Indices"), table(["index", "#all", "#without major event days"], indices, "Indices"), el("p", { class: "note" }, note)),
      amountParts(shown),
    ),
    daysPart(shown),
    foot(`Figures of the whole period are ${source()}${shown.to_now ? "; those up to now are these, less what outages count after that time" : ""}.`),
  );
}

function markForm() {
  const kind = choice([["mark", "Mark as a major event day"], ["unmark", "Take the mark away"]]);
  const day = text({ list: "days", placeholder: known.book.today });
  const read = () => (/^\d{4}-\d\d-\d\d$/.test(day.value.trim()) ? { kind: kind.value, f1: day.value.trim(), f2: known.me.name } : null);
  const form = el("form", { class: "card" }, el("h2", {}, "Mark a day"), list("days", known.book.days), field("What", kind), field("Day", day, `Marked by ${known.me.name}.`));
  const sender = new Sender({ read, form, lock: (locked) => [kind, day].forEach((input) => (input.disabled = locked)) });
  for (const input of [kind, day]) input.addEventListener("input", sender.update);
  sender.draft = new Draft("mark", form, () => [kind.value, day.value]);
  sender.draft.restore((typed) => ([kind.value, day.value] = typed));
  sender.update();
  form.append(sender.element);
  return form;
}

function importForm() {
  const file = el("input", { type: "file", accept: ".csv,text/csv" });
  const report = el("div", { role: "status" });
  const button = el("button", { class: "main" }, "Import");
  const send = async (event) => {
    event.preventDefault();
    if (!file.files.length) return;
    button.disabled = true;
    report.replaceChildren(el("p", { class: "ask" }, "On its way."));
    try {
      report.replaceChildren(reportOf(await post("/api/import", await file.files[0].arrayBuffer(), { type: "text/csv", seconds: IMPORT_SECONDS })));
    } catch (trouble) {
      report.replaceChildren(trouble.shown.reply ? reportOf(trouble.shown) : el("p", { class: "bad" }, `${trouble.message} The same file may be sent again: what is known counts once.`));
    }
    button.disabled = false;
  };
  return el("form", { class: "card", submit: send }, el("h2", {}, "Import a CSV of changes"), field("File, up to 4 MB", file), el("div", { class: "buttons" }, button), report);
}

function reportOf(shown) {
  const { added, again, stopped } = shown.reply;
  const words = `Added ${added}, known before ${again}.`;
  if (!stopped) return el("p", { class: "good imported" }, words);
  return el("div", { class: "bad imported" }, el("p", {}, `${words} Stopped at row ${stopped.row}: refused ${stopped.refused} ${stopped.name} ${stopped.detail ?? ""}. The rows before it are saved.`), el("p", { class: "mono" }, shown.text));
}

begin(async () => {
  const links = [["/report", "The printed report (opens another tab)"], ["/download/table.txt", "Annual table (saves a file)"], ["/download/commands.csv", "All changes as CSV (saves a file)"], ["/download/moves.csv", "What each changed, as CSV (saves a file)"]];
  const mark = known.me.may_send ? markForm() : null;
  main.append(
    el("div", { class: "buttons no-print" }, links.map(([href, words]) => el("a", { href, target: href === "/report" ? "_blank" : null, rel: "noopener" }, words))),
    figures,
    markedDays(),
    mark ? el("div", { class: "two no-print" }, mark, importForm()) : "",
  );
  onCommands(() => { show(); reloadBook(); });
  await show();
});
