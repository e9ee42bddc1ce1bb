// Outages: what one switching cut off and is still without supply, largest first; filtered and sorted by the page's address.
import { fromAddress, toAddress } from "./address.js";
import { breakable, BRIEF, causes, choice, duration, el, feeders, field, known, lacksName, number, settled, text, toName } from "./common.js";
import { momentFrom, ticketOf } from "./elements.js";
import { KeyedTable } from "./keyed.js";

const HEADS = ["cut off by", "#customers", "sections", "#feeder", "since", "#for", "cause", "crew", "entry", "supplied again", "~close"];
const ORDERS = { largest: "largest first", longest: "longest first", newest: "newest first", feeder: "by feeder" };

/** The outages, each with the key of its row and whether its device is closed again. */
function outagesOf({ outages, devices }) {
  const closed = new Map(devices.map((device) => [device.name, device.closed]));
  return outages.map((row) => ({ ...row, key: row.entry ? `entry-${row.entry}` : `none-${row.since.second}`, isClosed: closed.get(row.device) ?? false }));
}

const bySize = (one, other) => other.customers - one.customers || other.sections.length - one.sections.length || one.since.second - other.since.second || one.entry - other.entry;
const SORTS = {
  largest: bySize,
  longest: (one, other) => one.since.second - other.since.second || bySize(one, other),
  newest: (one, other) => other.since.second - one.since.second || (other.entry ?? 0) - (one.entry ?? 0) || bySize(one, other),
  feeder: (one, other) => one.feeders[0] - other.feeders[0] || bySize(one, other),
};

/** All that is searched in an outage. */
const wordsOf = (outage) => [outage.device, outage.crew, outage.reference, ...outage.sections.map((row) => row.section)].join(" ").toUpperCase();

/** What the fields ask for, kept in the page's address: a link, a reload and the way back show the same. */
export class Outages {
  constructor(filled) {
    this.wanted = { feeder: "", cause: "", text: "", order: "", ...fromAddress(["feeder", "cause", "text", "order"]) };
    this.table = new KeyedTable(HEADS, "outages", "Outages, by what cut them off", "supplied again", filled);
    this.title = el("h2", {});
    this.none = el("div", { role: "status" });
    this.whole = el("div", { class: "whole-book", hidden: true }, "of the whole book"); // beside figures that no field filters
    this.element = el("section", { "aria-label": "Outages", class: "list" }, this.title, this.none, this.table.element);
    this.shown = null;
  }

  fields() {
    this.inputs = {
      feeder: choice([["", "all"], ...feeders()], this.wanted.feeder),
      cause: choice([["", "all"], ...causes()], this.wanted.cause),
      text: text({ value: this.wanted.text, "data-search": "yes" }),
      order: choice(Object.entries(ORDERS), this.wanted.order || "largest"),
    };
    const later = settled(() => this.change(), 100);
    for (const input of Object.values(this.inputs)) input.addEventListener("input", later);
    const labels = { feeder: "Feeder", cause: "Cause", text: "Device, section, crew", order: "Order" };
    return Object.entries(labels).map(([name, label]) => field(label, this.inputs[name]));
  }

  change() {
    for (const [name, input] of Object.entries(this.inputs)) this.wanted[name] = input.value.trim();
    if (this.wanted.order === "largest") this.wanted.order = "";
    toAddress(this.wanted);
    if (this.shown) this.show(this.shown, { anew: true });
  }

  clear() {
    for (const name of ["feeder", "cause", "text"]) this.inputs[name].value = "";
    this.change();
  }

  isWanted(outage) {
    const { feeder, cause, text: words } = this.wanted;
    if (feeder && !outage.feeders.includes(Number(feeder))) return false;
    if (cause && String(outage.cause ?? 0) !== cause) return false;
    return words.toUpperCase().split(/\s+/).every((word) => wordsOf(outage).includes(word));
  }

  show(shown, { anew = false } = {}) {
    this.shown = shown;
    const all = outagesOf(shown);
    const found = all.filter((outage) => this.isWanted(outage)).sort(SORTS[this.wanted.order] ?? SORTS.largest);
    const isFiltered = found.length < all.length;
    this.title.textContent = all.length ? `${isFiltered ? `${number(found.length)} of ` : ""}${number(all.length)} outage${all.length > 1 ? "s" : ""}` : "Outages";
    this.say(all, isFiltered);
    this.table.show(found.map((outage) => ({ key: outage.key, cells: this.cells(outage) })), { anew });
    this.whole.hidden = !this.isAsked;
    return all.length;
  }

  /** Leads to a row, by the keyboard too; what isn't there has supply again, or is hidden by a filter. */
  point(key) {
    const row = this.table.rows.get(key)?.element;
    row?.focus();
    row?.scrollIntoView({ block: "center" });
    if (row) return;
    this.none.dataset.told = key; // until the rows are shown again
    this.none.replaceChildren(el("p", { class: "warn" }, this.shown.outages.some((each) => `entry-${each.entry}` === key) ? "A filter hides this outage." : "This outage is over: its sections have supply again."));
  }

  /** Whether the fields ask for some outages alone. */
  get isAsked() {
    const { feeder, cause, text: words } = this.wanted;
    return Boolean(feeder || cause || words);
  }

  /** Nothing is out, or nothing of what is looked for; a filter that hides outages says so. */
  say(all, isFiltered) {
    const words = all.length ? isFiltered && "Not all outages are shown." : "All sections are supplied.";
    if ((this.none.dataset.told ?? "") === (words || "")) return;
    this.none.dataset.told = words || "";
    const clearing = el("button", { type: "button", class: "clear", click: () => this.clear() }, "Show all");
    this.none.replaceChildren(words ? el("p", { class: all.length ? "warn" : "good" }, words, " ", all.length ? clearing : "") : "");
  }

  cells(outage) {
    const { at } = this.shown;
    const names = outage.sections.map((row) => row.section).join(", ");
    return [
      outage.device ? this.linked(outage) : "no switching",
      number(outage.customers),
      { told: `${names} ${outage.customers}`, make: () => unfolded(outage, names) },
      outage.feeders.join(", "),
      { told: `${outage.since.text} ${at.text.slice(0, 10)}`, make: () => momentFrom(outage.since, at) },
      duration(at.second - outage.since.second, 2),
      outage.device ? `${outage.cause} ${outage.cause_name}` : "0 UNASSIGNED",
      outage.crew || "",
      outage.entry ? { told: `${outage.entry} ${outage.reference}`, make: () => entryLink(outage) } : "",
      outage.until ? { told: outage.until.text, make: () => momentFrom(outage.until, at) } : { told: "open", make: () => el("span", { class: "open" }, "open") },
      this.closing(outage),
    ];
  }

  linked(outage) {
    const href = this.form(outage);
    return { told: href, make: () => el("a", { class: outage.device.length > BRIEF ? "outage" : "outage nowrap", href }, breakable(outage.device)) };
  }

  /** The form of an outage, filled in. */
  form(outage, more = {}) {
    return `/enter?${new URLSearchParams({ entry: outage.entry, ...more, ...(this.at ? { at: this.at } : {}) })}`;
  }

  /** The way to the form that closes the device, or first to that of one's name; one that is closed lies under another that is
   * open. */
  closing(outage) {
    if (!outage.device || !(known.me.may_send || lacksName())) return "";
    if (outage.isClosed) return "closed, still cut off";
    if (lacksName()) return { told: "name", make: () => el("a", { class: "to-name", href: "#your-name", "aria-label": `Close ${outage.device}: give your name first`, click: toName }, "Close ", el("span", { class: "note" }, "name first")) };
    const href = this.form(outage, { close: "yes" });
    return { told: href, make: () => el("a", { class: "close", href, "aria-label": `Close ${outage.device}` }, "Close") };
  }
}

/** How many sections, or the name of the one; unfolded, each with its customers. */
function unfolded(outage, names) {
  const rows = outage.sections.map((row) => el("li", {}, row.section, el("span", { class: "note" }, ` ${number(row.customers)}`)));
  const one = rows.length === 1 && el("span", { class: "one" }, breakable(names));
  const summary = el("summary", {}, one || "", el("span", { class: one ? "many" : null }, `${rows.length} section${one ? "" : "s"}`));
  const toggle = ({ target }) => target.closest("tr")?.classList.toggle("unfolded", target.open);
  return [el("details", { toggle }, summary, el("ul", { class: "names" }, rows)), el("span", { class: "print-only" }, names)];
}

/** An entry's number, and its ticket's. */
function entryLink({ entry, reference }) {
  const ticket = ticketOf(reference);
  return [el("a", { href: `/sheet?entry=${entry}`, "aria-label": `Entry ${entry}` }, String(entry)), ...(ticket ? [" ", ticket.length > BRIEF ? breakable(ticket) : el("span", { class: "nowrap" }, ticket)] : [])].flat();
}
