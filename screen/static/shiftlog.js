// The screen's own log, one row for each sending: when, by whom, what, and what came of it; and the page that a shift hands over.
import { el, get, settled, table, text } from "./common.js";
import { listed } from "./elements.js";

const MOST = 60; // rows that are shown here; the page for the hand-over has all of a shift

const rows = el("div", { "aria-live": "polite" });
const since = text({ placeholder: "today, 06:00, yesterday 22:00", "aria-label": "Sent since" });
const name = text({ placeholder: "a login or a name", "aria-label": "Sent by" });
const query = () => ({ since: since.value.trim(), name: name.value.trim() });
const handover = () => `/shift?${new URLSearchParams(query())}`;
const link = el("a", { href: "/shift" }, "Hand-over of this shift, to be printed");

export async function showLog() {
  let shown;
  link.href = handover();
  try {
    shown = await get("/api/log", query());
  } catch (trouble) {
    rows.replaceChildren(el("p", { class: "bad" }, `${trouble.message}.`));
    return;
  }
  const lines = shown.slice(0, MOST).map((row) => [
    listed(row.at),
    row.by,
    row.remark ? `${row.words} (${row.remark})` : row.words,
    row.entry ? el("a", { href: `/sheet?entry=${row.entry}` }, row.result) : row.result,
    row.reference,
  ]);
  rows.replaceChildren(lines.length ? table(["sent", "by", "change", "result", "reference"], lines, "What was sent, latest first") : el("p", {}, "Nothing was sent."));
}

/** The log with its search, folded. */
export function shiftLog() {
  for (const input of [since, name]) input.addEventListener("input", settled(showLog));
  const search = el("div", { class: "row no-print" }, el("label", {}, "Since ", since), el("label", {}, "By ", name), link);
  return el("section", { "aria-label": "The screen's log" }, el("details", {}, el("summary", {}, "The screen's own log: who sent what, when; latest first"), search, rows));
}
