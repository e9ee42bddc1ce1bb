// The days that are marked, each with who marked it and, where the screen's log knows that, when.
import { el, get, onCommands, table } from "./common.js";
import { listed } from "./elements.js";

export function markedDays() {
  const place = el("div", {});
  const show = async () => {
    const rows = (await get("/api/marks")).map((row) => [row.day, row.engineer, row.at ? listed(row.at) : "", row.login]);
    place.replaceChildren(rows.length ? table(["day", "marked by", "sent", "login"], rows, "Marked days") : el("p", {}, "No day is marked."));
  };
  onCommands(show);
  show();
  return el("section", { "aria-label": "Marked days" }, el("h2", {}, "Marked days"), place);
}
