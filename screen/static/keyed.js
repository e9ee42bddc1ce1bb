// A table whose rows are kept by key: what is the same stays as it is, so that a selected text, the focus and the row under the
// pointer stay where they are.
import { breakable, BRIEF, COLUMNS } from "./common.js";
import { el } from "./elements.js";

const HELD_SECONDS = 120; // after the last sign of a reader: a page that nobody touches shows its rows in their order
const TOUCHED_SECONDS = 10; // after a finger, which points at nothing between two touches

/** A cell's text as it is shown; a cell is a text, or `told` with what makes its content anew. */
const toldOf = (cell) => (typeof cell === "string" ? cell : cell.told);

export class KeyedTable {
  /** Heads as those of `table`; `ended` is said in a row that isn't wanted any more while the table is held. Roles are told,
   * since rows that are laid out as cards have none of their own. `filled` hears whether there are rows. */
  constructor(heads, name, caption, ended, filled) {
    this.filled = filled;
    this.heads = heads;
    this.ended = ended;
    this.rows = new Map(); // by key: the row's element, its cells, and what they tell
    this.wanted = [];
    this.isPointed = false;
    this.touched = 0; // when the reader last gave a sign
    this.body = el("tbody", { role: "rowgroup" });
    const head = heads.map((words) => el("th", { scope: "col", role: "columnheader", class: COLUMNS[words[0]] }, words.replace(/^[#~]/, "")));
    const top = el("thead", { role: "rowgroup" }, el("tr", { role: "row" }, head));
    this.element = el("div", { class: "scroll" }, el("table", { class: name, role: "table" }, el("caption", { class: "hidden" }, caption), top, this.body));
    this.body.addEventListener("pointerenter", () => { this.isPointed = true; this.touch(); });
    this.body.addEventListener("pointerleave", () => { this.isPointed = false; this.settle(); });
    this.body.addEventListener("focusout", () => setTimeout(() => this.settle()));
    document.addEventListener("selectionchange", () => { this.touch(); this.settle(); });
    this.body.addEventListener("touchstart", () => this.hold(), { passive: true });
    for (const name of ["pointermove", "focusin", "keydown"]) this.body.addEventListener(name, () => this.touch());
  }

  touch() {
    this.touched = Date.now();
  }

  hold() {
    clearTimeout(this.finger);
    this.finger = setTimeout(() => { this.finger = null; this.settle(); }, TOUCHED_SECONDS * 1000);
  }

  /** Somebody points at a row or has just touched one, goes over them by the keyboard, or has selected some of their text: no row moves meanwhile. */
  get isHeld() {
    if (this.finger) return true;
    if (Date.now() - this.touched > HELD_SECONDS * 1000) return false;
    const selected = document.getSelection();
    const isSelected = selected && !selected.isCollapsed && selected.containsNode(this.body, true);
    return this.isPointed || isSelected || this.body.querySelector(":focus-visible") !== null;
  }

  settle() {
    if (this.isLate && !this.isHeld) this.show(this.wanted);
  }

  /** Shows rows with a key and cells, in their order; `anew` where the reader has asked for another order or other rows. */
  show(wanted, { anew = false } = {}) {
    this.wanted = wanted;
    const isHeld = this.isHeld && !anew;
    const keys = new Set(wanted.map(({ key }) => key));
    const ended = [...this.rows.keys()].filter((key) => !keys.has(key));
    for (const key of ended) {
      if (isHeld) this.end(this.rows.get(key));
      else {
        this.rows.get(key).element.remove();
        this.rows.delete(key);
      }
    }
    for (const row of wanted) this.patch(row);
    if (!isHeld) this.order();
    this.element.hidden = !this.rows.size;
    this.filled(this.rows.size > 0);
    this.isLate = isHeld && (ended.length > 0 || wanted.some(({ key }, at) => this.body.children[at] !== this.rows.get(key).element));
  }

  end(row) {
    row.element.classList.add("ended");
    row.element.lastElementChild.replaceChildren(this.ended);
    row.told[row.told.length - 1] = this.ended;
  }

  /** Brings a row's cells up to date; a row that is new comes last. */
  patch({ key, cells }) {
    let row = this.rows.get(key);
    if (!row) {
      const places = cells.map((_, at) => el("td", { role: "cell", class: COLUMNS[this.heads[at][0]], "data-label": this.heads[at].replace(/^[#~]/, "") }));
      row = { element: el("tr", { "data-key": key, role: "row", tabindex: "-1" }, places), told: [] };
      this.rows.set(key, row);
      this.body.append(row.element);
    }
    row.element.classList.remove("ended");
    cells.forEach((cell, at) => {
      if (row.told[at] === toldOf(cell)) return;
      this.fill(row.element.children[at], cell);
      row.told[at] = toldOf(cell);
    });
  }

  fill(place, cell) {
    const text = place.firstChild;
    if (typeof cell !== "string") {
      const wasOpen = place.querySelector("details")?.open;
      place.replaceChildren(...[cell.make()].flat());
      if (wasOpen) place.querySelector("details")?.setAttribute("open", "");
    } else if (text?.nodeType === Node.TEXT_NODE && place.childNodes.length === 1 && cell.length <= BRIEF) text.nodeValue = cell;
    else place.replaceChildren(...breakable(cell));
    if (typeof cell === "string" && !place.classList.contains("n")) place.classList.toggle("brief", cell.length <= BRIEF);
  }

  order() {
    this.wanted.forEach(({ key }, at) => {
      const { element } = this.rows.get(key);
      if (this.body.children[at] !== element) this.body.insertBefore(element, this.body.children[at] ?? null);
    });
  }
}
