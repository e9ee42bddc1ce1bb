// Who is out at a second, and how the network stands.
import { fromAddress, toAddress } from "./address.js";
import { begin, el, foot, get, known, moment, momentWords, number, onCommands, painted, settled, source } from "./common.js";
import { MomentField } from "./moments.js";
import { Diagram } from "./diagram.js";
import { Outages } from "./outages.js";

const AGAIN_SECONDS = 15; // after which a page that shows the time that is now is shown again
const SLIDER_SECONDS = 600, DAY_SECONDS = 86400;
const NOT_READ = 422; // the status of a time that can't be read

const main = document.getElementById("main");
const tiles = el("div", { class: "tiles inline" });
const trouble = el("div", {});
const side = el("div", { class: "side" });
const diagram = new Diagram();
let at = fromAddress(["at"]).at ?? "";
let early = at ? null : get("/api/now").catch(() => null); // is asked for while the page's head is
let field, slider, outages, count = 0;

const link = (device) => `/enter?device=${encodeURIComponent(device.name)}${at && `&at=${encodeURIComponent(at)}`}`;
const tile = (isOut, words, value, more = "") => el("div", { class: isOut ? "tile out" : "tile" }, `${words} `, el("b", {}, value), more && ` ${more}`);

async function show({ anew = false } = {}) {
  const mine = ++count;
  let shown = await early;
  early = null;
  try {
    shown ??= await get("/api/now", at ? { at } : {});
  } catch (error) {
    if (error.status !== NOT_READ && outages.shown) throw error; // the rows stay where they are: the page's top says that they may be old
    if (mine === count) trouble.replaceChildren(el("p", { class: "bad" }, error.message));
    return;
  }
  if (mine !== count) return; // a later question was asked meanwhile
  trouble.replaceChildren();
  if (!at) slider.value = shown.at.second;
  slider.setAttribute("aria-valuetext", momentWords(shown.at.text));
  outages.at = at;
  const found = outages.show(shown, { anew });
  tiles.replaceChildren(
    tile(shown.customers_out, "Customers without supply", number(shown.customers_out), `of ${number(shown.customers_served)} in service`),
    tile(found, "Outages", number(found)),
    tile(found, "Sections without supply", number(shown.outages.reduce((sum, row) => sum + row.sections.length, 0))),
    outages.whole,
    el("div", { class: "tile" }, "As of ", el("b", { class: "when" }, moment(shown.at))),
  );
  document.body.dataset.number = shown.number;
  await painted();
  if (mine === count) diagram.show(shown, link);
}

function goTo(second) {
  at = second;
  toAddress({ at });
  return show({ anew: true });
}

/** The arrows move the slider by its step, these keys by a day. */
function byDays(event) {
  const days = { PageUp: 1, PageDown: -1 }[event.key];
  if (!days) return;
  event.preventDefault();
  slider.value = Number(slider.value) + days * DAY_SECONDS;
  slider.dispatchEvent(new Event("input"));
}

/** The address of a new outage leads to its row; the same one can be asked for again. */
function toRow() {
  const key = location.hash.slice(1);
  if (!/^entry-[0-9]+$/.test(key)) return;
  history.replaceState(null, "", location.pathname + location.search);
  outages.point(key);
}

function controls() {
  const { first, last } = known.book;
  const moved = settled(() => {
    if (field.second === null || field.second === at) return;
    if (field.second) slider.value = field.second;
    goTo(field.second);
  }, 50);
  field = new MomentField("Go to time", "", moved, { may_be_empty: true });
  slider = el("input", {
    type: "range", min: first.second, max: last.second, step: SLIDER_SECONDS, value: last.second, "aria-label": "Time in the period", keydown: byDays,
    input: settled(() => { const second = slider.value; field.set(second).then(() => goTo(second)); }, 60),
  });
  const now = el("button", { type: "button", click: () => { field.input.value = ""; field.second = ""; field.told.replaceChildren(); goTo(""); } }, "Now");
  const row = el("div", { class: "row" }, outages.fields(), field.element, now);
  const narrow = matchMedia("(max-width: 40rem)").matches;
  const card = el("form", { class: "card short", submit: (event) => event.preventDefault(), "aria-label": "Filter and time" }, row, slider);
  return el("details", { class: "search beside no-print", open: !narrow }, el("summary", {}, "Filter, order, time"), card);
}

begin(async () => {
  outages = new Outages((isAny) => side.classList.toggle("listed", isAny));
  const shownControls = controls();
  side.append(outages.element, diagram.element);
  main.append(tiles, trouble, shownControls, side, foot(`Who is without supply is ${source()}.`));
  onCommands(() => show());
  if (at) {
    await field.set(at);
    slider.value = field.second;
  }
  await show();
  toRow();
  window.addEventListener("hashchange", toRow);
  setInterval(() => at || show(), AGAIN_SECONDS * 1000);
});
