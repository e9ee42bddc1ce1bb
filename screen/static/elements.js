// Elements whose texts are set as text; numbers, moments, lengths of time, and references as they are shown.
import { known } from "./requests.js";

/** An element: attributes, listeners where a value is a function, and children, which are texts or elements. */
export function el(tag, attributes = {}, ...children) {
  const made = document.createElement(tag);
  fill(made, attributes, children);
  return made;
}

export function svg(tag, attributes = {}, ...children) {
  const made = document.createElementNS("http://www.w3.org/2000/svg", tag);
  fill(made, attributes, children);
  return made;
}

function fill(made, attributes, children) {
  for (const [name, value] of Object.entries(attributes)) {
    if (typeof value === "function") made.addEventListener(name, value);
    else if (value === true) made.setAttribute(name, "");
    else if (value !== false && value !== null && value !== undefined) made.setAttribute(name, value);
  }
  made.append(...children.flat().filter((child) => child !== null && child !== undefined && child !== ""));
}

export function number(value) {
  return Number(value).toLocaleString("en-US").replaceAll(",", "\u2009");
}

export function signed(value) {
  return (value > 0 ? "+" : value < 0 ? "\u2212" : "") + number(Math.abs(value));
}

/** A moment as the server wrote it by the clock of the book's zone: date, time and offset. */
const clock = (text) => [text.slice(0, 10), text.slice(11, 19), text.slice(19)];
export const momentWords = (text) => clock(text).join(" ");

const timeOf = (text, parts) => el("time", { datetime: text }, parts.map((part) => [" ", el("span", { class: "nowrap" }, part)]).flat().slice(1));

export function moment(value) {
  const text = typeof value === "string" ? value : value.text;
  return text ? timeOf(text, clock(text)) : "";
}

/** A moment to the minute. */
export const toMinute = ({ text }) => timeOf(text, [text.slice(0, 10), text.slice(11, 16)]);

/** A moment in a list: its offset only in an hour that the clock shows twice. */
export function listed(value) {
  const text = typeof value === "string" ? value : value.text;
  if (!text) return "";
  const [day, time, offset] = clock(text), local = text.slice(0, 19);
  const isTwice = known.book.doubles.some(([from, until]) => from <= local && local < until);
  return timeOf(text, isTwice ? [day, time, offset] : [day, time]);
}

/** A moment as seen from another one: its month and day where that is another one, with the year where that is, and then to the
 * minute; its offset where the clock was set in between. The whole of it is said where somebody points at it. */
export function momentFrom({ text }, other) {
  const [day, time, offset] = clock(text), [otherDay, , otherOffset] = clock(other.text);
  const isSame = day === otherDay, isOfYear = day.slice(0, 4) === otherDay.slice(0, 4);
  const shown = timeOf(text, [!isSame && (isOfYear ? day.slice(5) : day), isSame ? time : time.slice(0, 5), offset !== otherOffset && offset].filter(Boolean));
  shown.title = momentWords(text);
  return shown;
}

/** A length of time, by its largest units where not all are asked for. */
export function duration(seconds, units = 4) {
  const parts = [
    [Math.floor(seconds / 86400), "d"],
    [Math.floor(seconds / 3600) % 24, "h"],
    [Math.floor(seconds / 60) % 60, "min"],
    [seconds % 60, "s"],
  ].filter(([count]) => count);
  return parts.slice(0, units).map(([count, unit]) => `${count} ${unit}`).join(" ") || "0 s";
}

/** The ticket's number in a reference: one that another program has given is shown whole, of the screen's own ones the part
 * that somebody typed. */
export function ticketOf(reference) {
  if (!reference?.startsWith("SCR-")) return reference ?? "";
  return /^SCR-.+-([A-Z0-9][A-Z0-9_]*)_[A-Z0-9]{8}$/.exec(reference)?.[1] ?? "";
}
