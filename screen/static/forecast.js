// What a command would do, and what it did: sections in a compact list, amounts unfolded when somebody asks.
import { duration, el, isLive, known, lostWords, inMinutes, moment, number, scrolling, signed, table } from "./common.js";
import { changeNumbers, senderOf } from "./unanswered.js";

const MANY_DAYS = 3; // with the same amount, that are shown as one row

export const total = (moved) => moved.filter(([dim]) => dim === "cause").reduce((sum, move) => sum + move[2], 0);
export const same = (one, other) => JSON.stringify(one) === JSON.stringify(other);

const dayName = (key) => known.book.days[key] || key;
const causeName = (key) => (known.book.causes.find(([code]) => code === key) || ["", ""])[1];
const names = { cause: (key) => `cause ${key} ${causeName(key)}`, feeder: (key) => `feeder ${key}`, day: (key) => `day ${dayName(key)}` };

/** Moves as rows of a name and an amount: whole days that follow each other with one amount are one row. */
function amountRows(moved) {
  const rows = [];
  for (let at = 0; at < moved.length; at += 1) {
    const [dim, key, amount] = moved[at];
    let last = at;
    while (dim === "day" && last + 1 < moved.length && moved[last + 1][1] === moved[last][1] + 1 && moved[last + 1][2] === amount) last += 1;
    const days = last - at + 1;
    if (days >= MANY_DAYS) {
      rows.push([`${days} days, ${dayName(key)} to ${dayName(moved[last][1])}, each`, signed(amount)]);
      at = last;
    } else rows.push([names[dim](key), signed(amount)]);
  }
  return rows;
}

/** What moves; where the period's last day is to come and among it, it counts to the period's end. */
export function movesTable(moved) {
  const last = known.book.days.at(-1);
  const isToEnd = last > known.book.today && moved.some(([dim, key]) => dim === "day" && dayName(key) === last);
  const heads = ["of", `#customer-seconds${isToEnd ? ", to the period's end" : ""}`];
  return moved.length ? table(heads, amountRows(moved), "Amounts that change") : el("p", {}, "Nothing changes.");
}

const isAtEnd = (until) => until.second > known.book.last.second;

/** What happens to a section by a switching; or, where an entry is changed, what will be known of it then. */
function kindOf({ loses, gets_back: back }, isChange) {
  if (loses && back) return isChange ? "will be without supply at other times" : "loses and gets back supply";
  if (loses) return isChange ? "will be without supply" : "LOSES supply";
  return isChange ? "will have supply" : "gets back supply";
}

/** Up to when, and how long a section is without supply more, or less, than before; what goes on now has no length yet. */
function endWords({ since, until, loses, gets_back: back }) {
  const whole = until.second - since.second, isWhole = loses + back === whole;
  const isOpen = loses && !back && since.second * 1000 <= Date.now();
  if (isAtEnd(until) && isLive()) return [` on${isWhole ? "" : ", with breaks"}${isOpen ? ", still open" : ""}`];
  const ends = isAtEnd(until) ? [" on"] : [" to ", moment(until)];
  if (loses && back) return [...ends, ` (${duration(loses)} more, ${duration(back)} less)`];
  return [...ends, ` (${duration(loses || back)}${isWhole ? "" : " of it"})`];
}

const counted = (count, word) => `${number(count)} ${word}${count === 1 ? "" : "s"}`;
const sizeWords = (rows) => `${counted(rows.length, "section")}, ${counted(rows.reduce((sum, row) => sum + row.customers, 0), "customer")}`;

/** The sections in groups of the same seconds: what happens to them and when stands once, above their names. */
function sectionGroups({ sections, is_change: isChange }) {
  const groups = new Map();
  for (const row of sections) {
    const key = [row.since.second, row.until.second, row.loses, row.gets_back].join();
    groups.set(key, [...(groups.get(key) ?? []), row]);
  }
  return [...groups.values()].map((rows) => {
    const what = el("p", {}, el("b", {}, kindOf(rows[0], isChange)), " from ", moment(rows[0].since), ...endWords(rows[0]), `: ${sizeWords(rows)}`);
    const list = el("ul", { class: "names" }, rows.map((row) => el("li", {}, row.section, el("span", { class: "note" }, ` ${number(row.customers)}`))));
    return el("div", { class: "group" }, what, list);
  });
}

/** How a mark moves the SAIDI without major event days: up to now first. */
function unmarkedParts(unmarked) {
  if (!unmarked) return [];
  const words = { to_now: "up to now", whole: unmarked.to_now ? "to the period's end" : "of the period" };
  const line = (name) => `${words[name]} ${unmarked[name].join(" \u2192 ")} minutes`;
  return [el("p", { class: "unmarked" }, "SAIDI without major event days: ", Object.keys(words).filter((name) => unmarked[name]).map(line).join("; "))];
}

/** Customer-minutes lost: of what goes on now up to now first, and then to the period's end. */
function lostParts(whole, upToNow) {
  const isOpen = Number.isInteger(upToNow), seconds = isOpen ? upToNow : whole;
  const lost = el("p", { class: "lost" }, el("b", {}, lostWords(seconds, isOpen ? " up to now" : "")), seconds ? ` (${signed(seconds)} customer-seconds)` : "");
  const words = `Counted to the period's end (${known.book.days.at(-1)}), for as long as no other switching of the device is entered: ${signed(inMinutes(whole))}.`;
  return [lost, isOpen ? el("p", { class: "note open-end" }, words) : ""];
}

/** Customers and sections of one side, as `2 sections, 200 customers lose supply`. */
const sideWords = (rows, verb) => (rows.length ? [`${sizeWords(rows)} ${verb}`] : []);

/** What a step does at its second, on what those before it leave; or all of them together. */
function stepWords({ sections, reason, is_change: isChange }) {
  const [lose, getBack] = isChange ? ["will be without supply", "will have supply"] : ["lose supply", "get back supply"];
  const sides = [...sideWords(sections.filter((row) => row.loses), lose), ...sideWords(sections.filter((row) => row.gets_back && !row.loses), getBack)];
  return sides.join("; ") || reason || "no section loses or gets back supply";
}

/** The steps of an outage by time; what they do together comes below them. */
function stepParts(found) {
  const { steps, order } = found;
  const hints = (step) => step.hints.map((hint) => el("p", { class: "warn hint" }, hint));
  const rows = steps.map((step) => el("li", {}, el("b", {}, step.words.split(", cause")[0]), `: ${stepWords(step)}`, hints(step)));
  const isEndsFirst = !same(order, steps.map((step) => step.place));
  const words = "The outage is over: its returns to the normal position are sent first, so that no page shows it as going on while the rest is on its way.";
  return [el("ol", { class: "steps" }, rows), isEndsFirst ? el("p", { class: "note ends-first" }, words) : "", el("h3", {}, `All together: ${stepWords(found)}`)];
}

/** The parts of a forecast; `tick` confirms a second in the future. */
export function forecastParts(found, tick) {
  const parts = [el("h2", {}, "What it would do")];
  for (const hint of found.hints) parts.push(el("p", { class: "warn hint" }, hint));
  if (found.late) parts.push(el("p", { class: "warn hint" }, `This is a late entry: it lies ${duration(found.late, 2)} back.`));
  if (found.future) parts.push(el("div", { class: "warn hint" }, el("p", {}, `This lies ${duration(found.future, 2)} in the future.`), el("label", { class: "check" }, tick, " Yes, it is planned for then")));
  if (found.steps) parts.push(...stepParts(found));
  if (found.sections.length) parts.push(...sectionGroups(found));
  else if (!found.unmarked && !found.steps) parts.push(el("p", {}, "No section loses or gets back supply."));
  if (found.reason) parts.push(el("p", { class: "warn reason" }, found.reason));
  parts.push(...unmarkedParts(found.unmarked));
  if (!found.unmarked) parts.push(...lostParts(found.total, found.up_to_now));
  if (found.moved.length) parts.push(el("details", { class: "amounts" }, el("summary", {}, "Amounts by cause, feeder and day"), scrolling("What it would change", movesTable(found.moved))));
  return parts;
}

/** It did something else than what was shown, since the book had changed in between: what came first, and a way back. */
function otherwise({ commands, replies, forecast }, moved) {
  const change = (moves) => signed(inMinutes(total(moves)));
  const end = Number.isInteger(forecast.up_to_now) ? ", counted to the period's end" : "";
  const words = `You saw ${change(forecast.moved)} customer-minutes lost${end}; it changed them by ${change(moved)}, since the book had changed in between.`;
  const mine = new Set(commands.map((command) => command.ref));
  const first = (replies.at(-1).between ?? []).filter((each) => !mine.has(each.ref)).map((each) => el("li", {}, `${senderOf(each.ref) ?? `another program (${each.ref})`} had sent: ${each.words}${each.entry ? ` (entry ${each.entry})` : ""}`));
  const isOne = commands.length === 1 && commands[0].kind === "switch" && replies[0].entry;
  const back = isOne ? el("p", {}, el("a", { class: "back", href: `/sheet?entry=${replies[0].entry}&withdraw=yes` }, "Withdraw mine")) : "";
  return el("div", { class: "warn otherwise" }, el("p", {}, el("b", {}, words)), first.length ? el("ul", {}, first) : "", back);
}

/** Moves of several commands, added up. */
function summed(lists) {
  const sums = new Map();
  for (const [dim, key, amount] of lists.flat()) sums.set(`${dim} ${key}`, [dim, key, (sums.get(`${dim} ${key}`)?.[2] ?? 0) + amount]);
  const places = Object.keys(names);
  return [...sums.values()].filter((move) => move[2]).sort((one, other) => places.indexOf(one[0]) - places.indexOf(other[0]) || one[1] - other[1]);
}

const several = (words, ends, list) => `${words}${list.length > 1 ? ends[1] : ends[0]}`;

/** Links to the entries that commands made or changed; nothing where they made none. */
export function entryLinks(replies) {
  const entries = replies.map((shown) => shown.entry).filter(Boolean);
  const links = entries.flatMap((entry) => [", ", el("a", { href: `/sheet?entry=${entry}` }, String(entry))]).slice(1);
  return entries.length ? [several("entr", ["y ", "ies "], entries), ...links] : [];
}

function savedWords(replies) {
  const numbers = changeNumbers(replies);
  const links = entryLinks(replies);
  return links.length ? ["Saved as ", ...links, ` (${numbers})`] : [`Saved as ${numbers}`];
}

function triesWords(replies) {
  const isOne = replies.length === 1;
  if (replies.some((shown) => shown.again)) return isOne ? "This is the stored reply: it was saved already, and nothing was done twice." : "Some of it was saved already, and has its stored reply: nothing was done twice.";
  const most = Math.max(...replies.map((shown) => shown.tries));
  return most > 1 ? `It took ${most} tries under one reference; it acted once.` : "";
}

/** The parts of the desk's answers: as what they are saved, whether that is what was forecast; the rest is folded. */
export function replyParts(intent) {
  const { commands, replies, forecast } = intent;
  const moved = summed(replies.map((shown) => shown.reply.moved));
  const parts = [el("h2", {}, savedWords(replies))];
  const tries = triesWords(replies);
  if (tries) parts.push(el("p", { class: "warn" }, tries));
  const isEqual = replies.every((shown, at) => same(shown.reply.moved, forecast.sent[at]));
  if (isEqual) parts.push(el("p", { class: "good equal" }, "As forecast."), ...lostParts(total(moved), forecast.up_to_now));
  else parts.push(otherwise(intent, moved));
  parts.push(el("details", { class: "amounts" }, el("summary", {}, "What it changed"), scrolling("What it changed", movesTable(moved))));
  const raw = replies.flatMap((shown, at) => [el("p", { class: "mono" }, commands[at].ref), el("p", { class: "mono reply" }, shown.text)]);
  parts.push(el("details", {}, el("summary", {}, "What the book's server answered"), raw));
  return parts;
}
