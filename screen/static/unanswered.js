// Commands that were sent and have no answer yet, by their reference, for all pages of this browser. They outlive a page that is
// loaded again or closed, and are counted in the top line of every page until the desk has answered them: in the heading's place,
// so that nothing moves on the page; the list unfolds. The steps of an outage are kept as one, by the reference of the first, with
// the answers that there are.
import { duration, el } from "./elements.js";
import { known, post, Trouble } from "./requests.js";

const PREFIX = "outagebook-unanswered ";
const LOOK_SECONDS = 5; // between two looks whether a page that sent a command is still there
export const store = storage("localStorage");
const here = new Map(); // what this page itself sends, by reference: its form shows it, and goes on with it
const title = el("summary", {});
const rows = el("ul", {});
const notKnown = el("p", {});
const place = el("div", { class: "unanswered no-print", hidden: true }, el("details", {}, title, el("div", { class: "card panel" }, notKnown, rows)));
const shown = new Map(); // rows by reference
const answered = []; // who wants to know that a command was answered by another page

/** What the browser keeps, for all pages of the screen or for those of a tab; one that is told to keep nothing has none. */
export function storage(kind) {
  try {
    return window[kind];
  } catch {
    return null;
  }
}

export const refOf = (intent) => intent.commands[0].ref;

export function keep(intent) {
  store?.setItem(PREFIX + refOf(intent), JSON.stringify(intent));
}

export function forget(ref) {
  store?.removeItem(PREFIX + ref);
  shown.get(ref)?.remove();
  shown.delete(ref);
  count();
}

/** A form shows this command by itself from now on: `again` sends it once more. */
export function adopt(ref, again) {
  here.set(ref, again);
}

export function release(ref) {
  here.delete(ref);
  look();
}

export function onAnswered(work) {
  answered.push(work);
}

/** An older page kept a single command. */
const asList = (intent) => (intent.commands ? intent : { ...intent, commands: [intent.command], replies: [] });

function kept() {
  const found = Object.keys(store ?? {}).filter((key) => key.startsWith(PREFIX)).map((key) => asList(JSON.parse(store.getItem(key))));
  return found.sort((one, other) => one.sent - other.sent);
}

/** Does some work while other pages can see that it is being done. */
function underWay(ref, work) {
  return navigator.locks ? navigator.locks.request(PREFIX + ref, work) : work();
}

/** Sends what has no answer yet, in its order, each command once the one before it is answered; `next` hears of each before it
 * goes. */
export function sendRest(intent, next) {
  const { commands, replies, forecast } = intent;
  return underWay(refOf(intent), async () => {
    while (replies.length < commands.length) {
      const command = commands[replies.length];
      next(command);
      replies.push(await post(`/api/command?seen=${forecast.number}`, JSON.stringify(command)));
    }
  });
}

/** Whether no page is sending a command now: its page was closed, or has given up. */
function isLeft(ref) {
  return navigator.locks ? navigator.locks.request(PREFIX + ref, { ifAvailable: true }, (lock) => lock !== null) : Promise.resolve(true);
}

/** The name in a reference of the screen's; nothing where another program made it. */
export const senderOf = (ref) => /^SCR-(.+)-[A-Z0-9_]+$/.exec(ref)?.[1];
const ageOf = (intent) => `sent ${duration(Math.max(1, Math.floor((Date.now() - intent.sent) / 1000)))} ago`;

/** The numbers under which the book has what was answered. */
export const changeNumbers = (replies) => `change${replies.length > 1 ? "s" : ""} no. ${replies.map((shown) => shown.reply.no).join(", ")} of the book`;

/** How much of a list is saved. */
const savedOf = ({ commands, replies }) => (commands.length > 1 ? `${replies.length} of ${commands.length} steps are saved: ` : "");

function rowOf(intent) {
  const ref = refOf(intent);
  const outcome = el("div", { role: "status" });
  const isMine = senderOf(ref) === known.me.name;
  const again = el("button", { type: "button", class: "again-above", disabled: !isMine || !known.me.may_send, click: () => resend(intent, outcome, again) }, "Send again");
  const whose = isMine ? "" : el("p", {}, `It was sent under another name: ${senderOf(ref)} can send it again.`);
  const remove = el("button", { type: "button", class: "small", click: () => askRemoval(ref, remove) }, "Remove from this list");
  const words = el("p", {}, el("b", { class: "saved" }, savedOf(intent)), `${intent.words}, `, el("span", { class: "age" }, ageOf(intent)), ` as ${ref}.`);
  return el("li", { "data-open": intent.commands.length - intent.replies.length }, words, whose, el("div", { class: "buttons" }, again, remove), outcome);
}

function askRemoval(ref, button) {
  button.replaceWith(el("button", { type: "button", class: "small", click: () => { forget(ref); answered.forEach((work) => work(ref)); } }, "It isn't known whether it is saved. Remove it all the same"));
}

/** Sends commands once more: what was saved already is answered by its stored reply, so each acts once. */
async function resend(intent, outcome, button) {
  const ref = refOf(intent);
  if (here.has(ref)) {
    here.get(ref)();
    return;
  }
  const { replies, commands, words } = intent;
  button.disabled = true;
  outcome.replaceChildren(el("p", {}, "On its way."));
  const next = () => store.getItem(PREFIX + ref) && keep(intent);
  try {
    await sendRest(intent, next);
    settle(ref, el("p", { class: "good" }, `Saved as ${changeNumbers(replies)}${againWords(replies)}. ${words}.`));
  } catch (trouble) {
    if (!(trouble instanceof Trouble)) throw trouble;
    const reply = trouble.shown.reply;
    const step = commands.length > 1 ? `Step ${replies.length + 1} of ${commands.length}, in the order in which they are sent, is refused, those before it are saved, those after it aren't. ` : "";
    next();
    if (reply) settle(ref, el("p", { class: "bad" }, `${step}Refused: ${reply.refused} ${reply.name}. ${trouble.message} ${words}.`));
    else outcome.replaceChildren(el("p", { class: "bad" }, `Still not known: ${trouble.message}.`));
    button.disabled = false;
  }
}

function againWords(replies) {
  if (!replies.some((shown) => shown.again)) return "";
  return `: ${replies.length > 1 ? "some of it" : "it"} was saved already, and nothing was done twice`;
}

/** The answer takes the place of the command, until the reader has read it. */
function settle(ref, words) {
  const row = shown.get(ref);
  shown.delete(ref);
  store.removeItem(PREFIX + ref);
  row.replaceChildren(words, el("button", { type: "button", class: "small", click: () => { row.remove(); count(); } }, "Close"));
  count();
}

function count() {
  const open = [...shown.values()].reduce((sum, row) => sum + Number(row.dataset.open), 0);
  title.textContent = open ? `${open} change${open > 1 ? "s" : ""} without an answer` : rows.children.length ? "Answered" : "";
  notKnown.textContent = open ? `It isn't known whether ${open > 1 ? "they are" : "it is"} saved.` : "";
  place.hidden = !rows.children.length;
}

function showProgress(row, intent) {
  row.querySelector(".age").textContent = ageOf(intent);
  row.querySelector(".saved").textContent = savedOf(intent);
  row.dataset.open = intent.commands.length - intent.replies.length;
}

/** Shows what is kept and isn't on its way. */
export async function look() {
  const intents = kept();
  for (const ref of [...shown.keys()]) {
    if (intents.some((each) => refOf(each) === ref)) continue;
    shown.get(ref).remove();
    shown.delete(ref);
  }
  for (const intent of intents) {
    const ref = refOf(intent);
    if (shown.has(ref)) showProgress(shown.get(ref), intent);
    if (shown.has(ref) || !(await isLeft(ref)) || shown.has(ref) || !store.getItem(PREFIX + ref)) continue;
    shown.set(ref, rowOf(intent));
    rows.append(shown.get(ref));
  }
  count();
}

/** The list of this browser's unanswered commands, for the head of a page. */
export function unanswered() {
  window.addEventListener("storage", (event) => {
    if (event.key?.startsWith(PREFIX) && event.newValue === null) answered.forEach((work) => work(event.key.slice(PREFIX.length)));
    look();
  });
  setInterval(look, LOOK_SECONDS * 1000);
  look();
  return place;
}
