// What the tests ask a page: each function answers what it finds, mostly what is wrong. browser.py runs them by their names.

const all = (selector) => [...document.querySelectorAll(selector)];
const brief = (each) => each.outerHTML.slice(0, 120);
const boxOf = (each) => each.getBoundingClientRect();

/** Controls without a name for readers of screens, and what isn't there once: header, main, nav, h1. */
function nameless() {
  const named = (each) => each.labels?.length || each.ariaLabel || each.textContent.trim();
  const controls = all("input, select, button, a, summary, [tabindex='0']").filter((each) => !named(each) && !each.closest("[hidden]"));
  return [...controls.map(brief), ...["header", "main", "nav", "h1"].filter((each) => all(each).length !== 1)];
}

/** What is tapped and smaller than a finger. */
function small() {
  const tapped = all("button, input, select, summary, header a, .buttons a, td a, .diagram .hit").filter((each) => each.checkVisibility());
  return tapped.map((each) => [each, boxOf(each)]).filter(([, box]) => box.height < 43.5 || box.width < 43.5)
    .map(([each, box]) => `${Math.round(box.width)} x ${Math.round(box.height)} ${brief(each)}`);
}

/** Texts whose colour has less than 4.5 times the light of what is behind them, or the other way round, by WCAG's formula. */
function faint() {
  const parts = (colour) => (colour.match(/[0-9.]+/g) || []).map(Number);
  const light = ([r, g, b]) => [r, g, b].map((x) => x / 255).map((x) => (x <= 0.04045 ? x / 12.92 : ((x + 0.055) / 1.055) ** 2.4))
    .reduce((sum, x, at) => sum + x * [0.2126, 0.7152, 0.0722][at], 0);
  const behind = (each) => {
    for (let at = each; at; at = at.parentElement) {
      const found = parts(getComputedStyle(at).backgroundColor);
      if (found.length === 3 || found[3] > 0) return found;
    }
    return [255, 255, 255];
  };
  const texts = all("body *").filter((each) => !each.closest("svg, noscript, [disabled], .skip")
    && each.checkVisibility({ visibilityProperty: true }) && [...each.childNodes].some((node) => node.nodeType === 3 && node.textContent.trim()));
  return texts.filter((each) => {
    const [one, other] = [light(parts(getComputedStyle(each).color)), light(behind(each))].sort((x, y) => y - x);
    return (one + 0.05) / (other + 0.05) < 4.5;
  }).map(brief);
}

/** How wide a page is that is wider than its window. */
function tooWide() {
  const { scrollWidth } = document.documentElement;
  return scrollWidth > innerWidth ? [`${scrollWidth} > ${innerWidth}`] : [];
}

/** What is wider than its place: the page, or a table. */
function cutOff() {
  const tables = all("main .scroll").filter((each) => !each.querySelector("svg") && each.scrollWidth > each.clientWidth);
  return [...tooWide(), ...tables.map((each) => each.innerText.slice(0, 80))];
}

/** Tables and diagrams that are wider than the paper. */
function offPaper() {
  return all("main table, main svg").filter((each) => boxOf(each).right > innerWidth).map((each) => each.innerHTML.slice(0, 80));
}

/** Names that run over their box, and names of devices over the box of a node. */
function overrun() {
  const boxes = all(".diagram .node rect").map(boxOf);
  const nodes = all(".diagram .node:not(.bus)").filter((each) => {
    const { right } = boxOf(each.querySelector("rect"));
    return [...each.querySelectorAll("text")].some((text) => boxOf(text).right > right);
  });
  const signs = all(".diagram a text").filter((each) => {
    const text = boxOf(each);
    return boxes.some((box) => text.left < box.right && box.left < text.right && text.top < box.bottom && box.top < text.bottom);
  });
  return [...nodes, ...signs].map((each) => each.textContent);
}

/** The names by which readers of screens know the fields that are shown, those that two fields have; tables without a name;
 * placeholders in another colour than notes. */
function unheard() {
  const names = all("input:not([type=radio]), select").filter((each) => each.checkVisibility()).map((each) => each.ariaLabel ?? each.labels[0].textContent.trim());
  const tables = all("table").filter((each) => !each.caption).map((each) => each.innerText.slice(0, 80));
  const [pale, soft] = [["input[placeholder]", "::placeholder"], [".note", null]].map(([each, part]) => getComputedStyle(document.querySelector(each), part).color);
  return [...names.filter((name, at) => names.indexOf(name) !== at), ...tables, ...(pale === soft ? [] : [`${pale} isn't ${soft}`])];
}

/** What can be clicked, where it is, and whether a click there hits it. What is said in the top line is in the list beside it. */
function hits() {
  const clicked = all("header a, header button, main :is(a, button, input, select, summary)");
  return clicked.filter((each) => each.checkVisibility() && !each.closest(".alarm, .unanswered, .said")).map((each) => {
    const box = boxOf(each), hit = document.elementFromPoint(box.x + box.width / 2, box.y + box.height / 2);
    return [each.outerHTML.slice(0, 80), box.x, box.y, hit && each.contains(hit)];
  });
}

/** All that a page says, in its title and its fields too. */
function said() {
  return [document.title, document.body.textContent, ...all("[placeholder]").map((each) => each.placeholder)].join("\n");
}

/** Where an element is. */
function place(element) {
  const { x, y, width, height } = typeof element === "string" ? boxOf(document.querySelector(element)) : boxOf(element);
  return [x, y, width, height];
}

/** The middle of an element, once it is brought into the window. */
function middle(element) {
  element.scrollIntoView({ block: "center" });
  const box = boxOf(element);
  return { x: box.x + box.width / 2, y: box.y + box.height / 2 };
}

/** An element that is enabled, once its place was the same for a tenth of a second. */
async function resting(selector) {
  const found = document.querySelector(selector);
  if (!found || found.disabled) return null;
  found.scrollIntoView({ block: "center" });
  const before = place(found).join();
  await new Promise((resolve) => setTimeout(resolve, 100));
  return found.isConnected && !found.disabled && place(found).join() === before ? found : null;
}

function hearClick(element) {
  window.isClicked = false;
  element.addEventListener("click", () => { window.isClicked = true; }, { once: true, capture: true });
}

/** An element stands in the window, below what stays at its top. */
function inSight(selector) {
  const { top, bottom } = boxOf(document.querySelector(selector));
  return top >= 60 && bottom <= innerHeight;
}

/** Keeps all that an element says from now on. */
function record(selector) {
  const element = document.querySelector(selector);
  window.recorded = [element.innerText];
  new MutationObserver(() => window.recorded.push(element.innerText)).observe(element, { childList: true, subtree: true, characterData: true });
}

/** The field of a label. */
function field(words) {
  const label = all("label").find((each) => each.textContent.startsWith(words));
  return label && (label.control || label.querySelector("input"));
}

/** Chooses what begins so, or has this value. */
function choose(select, words) {
  select.value = [...select.options].find((each) => each.text.startsWith(words) || each.value === words).value;
  select.dispatchEvent(new Event("input", { bubbles: true }));
}

/** A link or a button by its words, once it can be tapped on. */
function tapped(words) {
  return all("a, button, summary").find((each) => !each.disabled && (each.textContent.trim() === words || each.ariaLabel?.startsWith(words)));
}

/** The label, or the words, of what has the focus. */
function focused() {
  const at = document.activeElement;
  return (at.labels?.[0]?.textContent || at.ariaLabel || at.textContent).trim().toLowerCase();
}

/** The rows of outages: their device, customers, class and height on the page. */
function outages() {
  return all("table.outages tbody tr").map((row) => [row.cells[0].innerText, row.cells[1].innerText, row.className, Math.round(boxOf(row).top)]);
}

/** The keys of the outages that are on the first screen. */
function onFirstScreen() {
  return all("table.outages tbody tr").filter((row) => boxOf(row).bottom <= innerHeight).map((row) => row.dataset.key);
}

/** The name of the device that has the focus in the diagram. */
function deviceAt() {
  return document.activeElement.closest(".diagram a")?.getAttribute("aria-label").split(":")[0];
}

/** The name of the node that is highest in the diagram. */
function highest() {
  const top = (each) => boxOf(each).top;
  return all(".diagram .node").sort((one, other) => top(one) - top(other))[0].querySelector("text").textContent;
}

/** Waits until the page shows a command. */
async function shows(number) {
  while (document.body.dataset.number !== number) await new Promise((resolve) => setTimeout(resolve, 50));
}

/** Notes the tasks that keep the page busy for more than 50 milliseconds. */
function watchTasks() {
  window.tasks = [];
  new PerformanceObserver((list) => list.getEntries().forEach((each) => window.tasks.push(each.duration))).observe({ type: "longtask" });
}

/** A command without an answer, as another page left it. */
function leaveUnanswered() {
  const command = { kind: "mark", f1: "2026-01-01", f2: "ANNA", ref: "SCR-ANNA-LOST" };
  localStorage.setItem("outagebook-unanswered SCR-ANNA-LOST", JSON.stringify({ commands: [command], replies: [], words: "mark", sent: Date.now() }));
}

/** Searches of the switching log find more than a page of entries from now on. */
function findMany() {
  const real = window.fetch;
  window.fetch = async (route, options) => {
    const reply = await real(route, options);
    return String(route).startsWith("/api/sheet") ? new Response(JSON.stringify({ ...(await reply.json()), found: 250 })) : reply;
  };
}

/** The time is another one, and the Enter key is pressed in the next field, in one moment. */
function typeAndEnter() {
  const [time, crew] = all(".moment input, input[list=crews]");
  time.value += " ";
  time.dispatchEvent(new Event("input"));
  document.querySelector(".outcome").replaceChildren();
  crew.dispatchEvent(new KeyboardEvent("keydown", { key: "Enter", bubbles: true }));
}

/** Another command is sent and answered in the moment before the form's own one. */
function sendAfter(body, token) {
  const other = new XMLHttpRequest();
  other.open("POST", "/api/command", false);
  other.setRequestHeader("Content-Type", "application/json");
  other.setRequestHeader("X-Screen-Token", token);
  other.send(body);
  document.querySelector(".send").click();
}

/** Locks of the browser's pages as on a busy machine. */
function slowLocks() {
  const request = navigator.locks.request.bind(navigator.locks);
  navigator.locks.request = async (...words) => {
    await new Promise((resolve) => setTimeout(resolve, 2000));
    return request(...words);
  };
}

/** The page turns from or to somebody who looks at it. */
function turn(isHidden) {
  Object.defineProperty(document, "hidden", { get: () => isHidden, configurable: true });
  document.dispatchEvent(new Event("visibilitychange"));
}

/** Something happens to the third command that the page sends: it is left, the answer is lost, or the step is another one. */
function atThird(how) {
  const real = window.fetch;
  let count = 0;
  const acts = {
    left: () => { location.href = "/network"; return new Promise(() => {}); },
    lost: () => new Response("no", { status: 502 }),
    spoilt: (route, options) => real(route, { ...options, body: options.body.replace("CB-1", "CB-9") }),
  };
  window.fetch = async (route, options) => (String(route).startsWith("/api/command") && (count += 1) === 3 ? acts[how](route, options) : real(route, options));
}

/** Tries to read and to act from a page of another origin, with the cookie and even with the token of a login: all that it got. */
async function tryFromElsewhere(url, body, token) {
  const json = { "Content-Type": "application/json", "X-Screen-Token": token };
  const tries = [
    ["/api/now", {}], ["/api/me", { credentials: "include" }], ["/api/me", { mode: "no-cors", credentials: "include" }],
    ["/api/command", { method: "POST", body, mode: "no-cors", credentials: "include" }],
    ["/api/command", { method: "POST", body, credentials: "include", headers: json }],
    ["/api/import", { method: "POST", body, credentials: "include", headers: { "Content-Type": "text/csv" } }],
  ];
  const found = [];
  for (const [route, options] of tries) found.push(await fetch(url + route, options).then((reply) => reply.text()).catch(() => ""));
  found.push(await new Promise((resolve) => {
    const source = new EventSource(`${url}/events`, { withCredentials: true });
    source.onmessage = (event) => resolve(event.data);
    source.onerror = () => { source.close(); resolve(""); };
  }));
  found.push(await new Promise((resolve) => {
    const frame = document.createElement("iframe");
    frame.src = `${url}/enter`;
    frame.onload = () => { try { resolve(frame.contentDocument.body.textContent); } catch { resolve(""); } };
    document.body.append(frame);
  }));
  return found;
}

/** Sends a form of another origin, which a browser sends without asking the server first. */
function postForm(url, body) {
  const form = Object.assign(document.createElement("form"), { action: `${url}/api/command`, method: "POST", enctype: "text/plain" });
  form.append(Object.assign(document.createElement("input"), { name: body.slice(0, -1) + ',"x":"', value: '"}' }));
  document.body.append(form);
  form.submit();
}
