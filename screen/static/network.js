// The network: nodes, devices with their lives, customers by section; and the commands that change them.
import { begin, choice, el, field, foot, get, known, list, lookOnly, number, onCommands, reloadBook, renew, scrolling, settled, source, spelled, table, text } from "./common.js";
import { Draft } from "./drafts.js";
import { MomentField } from "./moments.js";
import { Sender } from "./sender.js";

const main = document.getElementById("main");
const nodes = el("section", { "aria-label": "Nodes" });
const devices = el("section", { "aria-label": "Devices" });
const customers = el("section", { "aria-label": "Customers" });
const words = el("div", {});
let searched = "";

// The fields of each kind: name, and what it is.
const KINDS = {
  device: ["A device joins: a tie, a line", ["name", "node", "node", "normal", "since", "until"], ["Name of the new device", "From node", "To node", "Normal position", "In the network from", "Until"]],
  life: ["A device is in service from/to", ["device", "since", "until"], ["Device", "In the network from", "Until before"]],
  bus: ["A new bus", ["name"], ["Name of the bus"]],
  section: ["A new section", ["name", "number"], ["Name of the section", "Home feeder, 1 to 255"]],
  connect: ["A customer is connected", ["number", "section", "moment", "until"], ["Customer's number", "Section", "In service from", "Until before"]],
  revise: ["A customer's service is changed", ["number", "moment", "until"], ["Customer's number", "In service from", "Until before"]],
};

function inputOf(type, label, changed, touched) {
  if (type === "since" || type === "until" || type === "moment") {
    const note = type === "since" ? " (empty: always)" : type === "until" ? " (empty: without end)" : "";
    const made = new MomentField(label + note, "", changed, { may_be_empty: type !== "moment", touched });
    if (type !== "moment") made.second = "";
    const fill = (typed) => typed && made.set(typed);
    return { element: made.element, input: made.input, value: () => made.second, typed: () => made.typed, fill, needed: type === "moment" };
  }
  const lists = { node: "nodes", section: "sections", device: "devices" };
  const input = type === "normal" ? choice([["open", "open: a tie"], ["closed", "closed"]]) : text({ list: lists[type], maxlength: 24 });
  input.addEventListener("input", changed);
  return { element: field(label, input, type === "normal" || type === "number" ? null : spelled(input, "name")), input, typed: () => input.value, fill: (typed) => (input.value = typed), value: () => input.value.trim().toUpperCase().replace(/^(OPEN|CLOSED)$/, (word) => (type === "normal" ? word.toLowerCase() : word)), needed: true };
}

function commandForm() {
  const kind = choice(Object.entries(KINDS).map(([name, [label]]) => [name, label]), "device");
  const place = el("div", {});
  const card = el("form", { class: "card" }, el("h2", {}, "Change the network"), field("What", kind), place);
  let inputs = [];
  const read = () => {
    const values = inputs.map((input) => input.value());
    if (inputs.some((input, at) => values[at] === null || (input.needed && !values[at]))) return null;
    return { kind: kind.value, ...Object.fromEntries(values.map((value, at) => [`f${at + 1}`, value])) };
  };
  const sender = new Sender({ read, form: card, lock: (locked) => [kind, ...inputs.map((each) => each.input)].forEach((input) => (input.disabled = locked)) });
  const build = () => {
    const [, types, labels] = KINDS[kind.value];
    inputs = types.map((type, at) => inputOf(type, labels[at], () => sender.update(), () => sender.age()));
    place.replaceChildren(...inputs.map((input) => input.element));
    sender.update();
  };
  kind.addEventListener("input", build);
  build();
  const fill = async (name, values) => {
    kind.value = name;
    build();
    for (const [at, value] of values.entries()) await inputs[at].fill(value);
    sender.update();
  };
  sender.draft = new Draft("change", card, () => [kind.value, inputs.map((input) => input.typed())]);
  sender.draft.restore((typed) => fill(...typed));
  const choose = async (name, ...values) => {
    await fill(name, values);
    sender.draft.touch();
    inputs[0].input.focus();
  };
  return { element: el("div", { class: "two no-print" }, card, el("div", { class: "card" }, sender.element)), choose, sender };
}

let form = null;

const drawn = new Map();

/** Whether a list isn't drawn yet as it is to be: most commands change neither. */
function isNew(place, seen) {
  const told = JSON.stringify(seen);
  const found = drawn.get(place) !== told;
  drawn.set(place, told);
  return found;
}

function showNodes() {
  const seen = known.book.nodes.filter((node) => node.name.includes(searched));
  if (!isNew(nodes, seen)) return;
  const rows = seen.map((node) => [
    node.name, ["source", "bus", "section"][node.kind], node.feeder ? String(node.feeder) : "",
    node.kind === 2 ? el("button", { type: "button", class: "small", click: () => showCustomers({ section: node.name }) }, "Customers") : "",
  ]);
  renew(nodes, el("h2", {}, `${number(seen.length)} nodes`), scrolling("Nodes", table(["node", "kind", "#feeder", "~customers"], rows, "Nodes")));
}

function showDevices() {
  const seen = known.book.devices.filter((device) => device.name.includes(searched));
  if (!isNew(devices, seen)) return;
  const name = (node) => known.book.nodes[node].name;
  const rows = seen.map((device) => [
    device.name, `${name(device.a)} \u2013 ${name(device.b)}`, device.normal, device.since || "always", device.until || "without end",
    form ? el("button", { type: "button", class: "small", "aria-label": `In service from/to: ${device.name}`, click: () => form.choose("life", device.name, device.since, device.until) }, "From/to") : "",
  ]);
  renew(devices, el("h2", {}, `${number(seen.length)} devices`), scrolling("Devices", table(["device", "between", "normal", "in the network from", "until before", "~in service"], rows, "Devices")));
}

/** The customers of a section, or the one of a number: where that is, and whether it has supply now. */
async function showCustomers(asked) {
  const shown = await get("/api/customers", asked), { section } = shown;
  if (!shown.found) {
    customers.replaceChildren(el("p", { class: "warn" }, asked.number ? `No customer has the number ${asked.number}.` : `${section} has no customers.`));
    return;
  }
  const rows = shown.customers.map((row) => [String(row.no), row.since || "always", row.until || "without end"]);
  const more = shown.found > shown.customers.length ? ` The first ${shown.customers.length} are shown.` : "";
  customers.replaceChildren(el("div", { class: "card", tabindex: "-1" }, el("h2", {}, asked.number ? `Customer ${asked.number}: section ${section}` : `${number(shown.found)} customers of ${section}`), el("p", {}, el("a", { href: `/?text=${section}` }, `Outages of ${section} now`), more), scrolling("Customers", table(["#customer", "in service from", "until before"], rows, `Customers of ${section}`))));
  customers.firstElementChild.focus();
}

function show() {
  words.replaceChildren(list("devices", known.book.devices.map((each) => each.name)), list("nodes", known.book.nodes.map((each) => each.name)), list("sections", known.book.nodes.filter((node) => node.kind === 2).map((each) => each.name)));
  showNodes();
  showDevices();
  document.body.dataset.number = known.book.number;
}

function searchForm(search) {
  const found = text({ inputmode: "numeric", maxlength: 10 });
  const find = (event) => { event.preventDefault(); if (found.value.trim()) showCustomers({ number: found.value.trim() }); };
  const row = el("div", { class: "row" }, field("Search nodes and devices", search), field("Customer's number to find", found), el("button", {}, "Find"));
  return el("form", { class: "card short no-print", "aria-label": "Search", submit: find }, row);
}

begin(async () => {
  const search = text({ "data-search": "yes", input: settled(() => { searched = search.value.trim().toUpperCase(); show(); }) });
  form = known.me.may_send ? commandForm() : null;
  main.append(words, searchForm(search), customers, el("div", { class: "two" }, devices, nodes), lookOnly(), form ? form.element : "", foot(`Devices, nodes and customers are those of the book; what a change would do is ${source()}.`));
  onCommands(async () => { await reloadBook(); show(); });
  show();
});
