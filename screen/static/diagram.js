// The one-line diagram: GRID at the left, each layer of normally closed devices a column further, ties as arcs. What is without
// supply comes first, the rest by feeder.
import { choice, el, field, idle, svg } from "./common.js";
import { store } from "./unanswered.js";

const GAP = 102, ROW = 62, WIDTH = 122, HEIGHT = 36, EDGE = 14, HIT = 44, MARGIN = 246;
const ARC = 92; // from a box to the name at an arc
const LONG = 14; // letters: a longer name at an arc has room in the gap between columns
const NAME_FONT = "bold 13px", SIGN_FONT = "bold 11px"; // as in the style: the widest in which a name is shown
const WIDEST_ON_PAPER = 1500; // of a picture that can still be read there
const LOW = 450; // of a picture that is below the list, not next to it
const SLICE = 150; // nodes and devices that are drawn in one go
const ZOOMS = [0.35, 0.5, 0.7, 1, 1.4, 2], KEPT = "outagebook-zoom";

/** How wide boxes, the gaps between columns and the right margin are: as the longest names of a network need. */
let sizes = { box: WIDTH, gap: GAP, margin: MARGIN };
const pen = document.createElement("canvas").getContext("2d");

const widths = new Map(); // by font and words
let family = null;

function widthOf(font, words) {
  const key = `${font} ${words}`;
  if (!widths.has(key)) {
    family ??= getComputedStyle(document.body).fontFamily;
    pen.font = `${font} ${family}`;
    widths.set(key, Math.ceil(pen.measureText(words).width));
  }
  return widths.get(key);
}

function sizesOf({ nodes, devices }) {
  const longest = (font, names) => names.reduce((most, name) => Math.max(most, widthOf(font, name)), 0);
  const trees = devices.filter((device) => device.tree).map((device) => `${device.name} open!`);
  const arcs = devices.filter((device) => !device.tree).map((device) => `${device.name} closed!`);
  const long = arcs.filter((name) => name.length > LONG + " closed!".length);
  return {
    box: Math.max(WIDTH, longest(NAME_FONT, nodes.map((node) => node.name)) + 14),
    gap: Math.max(GAP, longest(SIGN_FONT, trees) + 6, long.length ? longest(SIGN_FONT, long) + ARC + 6 : 0),
    margin: Math.max(MARGIN, longest(SIGN_FONT, arcs) + ARC + 18),
  };
}

/** Where a node is drawn. */
const place = (node) => ({ x: EDGE + node.layer * (sizes.box + sizes.gap), y: EDGE + 14 + node.row * ROW });

function nodeShape(node) {
  const width = sizes.box;
  const { x, y } = place(node);
  const words = [["bus", node.kind < 2], ["out", !node.supplied], ["by_tie", node.by_tie]].filter(([, is]) => is).map(([name]) => name);
  const group = svg("g", { class: `node ${words.join(" ")}` });
  if (node.kind < 2) group.append(svg("rect", { x: x + width / 2 - 5, y, width: 10, height: HEIGHT }), svg("text", { x: x + width / 2, y: y - 4, "text-anchor": "middle" }, node.name));
  else group.append(svg("rect", { x, y, width, height: HEIGHT, rx: 4 }), svg("text", { x: x + 6, y: y + 15 }, node.name));
  if (node.kind >= 2 && node.by_tie) group.append(svg("rect", { class: "second", x: x + 3, y: y + 3, width: width - 6, height: HEIGHT - 6, rx: 3 }));
  const told = !node.supplied ? `OUT \u00d7 ${node.customers} cust.` : node.by_tie ? `by a tie, ${node.customers} cust.` : `${node.customers} cust., feeder ${node.feeder}`;
  if (node.kind >= 2) group.append(svg("text", { x: x + 6, y: y + 30, class: "sub" }, told));
  else if (!node.supplied) group.append(svg("text", { x: x + width / 2, y: y + HEIGHT + 12, class: "sub", "text-anchor": "middle" }, "OUT"));
  return group;
}

function ends(a, b) {
  const width = sizes.box;
  const [left, right] = a.layer <= b.layer ? [a, b] : [b, a];
  const from = place(left), to = place(right);
  const inset = (node) => (node.kind < 2 ? width / 2 - 5 : 0);
  return { x1: from.x + width - inset(left), y1: from.y + HEIGHT / 2, x2: to.x + inset(right), y2: to.y + HEIGHT / 2, left, right, from, to };
}

/** The way of a device and the point at which its sign stands. */
function wayOf(device, a, b) {
  const { x1, y1, x2, y2, from, to, left, right } = ends(a, b);
  if (device.tree) {
    const turn = x1 + 22;
    return { d: `M${x1} ${y1}H${turn}V${y2}H${x2}`, x: (turn + x2) / 2, y: y2, end: x2 };
  }
  const out = (node, at) => at.x + sizes.box - (node.kind < 2 ? sizes.box / 2 - 5 : 0);
  const sx = out(left, from), ex = out(right, to);
  const reach = Math.max(sx, ex) + 40 + Math.min(60, Math.abs(y2 - y1) / 6);
  return { d: `M${sx} ${y1 + 7}C${reach} ${y1 + 7} ${reach} ${y2 - 7} ${ex} ${y2 - 7}`, x: (sx + ex) / 8 + (reach * 6) / 8, y: (y1 + y2) / 2 };
}

const isDead = (device, a, b) => device.tree && device.closed && !(a.supplied && b.supplied);

function wayShape(device, a, b) {
  const kinds = ["way", isDead(device, a, b) && "dead", !device.tree && "tie", !device.closed && "open", !device.alive && "gone"];
  return svg("path", { class: kinds.filter(Boolean).join(" "), d: wayOf(device, a, b).d });
}

function signShape(device, a, b, href) {
  const way = wayOf(device, a, b);
  const odd = device.alive && device.closed !== device.normal;
  const words = [device.closed && "closed", odd && "odd", !device.alive && "gone"].filter(Boolean);
  const state = !device.alive ? "not in the network" : `${device.closed ? "closed" : "open"}${odd ? ", not its normal position" : ""}`;
  const name = `${device.name}${odd ? (device.closed ? " closed!" : " open!") : ""}`;
  const middle = device.tree && Math.min(way.x, way.end - widthOf(SIGN_FONT, name) / 2 - 2); // ends before the next box
  const mark = odd ? [svg("path", { class: "ring", d: `M${way.x} ${way.y - 13}l13 13l-13 13l-13 -13z` })] : [];
  return svg(
    "a",
    { class: words.join(" "), href, "aria-label": `${device.name}: ${state}. Enter a switching.` },
    svg("rect", { class: "hit", x: way.x - HIT / 2, y: way.y - HIT / 2, width: HIT, height: HIT }),
    ...mark,
    svg("rect", { class: "box", x: way.x - 6, y: way.y - 6, width: 12, height: 12 }),
    svg("text", device.tree ? { x: middle, y: way.y - 16, "text-anchor": "middle" } : { x: way.x + 17, y: way.y + 4 }, name),
  );
}

/** A shape is drawn anew where what it is drawn from has changed. */
class Shape {
  constructor(draw) {
    this.draw = draw;
    this.told = null;
    this.element = null;
    this.hadFocus = false;
  }

  /** Whether it was drawn anew. */
  show(layer, ...from) {
    const told = JSON.stringify(from);
    if (told === this.told) return false;
    const old = this.element;
    this.element = this.draw(...from);
    this.told = told;
    if (!old) {
      layer.append(this.element);
      return true;
    }
    this.hadFocus = old === document.activeElement;
    old.replaceWith(this.element);
    return true;
  }

  /** A link that was drawn anew takes the focus again: it needs its address for that. */
  giveFocus() {
    if (this.hadFocus) this.element.focus({ preventScroll: true });
    this.hadFocus = false;
  }
}

/** The diagram of a network: from the top on, a slice at a time, so that a large one keeps nobody waiting. Shown again, it
 * draws what has changed: the rest stays, and with it what has the focus and how far it is scrolled. Rows change their order
 * only while nobody looks into it. The tabulator stops once, arrows go from device to device. */
export class Diagram {
  constructor() {
    this.place = el("div", { class: "scroll tall diagram-place", role: "group", "aria-label": "One-line diagram" });
    this.jump = el("select", { input: () => this.goTo(Number(this.jump.value)) });
    const zoom = (sign, words, step) => el("button", { type: "button", "aria-label": words, click: () => this.zoomBy(step) }, sign);
    this.late = el("button", { type: "button", hidden: true, click: () => this.arrange() }, "Without supply first");
    const tools = el("div", { class: "buttons no-print" }, field("Go to feeder", this.jump), zoom("\u2212", "Smaller", -1), zoom("+", "Larger", 1));
    this.element = el("section", { class: "network", "aria-label": "The network" }, el("div", { class: "row" }, el("h2", {}, "Network"), tools), this.place, el("div", { class: "row no-print" }, this.late, legend()));
    this.zoom = Number(store?.getItem(KEPT) ?? ZOOMS.indexOf(1));
    this.network = "";
    this.here = 0; // the device at which the tabulator stops
    this.place.addEventListener("keydown", (event) => this.key(event));
    this.place.addEventListener("focusin", ({ target }) => this.stopAt(Number(target.closest("a")?.dataset.at ?? this.here)));
    for (const [name, is] of [["pointerenter", true], ["pointerleave", false]]) this.place.addEventListener(name, () => { this.isPointed = is; this.settle(); });
    this.place.addEventListener("focusout", () => setTimeout(() => this.settle()));
  }

  /** Somebody looks into the diagram: its rows stay where they are. */
  get isHeld() {
    return this.isPointed || this.place.scrollTop > 0 || this.place.contains(document.activeElement);
  }

  settle() {
    if (!this.late.hidden && !this.isHeld) this.arrange();
  }

  show(shown, link) {
    const network = JSON.stringify([shown.nodes.map(({ name, layer }) => [name, layer]), shown.devices.map(({ name, a, b, tree }) => [name, a, b, tree])]);
    const rows = shown.nodes.map((node) => node.row);
    Object.assign(this, { shown, link, wanted: rows });
    const isNew = network !== this.network;
    this.network = network;
    if (isNew || !this.isHeld) this.rows = rows;
    this.late.hidden = this.rows.join() === rows.join();
    shown.nodes.forEach((node, at) => (node.row = this.rows[at]));
    this.feeders();
    if (isNew) this.begin();
    else this.redraw();
  }

  /** Brings the rows into the order that they have now. */
  arrange() {
    this.place.scrollTop = 0;
    this.late.hidden = true;
    this.rows = this.wanted;
    this.shown.nodes.forEach((node, at) => (node.row = this.rows[at]));
    this.redraw();
  }

  /** The feeders to go to: those with a part that is without supply say so. */
  feeders() {
    const dead = new Map();
    for (const { feeder, supplied } of this.shown.nodes) if (feeder) dead.set(feeder, dead.get(feeder) || !supplied);
    const sorted = [...dead].sort(([one, isOut], [other, isOtherOut]) => isOtherOut - isOut || one - other);
    const told = sorted.join();
    if (told === this.told) return;
    this.told = told;
    const words = sorted.map(([feeder, isOut]) => [String(feeder), `${feeder}${isOut ? ", without supply" : ""}`]);
    this.jump.replaceChildren(...choice([["", "choose"], ...words]).children);
    this.jump.value = ""; // each option that is moved is the chosen one for a moment
  }

  goTo(feeder) {
    const rows = this.shown.nodes.filter((node) => node.feeder === feeder).map((node) => node.row);
    if (rows.length) this.place.scrollTo(0, (place({ layer: 0, row: Math.min(...rows) }).y - EDGE) * this.scale);
  }

  begin() {
    const { nodes, devices } = this.shown;
    sizes = sizesOf(this.shown);
    const layers = Math.max(...nodes.map((node) => node.layer)) + 1;
    const rows = Math.max(...nodes.map((node) => node.row)) + 1;
    this.width = EDGE + layers * (sizes.box + sizes.gap) - sizes.gap + sizes.margin;
    this.height = EDGE * 2 + rows * ROW + 24;
    this.element.parentElement.classList.toggle("large", this.height > LOW);
    const on_paper = this.width > WIDEST_ON_PAPER ? " no-print" : "";
    this.picture = svg("svg", { class: `diagram${on_paper}`, viewBox: `0 0 ${this.width} ${this.height}`, role: "group", "aria-label": "Devices: arrow keys go from one to the next" });
    this.layers = { way: svg("g"), node: svg("g"), sign: svg("g") };
    this.picture.append(...Object.values(this.layers));
    const note = on_paper ? el("p", { class: "print-only" }, "The diagram of this network is too wide for paper: it is on the screen.") : "";
    this.place.replaceChildren(this.picture, note);
    this.size();
    this.place.scrollLeft = sizes.box * this.scale; // GRID is in the middle of all rows: its column is empty at the top
    const parts = nodes.map((_, at) => ({ at, node: new Shape(nodeShape) }));
    this.devices = devices.map((_, at) => ({ at, way: new Shape(wayShape), sign: new Shape(signShape) }));
    this.parts = [...parts, ...this.devices];
    this.redraw();
  }

  /** The parts from the top on, of those in one row from the left on. */
  sort() {
    const { nodes, devices } = this.shown;
    for (const part of this.parts) Object.assign(part, part.node ? place(nodes[part.at]) : wayOf(devices[part.at], nodes[devices[part.at].a], nodes[devices[part.at].b]));
    const order = (one, other) => one.y - other.y || one.x - other.x;
    this.parts.sort(order);
    this.devices.sort(order);
  }

  redraw() {
    this.sort();
    if (!this.devices.some((part) => part.at === this.here)) this.here = 0;
    this.drawn = 0;
    this.round = (this.round ?? 0) + 1;
    this.drawOn(this.round);
  }

  /** Draws the next slice, and the others when there is time. */
  drawOn(round) {
    const { parts, drawn } = this;
    const slice = parts.slice(drawn, drawn + SLICE);
    slice.forEach((part) => this.draw(part));
    this.drawn = drawn + slice.length;
    this.place.setAttribute("aria-busy", String(this.drawn < parts.length));
    if (this.drawn < parts.length) idle(() => round === this.round && this.drawOn(round));
  }

  draw({ at, node, way, sign }) {
    const { nodes, devices } = this.shown;
    if (node) {
      node.show(this.layers.node, nodes[at]);
      return;
    }
    const device = devices[at], a = nodes[device.a], b = nodes[device.b];
    way.show(this.layers.way, device, a, b);
    if (!sign.show(this.layers.sign, device, a, b, this.link(device))) return;
    sign.element.setAttribute("tabindex", at === this.here ? "0" : "-1");
    sign.element.dataset.at = at;
    sign.giveFocus();
  }

  // Size.

  /** Larger than its place needs only where there is room for it. */
  size() {
    const room = this.place.clientWidth / this.width;
    this.scale = ZOOMS[this.zoom] * Math.min(1.5, Math.max(1, room));
    this.picture.setAttribute("width", this.width * this.scale);
    this.picture.setAttribute("height", this.height * this.scale);
  }

  /** Another size: what is in the middle stays there. */
  zoomBy(step) {
    const { place: at, scale } = this;
    const middle = [at.scrollLeft + at.clientWidth / 2, at.scrollTop + at.clientHeight / 2];
    this.zoom = Math.min(ZOOMS.length - 1, Math.max(0, this.zoom + step));
    store?.setItem(KEPT, this.zoom);
    this.size();
    const [x, y] = middle.map((each) => (each * this.scale) / scale);
    at.scrollTo(x - at.clientWidth / 2, y - at.clientHeight / 2);
  }

  // The keyboard.

  stopAt(at) {
    for (const part of this.devices) if (part.at === this.here || part.at === at) part.sign.element?.setAttribute("tabindex", part.at === at ? "0" : "-1");
    this.here = at;
  }

  key(event) {
    if (event.key === "+" || event.key === "-") this.zoomBy(event.key === "+" ? 1 : -1);
    else if (!(event.key in STEPS) || event.ctrlKey || event.altKey) return;
    else this.focus(STEPS[event.key](this));
    event.preventDefault();
  }

  focus(part) {
    if (!part?.sign.element) return;
    this.stopAt(part.at);
    part.sign.element.focus({ preventScroll: true });
    part.sign.element.scrollIntoView({ block: "nearest", inline: "nearest" });
  }

  get index() {
    return this.devices.findIndex((part) => part.at === this.here);
  }

  /** The node of a device at its side away from GRID, or the one towards it. */
  end(isFar) {
    const { nodes, devices } = this.shown, { a, b } = devices[this.here];
    return nodes[a].layer < nodes[b].layer === isFar ? b : a;
  }

  /** The first device of the tree that has a node at the other side. */
  next(isFar) {
    const { nodes, devices } = this.shown, node = this.end(isFar);
    const other = ({ a, b }) => (a === node ? b : b === node ? a : null);
    return this.devices.find(({ at }) => at !== this.here && devices[at].tree && other(devices[at]) !== null && nodes[other(devices[at])].layer > nodes[node].layer === isFar);
  }

  /** The first device of the next or the last feeder by rows. */
  feeder(step) {
    const feederOf = (part) => { const { a, b } = this.shown.devices[part.at]; return this.shown.nodes[b].feeder || this.shown.nodes[a].feeder; };
    const { index } = this, own = feederOf(this.devices[index]);
    const found = step > 0 ? this.devices.slice(index + 1) : this.devices.slice(0, index).reverse();
    return found.find((part) => feederOf(part) !== own) ?? found.at(-1);
  }
}

/** To which device each key leads. */
const STEPS = {
  ArrowDown: (diagram) => diagram.devices[diagram.index + 1],
  ArrowUp: (diagram) => diagram.devices[diagram.index - 1],
  ArrowRight: (diagram) => diagram.next(true),
  ArrowLeft: (diagram) => diagram.next(false),
  PageDown: (diagram) => diagram.feeder(1),
  PageUp: (diagram) => diagram.feeder(-1),
  Home: (diagram) => diagram.devices[0],
  End: (diagram) => diagram.devices.at(-1),
};

function legend() {
  const words = [
    "\u25a0 closed", "\u25a1 open", "\u25c7 around it and ! : not its normal position", "dashed red frame, OUT: without supply",
    "double frame, by a tie: supplied another way than normal", "arc: normally open or second way", "thick bar: bus",
    "keys: arrows from device to device, PgUp and PgDn to another feeder, + and \u2212 for the size",
  ].map((each) => el("li", {}, each));
  return el("details", { class: "no-print" }, el("summary", {}, "What the signs mean"), el("ul", { class: "legend" }, words));
}
