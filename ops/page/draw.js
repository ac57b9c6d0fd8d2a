// Pictures where people would rather look than read. Widths are set by script: the page's policy takes no style in HTML.
import { svg, tag } from "./dom.js";
import { daysTo } from "./day.js";
import { counted, grouped, say } from "./say.js";

/** What a lot, an order and a bin can be, in words. */
const STATUS = { FREE: say`FREE`, HELD: say`HELD`, EXPIRED: say`EXPIRED`, RECALLED: say`RECALLED`, SHORTDATED: say`TOO FEW DAYS`, NONE: say`NEVER CAME`,
  URGENT: say`URGENT`, DONE: say`DONE`, CANCELLED: say`CANCELLED`, OPEN: say`OPEN`, NEW: say`NEW LOT` };
export const statusWords = status => STATUS[status] ?? status;
/** What the units of an order or a lot are: each is a part of a bar. */
const PARTS = { shipped: say`shipped`, staged: say`picked`, reserved: say`to pick`, short: say`short`, unpromised: say`free`, promised: say`promised`, blocked: say`blocked`, units: say`units` };
export const partWords = kind => PARTS[kind];

/** All units of a list. */
export const sum = (list, name = "qty") => list.reduce((total, it) => total + it[name], 0);

function part(share, kind) {
  const it = tag("i", { class: kind });
  it.style.flexGrow = share;
  return it;
}

/** Units as parts of one bar: [["staged", 5], ["short", 2]]. */
export function bar(pairs, whole) {
  const some = pairs.filter(([, qty]) => qty > 0), rest = whole - some.reduce((total, [, qty]) => total + qty, 0);
  return tag("div", { class: "bar", role: "img", "aria-label": some.map(([kind, qty]) => `${PARTS[kind]} ${grouped(qty)}`).join(", ") || say`none` },
    some.map(([kind, qty]) => part(qty, kind)), rest > 0 && part(rest, "rest"));
}

/** The parts of a bar that are not 0, in words, each with its colour. */
export const legend = pairs => tag("p", { class: "legend" }, pairs.filter(([, qty]) => qty !== 0).map(([kind, qty]) =>
  tag("span", {}, tag("i", { class: kind }), `${PARTS[kind]} `, tag("b", {}, grouped(qty)))));
/** The same as one text. */
export const told = pairs => pairs.filter(([, qty]) => qty !== 0).map(([kind, qty]) => `${grouped(qty)} ${PARTS[kind]}`).join(" · ");

/** An expiry as a bar of half a year from the business day on, with a mark at the days that must be left. */
export function expiryBar(expiry, status = "FREE", least = 0) {
  if (!expiry) return tag("p", {}, say`Never received`);
  const left = daysTo(expiry), most = 180;
  if (left === undefined) return tag("div", { class: "until" }, tag("p", {}, tag("b", {}, expiry)));
  const isSoon = left < Math.max(least, 14) || status === "SHORTDATED";
  const kind = left < 0 || status === "EXPIRED" ? "gone" : isSoon ? "soon" : "far";
  const words = left < 0 ? counted(-left, "gone") : left === 0 ? say`last day` : counted(left, "day");
  const line = svg("svg", { class: "expiry", viewBox: "0 0 180 10", preserveAspectRatio: "none", "aria-hidden": "true" },
    svg("rect", { class: "rest", width: 180, height: 10 }),
    svg("rect", { class: kind, width: left < 0 ? 180 : Math.max(3, Math.min(left, most)), height: 10 }),
    least > 0 && svg("rect", { class: "mark", x: Math.min(least, most - 2), width: 2, height: 10 }));
  return tag("div", { class: "until" }, tag("p", {}, tag("b", {}, expiry), tag("span", { class: kind }, words)), line);
}

/** Each bin with a bar of its units, beside the most that a bar on the screen has. */
export function binBars(bins, most = Math.max(1, ...bins.map(it => it.qty))) {
  return tag("ul", { class: "bins" }, bins.map(({ bin, qty }) =>
    tag("li", {}, tag("code", {}, bin), bar([["units", qty]], most), tag("b", {}, grouped(qty)))));
}

export const chip = status => tag("span", { class: "chip " + status.toLowerCase() }, statusWords(status));
/** Whose an order is, whether it is urgent, and its state where it is not open. */
export const orderHead = it =>
  tag("div", { class: "who" }, tag("h2", {}, it.customer), it.class === "URGENT" && chip("URGENT"), it.state !== "OPEN" && chip(it.state));
