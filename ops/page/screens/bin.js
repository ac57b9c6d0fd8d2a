// A bin, by a scan of its label: what lies in it, what is done there; and labels of bins, as a sheet.
import { button, tag } from "../dom.js";
import { form } from "../form.js";
import { set, setting } from "../kept.js";
import { refuse } from "../told.js";
import { chip, expiryBar, sum } from "../draw.js";
import { counted, grouped, say } from "../say.js";
import { symbol } from "../code39.js";
import { inBin } from "../lists.js";
import { find } from "./simple.js";
import { growing } from "./open.js";

const HERE = [["counts", "bin", say`Count here`], ["moves", "from", say`Move from here`], ["moves", "to", say`Move to here`], ["adjustments", "bin", say`Write on or off`]];
export const path = (...parts) => "#/" + parts.map(encodeURIComponent).join("/");
const link = (words, ...parts) => tag("a", { class: "button", href: path(...parts) }, words);

/** What stands beside an order that is not known: the way to the bin of that name. */
export const asBin = name => tag("p", { class: "pair" }, link(say`${name} is a bin`, "bin", name));

/** A lot in a bin, with the two things that are done most, filled in. */
const lotIn = (bin, isStore) => it => tag("li", { class: isStore && it.status === "FREE" ? "" : "blocked" },
  tag("h3", {}, tag("a", { href: path("lot", it.gtin, it.lot) }, it.name, " ", tag("code", {}, it.lot)), chip(it.status), tag("b", {}, grouped(it.qty))),
  expiryBar(it.expiry, it.status),
  tag("div", { class: "pair" }, [["counts", "bin", say`Count it`], ["moves", "from", say`Move it`]].map(([route, field, words]) => link(words, route, field, bin, "gtin", it.gtin, "lot", it.lot))));
const columns = name => it => [["bin", name], ["gtin", it.gtin], ["name", it.name], ["lot", it.lot], ["expiry", it.expiry], ["status", it.status], ["units", it.qty]];

export function bin(name) {
  if (!name) return find("bin", "bin", say`A bin`);
  const head = tag("div", { class: "who" });
  const list = growing(inBin(name), found => {
    const kind = found.kind === "STORE" ? say`for sale` : say`set aside`, some = found.more ? "+" : "";
    head.replaceChildren(tag("h2", {}, found.lots.length ? say`${counted(sum(found.lots), "unit", some)} of ${counted(found.lots.length, "lot", some)}` : say`Empty`),
      tag("span", { class: "chip" + (found.kind === "STORE" ? "" : " held") }, kind));
    return found.lots.map(lotIn(name, found.kind === "STORE"));
  }, { attributes: { class: "lines flat" }, file: `bin-${name}`, columns: columns(name) });
  const links = HERE.map(([route, field, words]) => link(words, route, field, name));
  const label = button(say`Bin label`, () => { add([name]); location.hash = "#/labels"; });
  /** What is done seldom stands below the lots on a hand. */
  const seldom = [link(say`Move all of it`, "carry", name), link(say`Count sheet`, "sheets", name), label, button(say`Print`, () => print(), { class: "desk" }), list.save], isDesk = matchMedia("(min-width: 900px)").matches;
  return { title: say`Bin ${name}`, follows: true, refresh: list.refresh, other: tag("p", { class: "pair" }, link(say`${name} is an order`, "order", name)),
    node: isDesk ? tag("div", {}, tag("div", { class: "pair" }, links, seldom), head, list.node) : tag("div", {}, tag("div", { class: "pair" }, links), head, list.node, tag("div", { class: "pair" }, seldom)) };
}

const all = () => JSON.parse(setting("labels", "[]"));
/** Puts labels of bins on the sheet that is printed next. */
export const add = bins => set("labels", JSON.stringify([...new Set([...all(), ...bins])].slice(0, 500)));

/** `A-01`, or `A-01 A-24` for all between. */
export function binsOf(text) {
  const [first, last = first, ...more] = text.trim().toUpperCase().split(/ +/);
  if (more.length || ![first, last].every(it => /^[A-Z0-9-]{1,20}$/.test(it))) return undefined;
  if (first === last) return [first];
  const [, head, low] = /^(.*?)(\d{1,4})$/.exec(first) ?? [], [, tail, high] = /^(.*?)(\d{1,4})$/.exec(last) ?? [];
  if (head === undefined || head !== tail || low.length !== high.length || +low > +high) return undefined;
  return Array.from({ length: high - low + 1 }, (_, at) => head + String(+low + at).padStart(low.length, "0"));
}
export const NO_BINS = [say`These are no bins`, say`One bin, or the first and the last: A-01 A-24`];

export function labels() {
  const sheet = tag("ul", { class: "sheet" });
  const draw = () => sheet.replaceChildren(...all().map(name => tag("li", {}, symbol(name, 310),
    button("✕", () => { set("labels", JSON.stringify(all().filter(it => it !== name))); draw(); }, { "aria-label": say`Take out ${name}` }))));
  const it = form({ names: ["bins"], button: say`Put on the sheet`, done({ bins }) {
    const found = binsOf(bins);
    if (!found) return refuse(...NO_BINS);
    add(found);
    draw();
    it.clear("bins");
  } });
  const pair = tag("div", { class: "pair" }, button(say`Print the sheet`, () => print()), button(say`Empty it`, () => { set("labels", "[]"); draw(); }));
  draw();
  return { title: say`Labels of bins`, form: it, node: tag("div", {}, it.node, pair, sheet) };
}
