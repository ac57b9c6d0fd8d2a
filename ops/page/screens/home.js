// Home: a number of the menu, or anything scanned; at a desk also how the house stands.
import { tag } from "../dom.js";
import { bare, gtin, isLabel, parts } from "../label.js";
import { figures, order } from "../ask.js";
import { refuse } from "../told.js";
import { wasAtOnce } from "../scan.js";
import { books, inBin, readOn } from "../lists.js";
import { itemsNamed, nameOf } from "../names.js";
import { hits } from "../hits.js";
import { told } from "../day.js";
import { counted, grouped, say } from "../say.js";
import { facts } from "./state.js";
import { openAtHome } from "./open.js";
import { expiringAtHome } from "./expiring.js";

export const NEITHER = say`This label has no item and lot`;
export const open = (...at) => { location.hash = "#/" + at.map(encodeURIComponent).join("/"); };

const isThere = wanted => wanted.then(() => true, () => false);

/** Opens the item of this number, the order or the bin of this name, or items with this in their names. A number may be an order
 *  too: then the item, where it is known. */
async function openWhat(text) {
  const number = gtin(text), name = text.toUpperCase();
  if (number && await nameOf(number)) return open("item", number);
  const [isOrder, isBin] = await Promise.all([isThere(order(name)), isThere(readOn(inBin(name)))]);
  if (isOrder) return open("order", name);
  if (isBin) return open("bin", name);
  if (number) return open("item", number);
  const found = await itemsNamed(text).catch(() => []);
  if (found.length === 1) return open("item", found[0].gtin);
  open(...(found.length ? ["items named", text] : ["order", name]));
}

function openLabel(text) {
  const { gtin, lot, doubt } = parts(text);
  if (gtin && lot) open("lot", gtin, lot); else refuse(doubt || NEITHER);
}

/** A scan on a screen that asks for nothing: what it is is opened, as at home. */
export const openScan = text => (isLabel(text) ? openLabel(text) : openWhat(bare(text)));

/** One field for anything that is scanned, or an item's name; a number of the menu is typed, and not scanned. */
export function anything(menu = []) {
  const field = tag("input", { id: "any", autocomplete: "off", autocapitalize: "off", spellcheck: "false", inputmode: menu.length ? "none" : "text" });
  const list = hits(field, gtin => open("item", gtin));
  field.addEventListener("dblclick", () => { field.inputMode = "text"; });
  const node = tag("form", {
    class: "any",
    onlabel({ detail }) { openLabel(detail); },
    onsubmit(event) {
      event.preventDefault();
      const text = bare(field.value);
      list.hide();
      field.value = "";
      if (menu[text - 1] && !wasAtOnce()) open(menu[text - 1]);
      else if (text) openWhat(text);
    },
  }, tag("label", { for: "any" }, say`Scan anything, or type a part of an item's name`), tag("div", { class: "row" }, field, list.node));
  return { node };
}

/** Items with these words in their names. */
export function named(text) {
  const list = tag("ul", { class: "rows" });
  async function refresh() {
    list.replaceChildren(...(await itemsNamed(text)).slice(0, 100).map(it => tag("li", {}, tag("a", { class: "rowed", href: `#/item/${it.gtin}` },
      tag("span", {}, tag("b", {}, it.name)), tag("small", {}, it.gtin)))));
  }
  return { title: say`Items with "${text}"`, refresh, node: tag("div", {}, anything().node, list) };
}

async function returnsAtHome({ units: { returns } }) {
  const { lots } = await readOn(inBin("RETURNS"));
  return [tag("h2", {}, tag("a", { href: "#/bin/RETURNS" }, returns ? say`In RETURNS: ${counted(returns, "unit")}` : say`Nothing in RETURNS`)),
    tag("ul", { class: "plain" }, lots.slice(0, 5).map(it => tag("li", {}, tag("a", { href: `#/lot/${it.gtin}/${encodeURIComponent(it.lot)}` }, it.lot),
      tag("span", {}, it.name), tag("b", {}, grouped(it.qty)))))];
}

export function home(menu) {
  const { view, refresh: state } = facts(), places = [openAtHome, expiringAtHome, returnsAtHome].map(read => [read, tag("section", { class: "about" })]);
  const [orders, ...others] = places.map(([, place]) => place), isDesk = matchMedia("(min-width: 900px)");
  /** A hand has the menu alone: what nobody sees is not read. What expires is asked for once the day is known. */
  async function refresh() {
    if (!isDesk.matches) return books();
    const fault = await state().then(() => null, it => it);
    if (told.day) {
      const numbers = await figures();
      await Promise.all(places.map(async ([read, place]) => place.replaceChildren(...await read(numbers))));
    }
    if (fault) throw fault;
  }
  return { title: "Lot stock", refresh, follows: true, readsBooks: true,
    node: tag("div", {}, anything(menu).node, tag("div", { class: "two desk" }, orders, tag("div", {}, others, tag("section", { class: "about" }, view)))) };
}
