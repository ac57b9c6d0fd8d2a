// The names of items. They never change, so the device keeps them.
import { shortages } from "./ask.js";
import { told } from "./day.js";
import { set, setting } from "./kept.js";
import { books, itemNames, read, readOn } from "./lists.js";

const MOST = 10;                               // parts that the items of a house have
const SOON = 30000, LATER = 600000;            // ms before the items are read anew: where none has a name, and where one has
const names = new Map(Object.entries(JSON.parse(setting("names", "{}"))));
for (const name of Object.keys(localStorage)) if (name.startsWith("lot-stock/name/")) localStorage.removeItem(name);    // as an older page kept them
let items = [], readAt = -Infinity, readAct = -1, reading = null;

/** Keeps names that were read. */
export function learn(found) {
  const fresh = found.filter(({ gtin, name }) => names.get(gtin) !== name);
  for (const { gtin, name } of fresh) names.set(gtin, name);
  if (fresh.length) set("names", JSON.stringify(Object.fromEntries(names)));
}
/** The name of an item, where it was read before. */
export const known = gtin => names.get(gtin) ?? "";
/** A lot with its item's name, where that was read before. */
export const lotWords = (lot, gtin) => (known(gtin) ? `${lot} (${known(gtin)})` : lot);

/** The name of an item; "" where there is none, or no answer. */
export async function nameOf(gtin) {
  if (!known(gtin)) try { learn([{ gtin, name: (await shortages(gtin)).name }]); } catch { return ""; }
  return known(gtin);
}

/** Learns the names of many items by as few requests as there are: a thousand stand in one. */
export async function namesOf(gtins) {
  const last = gtins.filter(gtin => !known(gtin)).sort();
  if (last.length > 2) learn((await read(itemNames, MOST, ({ items }) => items.at(-1).gtin >= last.at(-1)).catch(() => ({ items: [] }))).items);
  else await Promise.all(last.map(nameOf));
}

/** The days that a lot of an item must have left. */
export async function leastOf(gtin) {
  const before = [...names.keys()].filter(it => it < gtin).sort().at(-1);
  let found = { items: before ? [{ gtin: before }] : [], more: true };
  while (found.more && !(found.items.at(-1)?.gtin >= gtin)) found = await readOn(itemNames, found);
  return found.items.find(it => it.gtin === gtin)?.least ?? 0;
}

async function readItems() {
  const isNew = readAct < 0 || await books().then(() => told.act !== readAct);
  if (isNew) {
    const found = await read(itemNames, MOST);
    [items, readAct] = [found.items, found.act];
    learn(items);
  }
  readAt = Date.now();
}

/** Items with each of these words in their names, in any letters. They are read anew only where acts came since, and not at once
 *  again: a name that nobody has is typed letter by letter. */
export async function itemsNamed(text) {
  const words = text.toLowerCase().split(/\s+/).filter(Boolean);
  const found = () => items.filter(({ name }) => words.every(word => name.toLowerCase().includes(word)));
  if (Date.now() - readAt > (found().length ? LATER : SOON)) await (reading ??= readItems().finally(() => { reading = null; }));
  return found();
}
/** An item was made here: it is looked for at once. */
export const forgetItems = () => { readAt = -Infinity; };
