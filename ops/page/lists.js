// The lists of lotd. Each answer has a part of its list, and is asked for behind the last entry that was seen.
import { get } from "./ask.js";
import { told } from "./day.js";
import { set, setting } from "./kept.js";

/** Reads the business day and the number of the last act. */
export const books = async () => Object.assign(told, await get("books"));

const isAskable = it => it.lot !== "." && it.lot !== "..";      // a browser takes such a part out of each path
const isSame = (one, other) => one.order === other.order && one.gtin === other.gtin && one.lot === other.lot;

const lotOf = last => (last ? [last.gtin, last.lot] : []);
/** The lists: the name that the entries stand under, and what is asked for those behind one. */
export const openOrders = { name: "orders", ask: last => get("openorders", ...(last ? [last.order] : [])) };
export const inBin = bin => ({ name: "lots", ask: last => get("bins", bin, ...lotOf(last)) });
export const expiring = day => ({ name: "lots", ask: last => get("expiring", day, ...lotOf(last)) });
export const itemNames = { name: "items", ask: last => get("itemnames", ...(last ? [last.gtin] : [])) };

/** What is read of a list: all entries so far under its name, and whether there are more. `so far` is what was read before. */
export async function readOn({ name, ask }, soFar = { [name]: [] }) {
  const all = soFar[name];
  let at = all.length - 1;
  while (at >= 0 && !isAskable(all[at])) at -= 1;
  const behind = all.slice(at + 1), it = await ask(all[at]);
  return { ...it, [name]: all.concat(it[name].filter(each => !behind.some(other => isSame(each, other)))) };
}

/** A list from its begin, as far as so many answers go, or until `isEnough(found)`. */
export async function read(list, parts, isEnough = () => false) {
  let found = await readOn(list);
  for (let part = 1; part < parts && found.more && !isEnough(found); part += 1) found = await readOn(list, found);
  return found;
}

/** Whether units in this bin may be promised. A bin's kind never changes. */
export async function isStore(bin) {
  const name = "kind/" + bin;
  if (!setting(name)) set(name, (await get("bins", bin)).kind);
  return setting(name) === "STORE";
}
