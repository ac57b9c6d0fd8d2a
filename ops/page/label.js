// What a label of the trade says: the elements of the GS1 General Specifications. `lotd` reads item (01), lot (10) and expiry (17)
// alone, so the page takes the others off before it sends; `lotd` judges what is left.
import { elementOf } from "./ais.js";
import { setting } from "./kept.js";
import { say } from "./say.js";

export const GS = "\u001d";
const PREFIX = /^\](C1|d2|Q3|e0)/;

/** The elements of a text in their order; `unread` is the rest that is none. */
export function elements(text) {
  const found = [];
  let rest = text.replace(PREFIX, "");
  while (rest) {
    const next = elementOf(rest, GS);
    if (!next) return { found, unread: rest };
    found.push(next);
    rest = next.rest;
  }
  return { found, unread: "" };
}

/** Whether a text can only be a label: a prefix, or an item, an expiry or a lot with one of these behind it, in more characters
 *  than a key has; or elements to its end, with an item or a pallet among them. A name may begin with 10 too. */
export function isLabel(text) {
  if (PREFIX.test(text)) return true;
  if (text.length <= 20) return false;
  if (/^(10[!-z\u001d]{1,40})?(01\d{14}|17\d{6})/.test(text)) return true;
  const { found, unread } = elements(text);
  return !unread && found.some(({ ai }) => ["00", "01", "02"].includes(ai));
}

/** A scan that is no label, without the prefix that names its symbol (`]E0` of an EAN, `]A0` of a Code 39). */
export const bare = text => text.trim().replace(/^\][A-Za-z]\d/, "");

/** What the elements are that are taken off most. */
const NAMES = { "00": say`pallet`, "02": say`item within`, 11: say`made on`, 13: say`packed on`, 15: say`best before`, 16: say`sell by`, 21: say`serial number`,
  30: say`count`, 37: say`units within`, 240: say`maker's number`, 241: say`customer's number`, 400: say`order`, 410: say`ship to`, 422: say`country`, 8008: say`made at` };

/** A weight or another measure of what is sold by it (31nn to 36nn, but for those of a pallet): its AI is 310, the data 001250, and the
 *  last digit of the AI says how many of them stand behind the point. */
const isWeight = ai => /^3[1-6]\d\d$/.test(ai) && !/^33/.test(ai);
const amount = ({ ai, data }) => (Number(data) / 10 ** Number(ai.at(-1))).toFixed(Number(ai.at(-1)));

/** An element that was taken off, in words. */
export function words(element) {
  const { ai, data } = element, pallet = /^330/.test(ai);
  const [name, value] = isWeight(ai) || pallet ? [/^3[13][0]/.test(ai) ? say`kilograms` : say`measure`, amount(element)]
    : [NAMES[ai] ?? "", /^(11|12|13|15|16|17)$/.test(ai) ? expiry(data) : data];
  return `(${ai}) ${[name, value].filter(Boolean).join(" ")}`;
}

/** Whether this house takes a best-before day (15) for the expiry where there is none (17): the proxy's file says so. */
export const takesBestBefore = () => setting("house/best_before") === "true";

const one = (found, ai) => [...new Set(found.filter(it => it.ai === ai).map(it => it.data))];

/** The parts of a label: item, lot, expiry, units; `unread` is the rest that is none, `off` are the elements that lotd does not read,
 *  `doubt` says why the label is not taken, and `isBestBefore` whether its expiry is a best-before day. */
export function parts(text) {
  const { found, unread } = elements(text), [item, lot, use, best, within, units] = ["01", "10", "17", "15", "02", "37"].map(ai => one(found, ai));
  const isBestBefore = !use.length && best.length === 1 && takesBestBefore(), day = isBestBefore ? best[0] : use[0], items = [...new Set([...item, ...within])];
  const doubt = items.length > 1 ? say`The label names two items` : within.length && !units.length ? say`The label does not say how many are within`
    : lot.length > 1 || use.length > 1 || units.length > 1 ? say`The label says one thing twice` : "";
  const isMine = ({ ai, data }) => ai === "01" || ai === "10" || ai === "17" || (ai === "02" && data === items[0]) || (isBestBefore && ai === "15");
  return { ...doubt ? {} : { gtin: items[0] }, lot: lot[0], expiry: day && expiry(day), day, best: best[0] && expiry(best[0]), isBestBefore, unread, doubt,
    units: within.length && !doubt ? Number(units[0]) : undefined, off: found.filter(it => !isMine(it)), weight: found.some(({ ai }) => isWeight(ai)) };
}

/** The text that is sent: as it was scanned where nothing is taken off, else the item, the expiry and the lot. */
export function sendable(text) {
  const { gtin, day, lot, off, unread, doubt, isBestBefore } = parts(text), isPlain = !off.length && !isBestBefore && !/^\]e0/.test(text) && !elements(text).found.some(({ ai }) => ai === "02");
  return isPlain || unread || doubt ? text : [gtin && "01" + gtin, day && "17" + day, lot && "10" + lot].filter(Boolean).join("");
}

/** The day of YYMMDD by the clock of this device; day 00 is the last of its month. */
function expiry(six) {
  const [year, month, day] = [0, 2, 4].map(at => Number(six.slice(at, at + 2))), now = new Date().getFullYear();
  const apart = year - now % 100, full = now - now % 100 + year + (apart > 50 ? -100 : apart < -49 ? 100 : 0);
  return `${full}-${six.slice(2, 4)}-${String(day || new Date(full, month, 0).getDate()).padStart(2, "0")}`;
}

/** Fourteen digits of a GTIN-8, -12, -13 or -14 whose check digit fits, or nothing. */
export function gtin(text) {
  if (!/^(\d{8}|\d{12,14})$/.test(text)) return undefined;
  const digits = text.padStart(14, "0"), sum = [...digits].reduce((sum, digit, at) => sum + digit * (at % 2 ? 1 : 3), 0);
  return sum % 10 === 0 && digits[0] !== "9" ? digits : undefined;
}
