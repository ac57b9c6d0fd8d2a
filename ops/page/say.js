// The words of the page, in the language of this device. English is the key: say`Moved ${qty} to ${bin}` is looked up as
// "Moved {0} to {1}" in words/LANG.js, and stays English where that has none. A name, a lot or a number is a value, never a key.
import { setting } from "./kept.js";

/** What the page speaks, each by its own name. */
export const LANGUAGES = { en: "English", de: "Deutsch" };
const asked = setting("language") || navigator.language.slice(0, 2);
export const language = Object.hasOwn(LANGUAGES, asked) ? asked : "en";
const words = language === "en" ? {} : (await import(`./words/${language}.js`)).default;
document.documentElement.lang = language;

const plural = new Intl.PluralRules(language);
/** A language with more forms than two has an object by the categories of `Intl.PluralRules` there, for the first number. */
const formOf = (found, first) => (typeof found === "string" ? found : found[plural.select(Number(String(first).replace(/\D/g, "")))] ?? found.other);

export function say(parts, ...values) {
  const key = parts.reduce((text, part, at) => `${text}{${at - 1}}${part}`);
  return formOf(words[key] ?? key, values[0]).replace(/\{(\d)\}/g, (_, at) => values[at]);
}

/** A number as it is read: 1,000,000. */
export const grouped = number => Number(number).toLocaleString(language);
/** What stands between the digits of such a number. */
export const separator = (1000).toLocaleString(language).replace(/\d/g, "");

const THINGS = {
  unit: [n => say`${n} unit`, n => say`${n} units`], lot: [n => say`${n} lot`, n => say`${n} lots`], order: [n => say`${n} open order`, n => say`${n} open orders`],
  day: [n => say`${n} day left`, n => say`${n} days left`], gone: [n => say`${n} day over`, n => say`${n} days over`],
  line: [n => say`${n} line`, n => say`${n} lines`], bin: [n => say`${n} bin`, n => say`${n} bins`], customer: [n => say`${n} customer`, n => say`${n} customers`],
};
/** A number of things: 1 lot, 1,000 lots. `some` stands behind the number: 100+ lots. */
export const counted = (number, thing, some = "") => THINGS[thing][number === 1 && !some ? 0 : 1](grouped(number) + some);

/** A day in words: Tuesday, 1 December 2026. */
export const dayInWords = day =>
  new Intl.DateTimeFormat(language === "en" ? "en-GB" : language, { weekday: "long", day: "numeric", month: "long", year: "numeric", timeZone: "UTC" }).format(new Date(day + "T00:00:00Z"));
