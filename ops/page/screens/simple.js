// The screens that are one form: what to look at, and the acts that need no picture.
import { isMeant, tag } from "../dom.js";
import { act } from "../outbox.js";
import { form } from "../form.js";
import { orNone, stock } from "../ask.js";
import { forgetItems, learn, lotWords } from "../names.js";
import { refuse } from "../told.js";
import { binBars, chip, expiryBar, sum } from "../draw.js";
import { dayInWords, grouped, say } from "../say.js";
import { daysTo, today, told } from "../day.js";
import { NEITHER, open } from "./home.js";
import { add } from "./bin.js";

/** Asks which order, item or lot is to be looked at. */
export function find(screen, what, title) {
  const names = what === "lot" ? ["gtin", "lot"] : [what];
  const it = form({
    names, button: say`Show`, done: values => open(screen, ...names.map(name => values[name])),
    label: what !== "order" && ((text, found) => (names.every(name => found[name]) ? open(screen, ...names.map(name => found[name])) : refuse(found.doubt || NEITHER))),
  });
  return { title, node: it.node };
}

/** What is said of a day that is not the next one: lots expire by it. */
function ahead(day) {
  const days = daysTo(day);
  return day > today() ? say`This is AFTER today, and ${grouped(days)} days after the business day: each lot that ends before expires now. ` : days < 1 ? say`The business day is ${told.day} already. ` : "";
}

const link = (words, href) => () => tag("a", { class: "button", href }, words);
const ACTS = {
  __proto__: null,
  moves: { title: say`Move`, names: ["gtin", "lot", "from", "to", "qty"], places: true,
    words: it => say`Moved ${grouped(it.qty)} of ${lotWords(it.lot, it.gtin)} from ${it.from} to ${it.to}` },
  counts: { title: say`Count`, names: ["gtin", "lot", "bin", "found"], places: true, more: link(say`Count sheets`, "#/sheets"),
    words: it => say`Counted ${grouped(it.found)} of ${lotWords(it.lot, it.gtin)} in ${it.bin}`, body: ({ found, ...rest }) => ({ ...rest, qty: found }) },
  adjustments: { title: say`Write on or off`, names: ["gtin", "lot", "bin", "change"], places: true,
    words: it => (it.change < 0 ? say`Wrote off ${grouped(-it.change)} of ${lotWords(it.lot, it.gtin)} in ${it.bin}` : say`Wrote on ${grouped(it.change)} of ${lotWords(it.lot, it.gtin)} in ${it.bin}`) },
  items: { title: say`Make an item`, isNew: true, names: ["gtin", "name"], words: it => say`Item ${it.gtin} ${it.name}`, after: forgetItems, more: link(say`Items by a file`, "#/by file/items"),
    question: it => say`An item can be neither renamed nor removed. Make ${it.gtin} "${it.name}"?` },
  bins: { title: say`Make a bin`, names: ["bin", "kind"], words: it => say`Bin ${it.bin} (${it.kind})`, after: it => add([it.bin]),
    more: () => [link(say`Labels of bins`, "#/labels")(), link(say`Bins by a file`, "#/by file/bins")()] },
  days: { title: say`Open the day`, names: ["day"], preset: () => ({ day: today() }),
    words: it => say`Opened ${it.day}`, question: it => say`${ahead(it.day)}Open ${it.day}, ${dayInWords(it.day)}? A day cannot go back.` },
};

/** Where an item lies, or one lot of it, beside the form: shown where there is room for it, below. */
function lying() {
  const about = tag("section", { class: "about" });
  let last = "";
  async function knows({ gtin, lot }) {
    const asked = `${gtin} ${lot}`;
    if (asked === last) return;
    last = asked;
    const all = gtin && await orNone(stock(gtin)).catch(() => null);
    if (asked !== last) return;
    if (!all) return about.replaceChildren();
    learn([{ gtin, name: all.name }]);
    const mine = all.lots.find(it => it.lot === lot), lots = mine ? [mine] : all.lots.filter(it => it.bins.length);
    const places = lots.flatMap(it => it.bins), bins = [...new Set(places.map(it => it.bin))].map(bin => ({ bin, qty: sum(places.filter(it => it.bin === bin)) }));
    about.replaceChildren(tag("h2", {}, all.name, mine ? chip(mine.status) : ""), ...mine ? [tag("p", {}, say`Lot`, " ", tag("code", {}, lot)), expiryBar(mine.expiry, mine.status)] : [],
      ...bins.length ? [tag("h3", {}, say`Lies in`), binBars(bins.slice(0, 12))] : [tag("p", {}, say`None is in a bin`)]);
  }
  return { about, knows };
}

/** The screen of an act, if there is one of that name; `given` are names and values that are filled in: bin, A-01. */
export function doing(name, given = []) {
  if (!ACTS[name]) return null;
  const { title, names, words, question, body = it => it, preset = () => ({}), after, more, isNew, places } = ACTS[name];
  const filled = Object.fromEntries(names.filter(each => given.includes(each)).map(each => [each, given[given.indexOf(each) + 1] ?? ""]));
  const { about, knows } = lying();
  const it = form({ names, preset: { ...preset(), ...filled }, button: title, isNew, knows: places && knows, async done(values) {
    if (question && !await isMeant(question(values), title)) return;
    const id = await act(name, body(values), words(values));
    after?.(values);
    it.clear(...names.filter(each => each !== "kind" && each !== "day" && !(each in filled)));
    about.replaceChildren();
    return id;
  } });
  const links = more && tag("div", { class: "pair" }, more());
  return { title, form: it, node: tag("div", { class: places ? "two" : "" }, tag("div", {}, it.node, links), places && about) };
}
