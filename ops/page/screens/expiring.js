// What has to leave the house: the lots that expire until a day, those that have expired among them.
import { button, tag } from "../dom.js";
import { expiring, readOn } from "../lists.js";
import { daysTo, dayIn } from "../day.js";
import { binBars, chip, expiryBar, sum, told } from "../draw.js";
import { counted, dayInWords, grouped, say } from "../say.js";
import { growing } from "./open.js";
import { open } from "./home.js";

const lotPath = it => `#/lot/${it.gtin}/${encodeURIComponent(it.lot)}`;
const CHOICES = [[say`Today`, 0], [say`7 days`, 7], [say`30 days`, 30]];
const unitsOf = it => sum(it.bins) + it.staged;

const row = it => tag("li", { class: it.status === "FREE" ? "" : "blocked" },
  tag("h3", {}, tag("a", { href: lotPath(it) }, it.name, " ", tag("code", {}, it.lot)), chip(it.status)),
  expiryBar(it.expiry, it.status), binBars(it.bins),
  tag("p", { class: "legend" }, told([["promised", it.reserved], ["staged", it.staged]])));
/** The lots, below each day the units of it. */
function rows(lots, isCut) {
  const days = [...new Set(lots.map(it => it.expiry))], last = days.at(-1);
  return days.flatMap(day => {
    const these = lots.filter(it => it.expiry === day);
    return [tag("li", { class: "sum" }, tag("span", {}, dayInWords(day)), tag("b", {}, counted(sum(these.map(it => ({ qty: unitsOf(it) }))), "unit", isCut && day === last ? "+" : ""))), ...these.map(row)];
  });
}
const columns = it => [["expiry", it.expiry], ["gtin", it.gtin], ["name", it.name], ["lot", it.lot], ["status", it.status], ["bins", it.bins.map(({ bin, qty }) => `${bin} ${qty}`).join("; ")],
  ["units", unitsOf(it)], ["promised", it.reserved], ["picked", it.staged]];

/** The lots that expire within so many days of the business day, or until a day that is given. */
export function expires(given = "7") {
  const until = () => (/^\d{1,4}$/.test(given) ? dayIn(+given) : given);
  const head = tag("h2", {}), day = tag("input", { type: "date", id: "until", value: /-/.test(given) ? given : "", onchange: it => { if (it.target.value) open("expiring", it.target.value); } });
  const list = growing({ name: "lots", ask: last => expiring(until()).ask(last) }, ({ lots, more }) => {
    const some = more ? "+" : "", units = sum(lots.map(it => ({ qty: unitsOf(it) })));
    head.textContent = lots.length ? say`${counted(lots.length, "lot", some)} with ${counted(units, "unit", some)}, until ${until()}` : say`Nothing in the house expires until ${until()}`;
    return rows(lots, more);
  }, { attributes: { class: "lines flat" }, file: "expiring", columns });
  const tabs = tag("div", { class: "tabs" }, CHOICES.map(([words, days]) =>
    tag("a", { class: "button", href: `#/expiring/${days}`, "aria-current": String(given === String(days)) }, words)),
  button(say`Print`, () => print(), { class: "desk" }), list.save);
  return { title: say`What expires`, follows: true, refresh: list.refresh,
    node: tag("div", {}, tabs, tag("div", { class: "row" }, tag("label", { for: "until" }, say`Until`), day), head, list.node) };
}

/** What expires within seven days, for home: how much, and what is over in red. */
export async function expiringAtHome({ lots: { expired } }) {
  const { lots, more } = await readOn(expiring(dayIn(7))), isGone = it => daysTo(it.expiry) < 0 || it.status === "EXPIRED", some = more ? "+" : "";
  return [tag("h2", {}, tag("a", { href: "#/expiring/7" }, say`Until ${dayIn(7)} expire: ${counted(lots.length, "lot", some)}`),
    expired > 0 && tag("span", { class: "short" }, " ", say`${grouped(expired)} expired`)),
  tag("ul", { class: "plain" }, lots.slice(0, 5).map(it => tag("li", { class: isGone(it) ? "over" : "" }, tag("a", { href: lotPath(it) }, it.lot),
    tag("span", {}, it.name, it.status === "FREE" ? "" : [" ", chip(it.status)]), tag("b", {}, it.expiry, " ", tag("small", {}, counted(unitsOf(it), "unit"))))))];
}
