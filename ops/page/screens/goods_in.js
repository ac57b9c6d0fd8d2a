// Goods in: a receipt by scan, what came of a delivery, and a file.
import { button, tag } from "../dom.js";
import { outbox, send } from "../outbox.js";
import { form } from "../form.js";
import { Refused, stock } from "../ask.js";
import { known, learn, lotWords } from "../names.js";
import { binBars, chip, expiryBar, statusWords, sum } from "../draw.js";
import { counted, grouped, say } from "../say.js";
import { download } from "../csv.js";
import { set, setting } from "../kept.js";
import { refuse, warn } from "../told.js";
import { gtin as isGtin, sendable, words as elementWords } from "../label.js";
import { refusal } from "../words.js";

/** What lotd will say of a label, as far as it is seen here: so a bad one is put away before the bin is scanned. */
function slipOf({ gtin, lot, expiry, unread, doubt, best }) {
  if (doubt) return { code: "", words: doubt, more: say`Scan the symbol of one item` };
  const cut = /^(01|17)/.test(unread) ? (unread.length < (unread.startsWith("01") ? 16 : 8) ? "L03" : "L04") : /^10/.test(unread) ? "L08" : "L02";
  const code = unread ? cut : !gtin || !lot || !expiry ? "L12" : gtin[0] === "9" ? "L06" : isGtin(gtin) ? "" : "L05";
  if (code === "L12" && gtin && lot && best) return { code, words: say`Best before: this house takes use by (17)`, more: say`Ask the office whether best before may stand for it` };
  const { what, then } = refusal({ cause: code });
  return code && { code, words: `${what}. ${then}`, more: say`What the label says` };
}

const LINES = 500, DELIVERIES = 10;             // that the device remembers
const cameOf = delivery => JSON.parse(setting("came", "[]")).find(([name]) => name === delivery)?.[1] ?? [];
let showCame = () => {};                        // on the screen that is shown
/** What was received here is remembered by its delivery. */
outbox.addEventListener("final", ({ detail: { state, path, body, line } }) => {
  if (state !== "done" || path !== "/receipts" || !line) return;
  const { delivery, line: number, bin, qty } = JSON.parse(body), others = JSON.parse(setting("came", "[]")).filter(([name]) => name !== delivery);
  const lines = cameOf(delivery).filter(it => it.line !== number);
  set("came", JSON.stringify([...others.slice(1 - DELIVERIES), [delivery, [...lines, { line: number, gtin: line.gtin, lot: line.lot, bin, qty }].slice(-LINES)]]));
  showCame();
});

/** The delivery as it came: each line that this device received, and the units of each item. */
function delivered(delivery) {
  const lines = cameOf(delivery).sort((a, b) => a.line - b.line);
  if (!lines.length) return [];
  const row = it => tag("li", {}, tag("span", {}, String(it.line)), tag("span", {}, known(it.gtin) || it.gtin, " ", tag("code", {}, it.lot), " ", tag("span", { class: "lotted" }, it.bin)), tag("b", {}, grouped(it.qty)));
  const save = button(say`As a file (CSV)`, () => download(`delivery-${delivery}`, ["delivery", "line", "gtin", "name", "lot", "bin", "units"],
    lines.map(it => [delivery, it.line, it.gtin, known(it.gtin), it.lot, it.bin, it.qty])), { class: "desk" });
  return [tag("h2", {}, say`${delivery} as it came here: ${counted(lines.length, "line")}, ${counted(sum(lines), "unit")}`),
    tag("ul", { class: "plain" }, lines.map(row)), tag("div", { class: "pair" }, button(say`Print`, () => print(), { class: "desk" }), save)];
}

export function goodsIn() {
  let scanned = null, last = null;             // { text, shown, found }; that of what was sent last
  const about = tag("section", { class: "about" }), came = tag("section", { class: "about came" }), delivery = setting("delivery");
  const lineOf = delivery => Number(setting("line/" + delivery, "0")) + 1;
  const it = form({
    names: ["delivery", "line", "label", "bin", "qty"], button: say`Receive`,
    preset: delivery ? { delivery, line: String(lineOf(delivery)) } : {},
    label(text, found) {
      const slip = slipOf(found);
      scanned = { text, found, shown: [found.lot, found.expiry].filter(Boolean).join("  ") || text };
      it.set({ label: scanned.shown, ...found.units ? { qty: String(found.units) } : {} });
      tell(found);
      if (slip && (found.doubt || slip.code === "L12")) { it.rows.label.field.focus(); it.rows.label.field.select(); } else it.next();
    },
    async done({ delivery, line, label, bin, qty }) {
      const isScan = scanned?.shown === label, { gtin, lot, doubt } = isScan ? scanned.found : {}, name = `${delivery}/${line}`;
      if (doubt) return refuse(doubt, say`Scan the symbol of one item`);
      const body = JSON.stringify({ delivery, line, label: isScan ? sendable(scanned.text) : label, bin, qty });
      const what = lot ? lotWords(lot, gtin) : say`the label`;
      const id = await send("/receipts", body, say`Received ${grouped(qty)} of ${what} in ${bin} (${name})`, gtin && lot && { gtin, lot, line: name });
      set("delivery", delivery);
      set("line/" + delivery, String(Math.max(line, lineOf(delivery) - 1)));
      [last, scanned] = [isScan ? scanned : null, null];
      about.replaceChildren();
      it.set({ line: String(line + 1) });
      it.clear("label", "bin", "qty");
      return id;
    },
    back({ delivery, line }) {
      if (setting("line/" + delivery) === line) set("line/" + delivery, String(line - 1));
      scanned = last;
      if (scanned) tell(scanned.found, true);
    },
  });
  showCame = () => came.replaceChildren(...delivered(it.rows.delivery.field.value));
  it.rows.delivery.field.addEventListener("change", () => { it.set({ line: String(lineOf(it.rows.delivery.field.value)) }); showCame(); });

  /** What the label says, and what the house has of the item. */
  async function tell(found, isAgain) {
    const { gtin, lot, expiry, unread, off, weight, isBestBefore } = found, slip = slipOf(found);
    if (slip && !isAgain) refuse(slip.words, slip.more, slip.code);
    else if (weight && !isAgain) warn(say`The label has a weight: count the units`, off.map(elementWords).join(", "));
    const title = tag("h2", {}, "…"), mine = scanned;
    about.replaceChildren(title, ...[lot && tag("p", {}, say`Lot`, " ", tag("code", {}, lot)), expiry && expiryBar(expiry), isBestBefore && tag("p", {}, tag("b", {}, say`best before`)),
      off.length > 0 && tag("p", { class: "off" }, say`Not sent:`, " ", off.map(elementWords).join(", ")), unread && tag("p", {}, say`Not read:`, " ", tag("code", {}, unread))].filter(Boolean));
    if (!gtin) { title.textContent = slip.words; return; }
    try {
      const { name, lots } = await stock(gtin), mineIs = lots.find(each => each.lot === lot), bins = lots.flatMap(each => each.bins);
      if (mine !== scanned) return;
      learn([{ gtin, name }]);
      const status = statusWords(mineIs?.status ?? "NEW");
      it.rows.label.say([name, isBestBefore && say`best before`, status].filter(Boolean).join(", "));
      title.replaceChildren(name, chip(mineIs?.status ?? "NEW"));
      if (mineIs && expiry && mineIs.expiry !== expiry) refuse(say`This lot came with the expiry ${mineIs.expiry} before`);
      if (bins.length) about.append(tag("h3", {}, say`Lies in`), binBars(bins.slice(0, 6)));
    } catch (fault) {
      if (mine !== scanned) return;
      title.textContent = slip ? slip.words : fault.message;
      if (fault instanceof Refused && !slip && !isAgain) refuse(fault.message, say`What the label says`, fault.code);
    }
  }
  showCame();
  return { title: say`Receive`, form: it, node: tag("div", { class: "two" }, it.node, tag("div", {}, about, came)) };
}

export function file() {
  const field = tag("input", { type: "file", id: "file", accept: ".csv,text/csv,text/plain", "aria-describedby": "rule" });
  const rule = say`delivery,line,gtin,lot,expiry,bin,qty: all rows are taken in or none; a row that came before acts once`;
  const node = tag("form", {
    async onsubmit(event) {
      event.preventDefault();
      const [one] = field.files;
      if (!one) return refuse(say`Choose a file`);
      if (one.size > 262144) return refuse(say`The file is too large`, say`262,144 bytes and 1,000 rows at most`);
      await send("/goodsin", await one.arrayBuffer(), say`File ${one.name}`);
      node.reset();
    },
  }, tag("div", { class: "row said" }, tag("label", { for: "file" }, say`File`), field, tag("small", { id: "rule" }, rule)),
  tag("button", { class: "go" }, say`Send the file`));
  return { title: say`Goods-in file`, node };
}
