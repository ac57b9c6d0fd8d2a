// Items and bins by a file: each row is an act of its own, kept and sent in turn.
import { button, isMeant, tag } from "../dom.js";
import { actAll } from "../outbox.js";
import { rowsOf } from "../csv.js";
import { gtin } from "../label.js";
import { forgetItems } from "../names.js";
import { counted, say } from "../say.js";
import { refuse } from "../told.js";

const MOST = 1000;                              // rows of one file
const NAME = /^(?! )[ -~]{1,40}(?<! )$/;
const KINDS = {
  items: { title: say`Items by a file`, head: ["gtin", "name"], value: ([number, name]) => ({ gtin: gtin(number), name: NAME.test(name) ? name : undefined }), words: it => say`Item ${it.gtin} ${it.name}` },
  bins: { title: say`Bins by a file`, head: ["bin", "kind"], value: ([bin, kind]) => ({ bin: /^[A-Z0-9-]{1,20}$/.test(bin) ? bin : undefined, kind: /^(STORE|HOLD)$/.test(kind) ? kind : undefined }),
    words: it => say`Bin ${it.bin} (${it.kind})` },
};

/** The rows of a file as values, or words of its first fault. */
function valuesOf({ head, value }, text) {
  const rows = rowsOf(text.replace(/^\ufeff/, ""));
  if (!rows?.length || rows[0].join().toLowerCase() !== head.join()) return { fault: say`The first line is not: ${head.join()}` };
  const values = rows.slice(1).map(row => (row.length === head.length ? value(row) : {}));
  const wrong = values.findIndex(it => head.some(name => it[name] === undefined)), names = values.map(it => it[head[0]]), twice = names.findIndex((it, at) => names.indexOf(it) !== at);
  if (!values.length || values.length > MOST) return { fault: say`A file has 1 to 1,000 rows` };
  if (wrong >= 0) return { fault: say`Row ${wrong + 1}: ${rows[wrong + 1].join()}` };
  return twice >= 0 ? { fault: say`Row ${twice + 1}: ${names[twice]} stands twice` } : { values };
}

export function byFile(what) {
  const kind = Object.hasOwn(KINDS, what) ? KINDS[what] : KINDS.items, route = kind === KINDS.bins ? "bins" : "items";
  const field = tag("input", { type: "file", id: "file", accept: ".csv,text/csv,text/plain", "aria-describedby": "rule" });
  const node = tag("form", {
    async onsubmit(event) {
      event.preventDefault();
      const [one] = field.files;
      if (!one) return refuse(say`Choose a file`);
      const { values, fault } = valuesOf(kind, await one.text());
      if (fault) return refuse(fault, say`Nothing is made. Mend the file`);
      if (!await isMeant(say`Make ${counted(values.length, "line")} of ${one.name}? None of them can be renamed or removed.`, say`Make them`)) return;
      await actAll(values.map(it => [route, it, kind.words(it)]));
      forgetItems();
      node.reset();
    },
  }, tag("div", { class: "row said" }, tag("label", { for: "file" }, say`File`), field,
    tag("small", { id: "rule" }, say`The first line is ${kind.head.join()}. Each row below makes one; what is there already is refused, and the others are made.`)),
  tag("button", { class: "go" }, say`Make them`));
  return { title: kind.title, node };
}
