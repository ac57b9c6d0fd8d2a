// The scanner as a keyboard: it types the text of a symbol, quickly, and then Enter. A label that was typed into any field
// is taken out of that field again and told by the event "label".
import { GS, isLabel } from "./label.js";
import { setting } from "./kept.js";

const GAP = 400, STALL = 3000, TWICE = 200;  // ms after which a key begins something new, also behind a `]`, with which a scan alone begins; within which a second Enter is none
let typed = "", before = "", last = 0, slowest = 0, ended = 0, isFast = false, isAtOnce = false;

function key(field, text, now) {
  if (!typed || now - last > (typed.startsWith("]") ? STALL : GAP)) { typed = ""; before = field.value; slowest = 0; } else slowest = Math.max(slowest, now - last);
  last = now;
  typed += text;
}

/** The separator comes as byte 29, as Ctrl and ], as F8, or as the character that is set for this device. */
const isSeparator = event => event.key === GS || event.key === "F8" || (event.ctrlKey && event.key === "]");
const labelIn = text => [setting("separator") ? text.replaceAll(setting("separator"), GS) : text].find(isLabel);

/** Whether what was typed in one go is no mere end of what the field has: it begins as a label does, or stands there alone. */
const isWhole = field => typed.startsWith("]") || field.value.replaceAll(GS, "") === typed.replaceAll(GS, "");

/** Whether what the last Enter ended came faster than fingers are. */
export const wasScanned = () => isFast;
/** Whether its Enter came as fast too: so one or two characters are a scan. */
export const wasAtOnce = () => isAtOnce;

let loose = "", gaps = 0;                       // what is typed while no field is there for it; how many of its keys came slowly
/** A key where no field has the focus: gathered, and told at its Enter where it is a label or came as fast as a scanner types. */
function astray(event, isPlain, take) {
  const now = event.timeStamp;
  if (now - last > (loose.startsWith("]") ? STALL : GAP)) { loose = ""; gaps = 0; } else if (loose && now - last >= 40) gaps += 1;
  last = now;
  if (isPlain || isSeparator(event)) loose += isPlain ? event.key : GS;
  else if (event.key === "Enter" && loose.length > 2) {
    const label = labelIn(loose), text = label ?? loose, isScan = label || gaps <= loose.length / 4;
    loose = "";
    if (!isScan) return;
    event.preventDefault();
    take(text);
  }
}

/** What a camera read, as if it had been typed in the place that is asked for, with its Enter. */
export function give(main, text, take) {
  const place = main.contains(lastField) ? lastField : placeIn(main), label = labelIn(text);
  if (!place) return take(label ?? text);
  if (label) return place.dispatchEvent(new CustomEvent("label", { bubbles: true, detail: label }));
  place.focus();
  place.value = text;
  place.dispatchEvent(new Event("input", { bubbles: true }));
  [isFast, isAtOnce] = [true, true];
  const down = new KeyboardEvent("keydown", { key: "Enter", bubbles: true, cancelable: true });
  isGiven = true;
  if (place.dispatchEvent(down)) place.form?.requestSubmit();
  isGiven = false;
}

const TEXT = "input:not([type=date], [type=checkbox], [type=file]), textarea";
const placeIn = main => main.querySelector("form:not(.aside, [hidden]) input:not([type=file], [type=checkbox])");
let isGiven = false, lastField = null;          // the field that had the focus last

export function begin(main, take) {
  main.addEventListener("focusin", ({ target }) => { if (target.matches(TEXT)) lastField = target; });
  document.addEventListener("beforeinput", event => {
    if (event.target instanceof HTMLInputElement && event.data) key(event.target, event.data, event.timeStamp);
  }, true);
  document.addEventListener("keydown", event => {
    if (isGiven || document.querySelector("dialog[open]")) return;
    const isPlain = event.key.length === 1 && event.key !== " " && !event.ctrlKey && !event.altKey && !event.metaKey;
    if (!document.activeElement.matches(TEXT)) {
      const place = placeIn(main);
      if (!place) return astray(event, isPlain, take);
      if ((isPlain || isSeparator(event)) && !document.activeElement.matches("input, select")) place.focus();
    }
    const field = document.activeElement;
    if (!(field instanceof HTMLInputElement)) return;
    if (isSeparator(event)) {
      event.preventDefault();
      key(field, GS, event.timeStamp);
    } else if (event.key === "Enter") {
      const now = event.timeStamp, isAgain = !typed && now - ended < TWICE;
      const scanned = isWhole(field) ? labelIn(typed) : undefined, label = scanned ?? labelIn(field.value);
      if (isAgain || label) { event.preventDefault(); event.stopPropagation(); }             // CR LF is one end
      isFast = typed.length > 2 && slowest < 40;
      isAtOnce = typed !== "" && slowest < 40 && now - last < 40;
      ended = now;
      typed = "";
      if (isAgain || !label) return;
      field.value = scanned ? before : "";
      field.dispatchEvent(new CustomEvent("label", { bubbles: true, detail: label }));
    }
  }, true);
}
