// Elements made of text alone. Nothing here reads HTML, so a name or a lot is shown as it is written.
import { say } from "./say.js";

function filled(it, attributes, children) {
  for (const [name, value] of Object.entries(attributes)) {
    if (name.startsWith("on")) it.addEventListener(name.slice(2), value);
    else if (value === true) it.setAttribute(name, "");
    else if (value !== false && value != null) it.setAttribute(name, value);
  }
  it.append(...children.flat(9).filter(child => child != null && child !== false));
  return it;
}

export const tag = (name, attributes = {}, ...children) => filled(document.createElement(name), attributes, children);
export const svg = (name, attributes = {}, ...children) =>
  filled(document.createElementNS("http://www.w3.org/2000/svg", name), attributes, children);

/** Words of which no name is broken at its hyphen: `from A-01` has A-01 on one line. */
export const whole = words => words.split(/(?<= )/).map(it => (it.includes("-") && it.length < 22 ? tag("bdi", {}, it.trimEnd()) : it)).flatMap(it => (it instanceof Node ? [it, " "] : it));

/** A button that does something and sends no form. */
export const button = (words, onclick, attributes = {}) => tag("button", { type: "button", ...attributes, onclick }, words);

/** Asks before something that cannot be taken back; `facts` stand below the question. Gives whether it is meant. */
export function isMeant(question, yes, ...facts) {
  return new Promise(resolve => {
    const box = tag("dialog", { onclose: () => { box.remove(); resolve(box.returnValue === "yes"); } }, tag("p", {}, question), facts,
      tag("div", { class: "pair" }, button(say`Back`, () => box.close("no")), button(yes, () => box.close("yes"), { class: "danger" })));
    document.body.append(box);
    box.showModal();
  });
}
