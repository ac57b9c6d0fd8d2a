// What has just come of a thing: a strip in colour, a sound, a shake. The strip lies over the title, in a room that is always
// there, so nothing moves when it comes. What is too long for the room lies over what is below, until a touch or a key.
import { tag, whole } from "./dom.js";

const place = document.getElementById("told");
let sound = null, since = 0;
/** Tones, each of [pitch, from, length], and a shake; a browser allows neither before the first touch or key. */
function signal(tones, shake) {
  if (navigator.userActivation && !navigator.userActivation.hasBeenActive) return;
  navigator.vibrate?.(shake);
  try {
    sound ??= new AudioContext();
    for (const [pitch, from, length] of tones) {
      const tone = sound.createOscillator(), gain = sound.createGain();
      tone.frequency.value = pitch;
      gain.gain.value = 0.2;
      tone.connect(gain).connect(sound.destination);
      tone.start(sound.currentTime + from);
      tone.stop(sound.currentTime + from + length);
    }
  } catch { /* no sound */ }
}

function tell(kind, ...words) {
  const next = tag("div", { class: kind }, words), last = place.firstChild;
  since = Date.now();
  if (last?.className === kind && last.textContent === next.textContent && kind === "wait") return;      // told again at each try
  place.classList.remove("short");
  place.replaceChildren(next);
}

export function done(words, more) {
  tell("done", tag("b", {}, whole("✓ " + words)), more && tag("span", {}, whole(more)));
  signal([[1200, 0, 0.12]], 60);
}

/** Refused, by the page or by lotd: stays until the next thing is done. */
export function refuse(words, more, code) {
  tell("refused", tag("b", {}, whole("✕ " + words)), more && tag("span", {}, whole(more)), code && tag("code", {}, code));
  signal([[300, 0, 0.2], [200, 0.25, 0.35]], [150, 80, 150]);
}

/** What a person should know, and is no fault: amber, with a tone of its own. */
export function warn(words, more) {
  tell("wait", tag("b", {}, whole("! " + words)), more && tag("span", {}, whole(more)));
  signal([[600, 0, 0.15], [600, 0.25, 0.15]], [80, 60, 80]);
}

export const wait = (words, more) => tell("wait", tag("b", {}, whole(words)), more && tag("span", {}, whole(more)));
/** Another screen, or a label: what was told is over, unless it came just now. */
export const clear = () => Date.now() - since > 1500 && place.replaceChildren();

/** A touch elsewhere or a key makes the strip as small as its room; a touch on it shows it whole, or small again. */
export function begin() {
  addEventListener("pointerdown", ({ target }) => place.classList.toggle("short", !place.contains(target) || !place.classList.contains("short")), true);
  addEventListener("beforeinput", () => place.classList.add("short"), true);
}
