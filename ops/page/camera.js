// The camera as a scanner, where the browser has BarcodeDetector and this device is set so.
import { button, tag } from "./dom.js";
import { setting } from "./kept.js";
import { say } from "./say.js";
import { refuse } from "./told.js";

const FORMATS = ["code_128", "code_39", "data_matrix", "qr_code", "ean_13", "ean_8", "upc_a", "upc_e", "itf"], EACH = 150;   // ms between two looks
export const isThere = () => "BarcodeDetector" in window && Boolean(navigator.mediaDevices?.getUserMedia);
export const isOn = () => isThere() && setting("camera") === "on";

/** Shows what the camera sees until it reads a symbol, and gives its text. */
export async function look(give) {
  let stream;
  try { stream = await navigator.mediaDevices.getUserMedia({ video: { facingMode: "environment" } }); }
  catch { return refuse(say`The camera does not open`, say`Allow it for this page in the browser's settings`); }
  const detector = new BarcodeDetector({ formats: FORMATS }), video = tag("video", { autoplay: true, playsinline: true, muted: true });
  const end = () => { stream.getTracks().forEach(track => track.stop()); box.remove(); };
  const box = tag("dialog", { class: "camera", "aria-label": say`Camera`, onclose: end }, video, button(say`Back`, () => box.close()));
  video.srcObject = stream;
  document.body.append(box);
  box.showModal();
  while (box.open) {
    const [found] = await detector.detect(video).catch(() => []);
    if (found?.rawValue && box.open) { box.close(); end(); return give(found.rawValue); }
    await new Promise(resolve => setTimeout(resolve, EACH));
  }
}
