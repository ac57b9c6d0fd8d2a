// Code 39 symbols of orders and bins, for print and for a screen: their names have no other characters.
import { svg, tag } from "./dom.js";
import { say } from "./say.js";

const LETTERS = "0123456789ABCDEFGHIJKLMNOPQRSTUVWXYZ-*";
const CODE = ("000110100 100100001 001100001 101100000 000110001 100110000 001110000 000100101 100100100 001100100 "
  + "100001001 001001001 101001000 000011001 100011000 001011000 000001101 100001100 001001100 000011100 "
  + "100000011 001000011 101000010 000010011 100010010 001010010 000000111 100000110 001000110 000010110 "
  + "110000001 011000001 111000000 010010001 110010000 011010000 010000101 010010100").split(" ");
const QUIET = 10;                              // narrow bars of white at each end
const RATIOS = [[1, 3], [2, 6], [2, 5], [1, 2], [3, 9], [3, 8], [3, 7], [3, 6], [2, 4], [4, 12], [4, 10], [4, 8]];    // pixels of a narrow and of a wide bar

const widthOf = (count, [narrow, wide]) => count * (7 * narrow + 3 * wide) - narrow + 2 * QUIET * narrow;

/** The bars that are whole pixels on a screen of this many: the widest narrow one that fits, and then the widest wide one. */
export function barsFor(count, pixels) {
  const fit = RATIOS.filter(it => widthOf(count, it) <= pixels);
  return fit.sort(([a, b], [c, d]) => c - a || d - b)[0] ?? [1, 2];
}

/** The symbol of a name; `room` is the widest that it may be on the screen, in points. */
export function symbol(text, room = 396) {
  const letters = `*${text}*`, pixel = devicePixelRatio || 1, [narrow, wide] = barsFor(letters.length, Math.floor(Math.min(room, innerWidth - 40) * pixel));
  const bars = [];
  let at = QUIET * narrow;
  for (const letter of letters) {
    for (const [which, isWide] of [...CODE[LETTERS.indexOf(letter)]].entries()) {
      const width = isWide === "1" ? wide : narrow;
      if (which % 2 === 0) bars.push(svg("rect", { x: at, width, height: 40 }));
      at += width;
    }
    at += narrow;
  }
  const whole = at - narrow + QUIET * narrow;
  const shape = { viewBox: `0 0 ${whole} 40`, preserveAspectRatio: "none", "shape-rendering": "crispEdges", role: "img", "aria-label": say`barcode of ${text}` };
  const drawn = svg("svg", shape, bars);
  drawn.style.width = `${whole / pixel}px`;
  const figure = tag("figure", { class: "symbol" }, drawn, tag("figcaption", {}, text));
  new ResizeObserver(() => settle(drawn, pixel)).observe(figure);
  return figure;
}

/** Has the symbol begin at a whole pixel, wherever it stands. */
function settle(drawn, pixel) {
  drawn.style.marginLeft = "0";
  const left = drawn.getBoundingClientRect().left * pixel;
  drawn.style.marginLeft = `${(Math.ceil(left - 0.01) - left) / pixel}px`;
}
