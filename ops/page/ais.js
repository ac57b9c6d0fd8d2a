// The application identifiers of the GS1 General Specifications, section 3: for each its data field. A field is parts of digits (N) or of
// characters (X), each of a fixed length (`N6`) or of up to one (`X..20`); `?` may be missing. `310-316` stands for all between, and
// `n` for any digit.

const TABLE = `
00 N18; 01 N14; 02 N14; 03 N14; 10 X..20; 11-13 N6; 15-17 N6; 20 N2; 21 X..20; 22 X..20; 235 X..28; 240-241 X..30; 242 N..6; 243 X..20;
250-251 X..30; 253 N13 X..17?; 254 X..20; 255 N13 N..12?; 30 N..8; 310n-316n N6; 320n-329n N6; 330n-337n N6; 340n-349n N6; 350n-357n N6;
360n-369n N6; 37 N..8; 390n N..15; 391n N3 N..15; 392n N..15; 393n N3 N..15; 394n N4; 395n N6;
400-401 X..30; 402 N17; 403 X..30; 410-417 N13; 420 X..20; 421 N3 X..9; 422 N3; 423 N3 N..12?; 424 N3; 425 N3 N..12?; 426 N3; 427 X..3;
4300-4301 X..35; 4302-4306 X..70; 4307 X2; 4308 X..30; 4309 N20; 4310-4311 X..35; 4312-4316 X..70; 4317 X2; 4318 X..20; 4319 X..30; 4320 X..35;
4321-4323 N1; 4324-4325 N10; 4326 N6; 4330-4333 N6 X1?;
7001 N13; 7002 X..30; 7003 N10; 7004 N..4; 7005 X..12; 7006 N6; 7007 N6 N6?; 7008 X..3; 7009 X..10; 7010 X..2; 7011 N6 N4?; 7020-7022 X..20;
7023 X..30; 703n N3 X..27; 7040 N1 X3; 7041 X..4; 710-717 X..20; 723n X2 X..28; 7240 X..20; 7241 N2; 7242 X..25; 7250 N8; 7251 N12; 7252 N1;
7253-7254 X..40; 7255 X..10; 7256 X..90; 7257 X..70; 7258 X3; 7259 X..40;
8001 N14; 8002 X..20; 8003 N14 X..16?; 8004 X..30; 8005 N6; 8006 N18; 8007 X..34; 8008 N8 N..4?; 8009 X..50; 8010 X..30; 8011 N..12; 8012 X..20;
8013 X..25; 8014 X..25; 8017-8018 N18; 8019 N..10; 8020 X..25; 8026 N18; 8030 X..90; 8040-8043 X..90; 8110 X..70; 8111 N4; 8112 X..70; 8200 X..70;
90 X..30; 91-99 X..90`;

/** The figure "Element strings with predefined length": behind these two first digits no separator stands, and the AI and its
 *  data are so long. */
const PREDEFINED = { "00": 20, "01": 16, "02": 16, "03": 16, "04": 18, 11: 8, 12: 8, 13: 8, 14: 8, 15: 8, 16: 8, 17: 8, 18: 8, 19: 8, 20: 4,
  31: 10, 32: 10, 33: 10, 34: 10, 35: 10, 36: 10, 41: 16 };

const SET_82 = "[!\"%-?A-Z_a-z]";
/** The pattern of a data field. */
function patternOf(parts) {
  return new RegExp("^" + parts.map(part => {
    const [, kind, upTo, length, isOption] = /^([NX])(\.\.)?(\d+)(\?)?$/.exec(part), sign = kind === "N" ? "\\d" : SET_82;
    return `(?:${sign}{${upTo ? "1," : ""}${length}})${isOption ? "?" : ""}`;
  }).join("") + "$");
}

const fields = new Map();
for (const entry of TABLE.split(";")) {
  const [span, ...parts] = entry.trim().split(" "), pattern = patternOf(parts);
  const [first, last = first] = span.split("-"), digits = first.replace("n", "");
  for (let at = Number(digits); at <= Number(last.replace("n", "")); at += 1) {
    const ai = String(at).padStart(digits.length, "0");
    for (const digit of first.endsWith("n") ? [..."0123456789"] : [""]) fields.set(ai + digit, pattern);
  }
}

/** The element that a text begins with: its AI, its data, and the text behind it, less a separator; nothing where it begins with none. */
export function elementOf(text, separator) {
  const ai = [2, 3, 4].map(length => text.slice(0, length)).find(it => fields.has(it));
  if (!ai) return null;
  const fixed = PREDEFINED[ai.slice(0, 2)], end = fixed ?? (text + separator).indexOf(separator);
  const data = text.slice(ai.length, end), behind = text.slice(end);
  return fields.get(ai).test(data) ? { ai, data, rest: behind.startsWith(separator) ? behind.slice(1) : behind } : null;
}
