// A list as a file for a spreadsheet, as RFC 4180 has it.

/** A field that a spreadsheet would take for a formula has ' before it; one with a mark is quoted. */
export function field(value) {
  const text = String(value ?? ""), safe = /^[=+\-@\t\r]/.test(text) && !/^-?\d+$/.test(text) ? `'${text}` : text;
  return /[",\r\n]/.test(safe) ? `"${safe.replaceAll('"', '""')}"` : safe;
}
export const csv = (head, rows) => [head, ...rows].map(row => row.map(field).join(",") + "\r\n").join("");

/** The rows of a file: fields apart by commas or semicolons, each as it is or in quotes; an empty line is none. */
export function rowsOf(text) {
  const rows = [[]], mark = /^[^"\r\n]*;/.test(text) && !/^[^"\r\n;]*,/.test(text) ? ";" : ",";
  const token = new RegExp(`(?:"((?:[^"]|"")*)"|([^"${mark}\\r\\n]*))(${mark}|\\r\\n|\\n|\\r|$)`, "y");
  for (let found; token.lastIndex < text.length && (found = token.exec(text)); ) {
    rows.at(-1).push((found[1] ?? "").replaceAll('""', '"') || (found[2] ?? "").trim());
    if (found[3] !== mark) rows.push([]);
  }
  return token.lastIndex < text.length && !token.lastIndex ? null : rows.filter(row => row.length > 1 || row[0]);
}

/** Hands a list out as a file of this name. */
export function download(name, head, rows) {
  const link = document.createElement("a");
  link.href = URL.createObjectURL(new Blob([csv(head, rows)], { type: "text/csv" }));
  link.download = `${name}.csv`;
  link.click();
  setTimeout(() => URL.revokeObjectURL(link.href), 60000);
}
