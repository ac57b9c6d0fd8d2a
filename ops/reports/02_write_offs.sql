-- title: Write-offs
-- Each write-on and write-off of the period, with who did it and why.
SELECT act, date(w.day + 2440587.5) AS day, who, word, gtin, name AS item, lot, date(expiry + 2440587.5) AS expiry, bin, qty AS units, cause
FROM written w JOIN items USING (gtin), asked WHERE w.day BETWEEN first AND last ORDER BY act;
