-- bin BIN: each act of the period that names a bin. What a hold, a recall, a day or least days sent back to RETURNS is not told bin by bin
SELECT act, date(a.day + 2440587.5) AS day, who, word, replace(substr(f, 3, length(f) - 4), '","', ' ') AS command, reply
FROM act a, asked, words
WHERE a.day BETWEEN first AND last
  AND (word IN ('BIN') AND a.a = w1 OR word IN ('COUNT', 'ADJUST') AND c = w1 OR word IN ('RECEIVE', 'PICK', 'UNPICK') AND d = w1 OR word = 'MOVE' AND w1 IN (c, d)) ORDER BY act;
