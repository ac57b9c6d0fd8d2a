-- house [DAY]: what was in the house at the end of a day, lot by lot, in bins and on stages
SELECT c.gtin, i.name AS item, c.lot, date(t.expiry + 2440587.5) AS expiry, sum(c.qty) AS units
FROM card c JOIN items i USING (gtin) JOIN lots t ON t.gtin = c.gtin AND t.lot = c.lot, words
WHERE w1 = '' OR c.day <= julianday(w1) - 2440587.5 GROUP BY c.gtin, c.lot HAVING sum(c.qty) > 0 ORDER BY c.gtin, t.expiry, t.came;
