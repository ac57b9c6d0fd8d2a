-- title: What was in the house
-- What was in the house at the end of the last day of the period, lot by lot: in bins and on stages.
SELECT c.gtin, i.name AS item, c.lot, date(t.expiry + 2440587.5) AS expiry, sum(c.qty) AS units
FROM card c JOIN items i USING (gtin) JOIN lots t ON t.gtin = c.gtin AND t.lot = c.lot, asked
WHERE c.day <= asked.last GROUP BY c.gtin, c.lot HAVING sum(c.qty) > 0 ORDER BY c.gtin, t.expiry, t.came;
