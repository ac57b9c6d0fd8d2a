-- title: Slow lots
-- Lots in the house of which nothing was shipped for 30 days, or ever, and that came 30 days ago or more; with their age and the days that they have left.
-- bar: units
WITH n AS (SELECT day FROM meta),
h AS (
  SELECT p.gtin, p.lot, in_bins + staged AS units, (SELECT min(day) FROM card c WHERE c.gtin = p.gtin AND c.lot = p.lot) AS since,
         (SELECT max(day) FROM shipped s WHERE s.gtin = p.gtin AND s.lot = p.lot) AS gone FROM present p)
SELECT h.gtin, i.name AS item, h.lot, h.units, date(t.expiry + 2440587.5) AS expiry, t.expiry - n.day AS days_left, n.day - since AS age, n.day - gone AS days_since_shipped,
       CASE WHEN EXISTS (SELECT 1 FROM recalls r WHERE r.gtin = h.gtin AND r.lot = h.lot) THEN 'RECALLED'
            WHEN t.held THEN 'HELD' WHEN t.expiry < n.day THEN 'EXPIRED' ELSE '' END AS status
FROM h JOIN items i USING (gtin) JOIN lots t ON t.gtin = h.gtin AND t.lot = h.lot, n
WHERE coalesce(gone, since) <= n.day - 30 ORDER BY days_left, h.units DESC, h.gtin, h.lot;
