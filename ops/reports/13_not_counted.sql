-- title: Not counted
-- Lots in bins by the day of their last count there, those that were never counted first.
SELECT s.bin, s.gtin, name AS item, s.lot, s.qty AS units,
       (SELECT date(max(day) + 2440587.5) FROM act WHERE word = 'COUNT' AND a = s.gtin AND b = s.lot AND c = s.bin) AS last_count
FROM stock s JOIN items USING (gtin) ORDER BY last_count IS NOT NULL, last_count, s.bin, s.gtin, s.lot;
