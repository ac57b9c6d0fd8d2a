-- delivery DELIVERY: one step forward: where the lots of a delivery went. Of a lot that came with other deliveries too, the books do not tell which units went where
WITH r AS (SELECT gtin, lot, came AS rank, sum(qty) AS came FROM trace, words WHERE what = 'IN' AND delivery = w1 GROUP BY gtin, lot)
SELECT r.gtin, i.name AS item, r.lot, r.came, (SELECT count(DISTINCT delivery) - 1 FROM trace t WHERE t.gtin = r.gtin AND t.lot = r.lot AND what = 'IN') AS other_deliveries,
  coalesce((SELECT in_bins + staged FROM present p WHERE p.gtin = r.gtin AND p.lot = r.lot), 0) AS in_house,
  s.number AS shipment, date(s.day + 2440587.5) AS day, s.ord AS "order", s.customer, s.qty AS units
FROM r JOIN items i USING (gtin) LEFT JOIN shipped s ON s.gtin = r.gtin AND s.lot = r.lot ORDER BY r.gtin, r.rank, s.number;
