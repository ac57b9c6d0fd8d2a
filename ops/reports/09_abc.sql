-- title: ABC
-- Items by the units that were shipped: A the first 80 percent of all, B up to 95, C the rest, - none.
-- bar: units
WITH s AS (
  SELECT i.gtin, i.name, coalesce(sum(x.qty), 0) AS units, count(DISTINCT x.number) AS shipments
  FROM items i, asked LEFT JOIN shipped x ON x.gtin = i.gtin AND x.day BETWEEN first AND last GROUP BY i.gtin),
c AS (SELECT *, sum(units) OVER (ORDER BY units DESC, gtin) - units AS before, sum(units) OVER () AS total FROM s)
SELECT CASE WHEN units = 0 THEN '-' WHEN before < 0.8 * total THEN 'A' WHEN before < 0.95 * total THEN 'B' ELSE 'C' END AS class,
       gtin, name AS item, units, shipments, round(100.0 * (before + units) / nullif(total, 0), 1) AS cumulated_percent
FROM c ORDER BY units DESC, gtin;
