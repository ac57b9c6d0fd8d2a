-- title: What may be promised
-- Units of each item that may be promised today, in 7, in 14 and in 30 days, if nothing else comes or goes: what may still be shipped then, less what orders still need.
-- bar: free_today
WITH n AS (SELECT day FROM meta),
q AS MATERIALIZED (SELECT gtin, sum(ordered - shipped) AS wanted FROM lines JOIN orders USING (ord) WHERE state = 'OPEN' GROUP BY gtin),
g AS MATERIALIZED (SELECT gtin, sum(qty) AS staged FROM staged GROUP BY gtin),
f AS MATERIALIZED (
  SELECT gtin, sum(CASE WHEN until >= day THEN units END) AS d0, sum(CASE WHEN until >= day + 7 THEN units END) AS d7,
         sum(CASE WHEN until >= day + 14 THEN units END) AS d14, sum(CASE WHEN until >= day + 30 THEN units END) AS d30 FROM fit, n GROUP BY gtin),
w AS (
  SELECT i.gtin, i.name, coalesce(wanted, 0) - coalesce(staged, 0) AS need, coalesce(d0, 0) AS d0, coalesce(d7, 0) AS d7, coalesce(d14, 0) AS d14, coalesce(d30, 0) AS d30
  FROM items i LEFT JOIN q USING (gtin) LEFT JOIN g USING (gtin) LEFT JOIN f USING (gtin))
SELECT gtin, name AS item, need AS still_to_pick, d0 AS shippable_today, d0 - need AS free_today, d7 - need AS free_in_7, d14 - need AS free_in_14, d30 - need AS free_in_30
FROM w ORDER BY free_today, gtin;
