-- title: What will expire
-- Units that will be past what their item asks for before they are shipped, if the item goes on at the pace of the last 28 days and the lot that expires first goes first.
-- bar: units_at_risk
WITH n AS (SELECT day FROM meta),
pace AS (SELECT gtin, sum(qty) / 28.0 AS a_day FROM shipped, n WHERE shipped.day > n.day - 28 GROUP BY gtin),
c AS (
  SELECT u.*, sum(units) OVER (PARTITION BY u.gtin ORDER BY expiry, came) AS up_to, coalesce(p.a_day, 0) AS a_day,
         max(0, until - n.day + 1) * coalesce(p.a_day, 0) AS sold FROM fit u LEFT JOIN pace p USING (gtin), n WHERE expiry >= n.day),
-- what of the lots up to this one is not sold until then; never less than behind the lot before it
w AS (SELECT *, max(max(0, up_to - sold)) OVER (PARTITION BY gtin ORDER BY expiry, came) AS left_over FROM c),
r AS (SELECT *, left_over - coalesce(lag(left_over) OVER (PARTITION BY gtin ORDER BY expiry, came), 0) AS at_risk FROM w)
SELECT gtin, name AS item, lot, units, date(expiry + 2440587.5) AS expiry, expiry - (SELECT day FROM n) AS days_left, round(a_day, 2) AS shipped_a_day,
       CAST(round(at_risk) AS INTEGER) AS units_at_risk
FROM r JOIN items USING (gtin) WHERE at_risk >= 0.5 ORDER BY units_at_risk DESC, expiry, gtin, lot;
