-- title: Write-offs by month
-- Units written on and off, by month and cause. The cause is what the lot was then; the books have no reason of a person's own.
-- bar: units
SELECT strftime('%Y-%m', w.day + 2440587.5) AS month, cause, count(*) AS acts, count(DISTINCT gtin) AS items, sum(qty) AS units
FROM written w, asked WHERE w.day BETWEEN first AND last GROUP BY month, cause ORDER BY month, units;
