-- title: Deliveries
-- What came in the period, by delivery: lines, items, units, and the days that its lots had left.
WITH r AS (SELECT t.* FROM trace t, asked WHERE what = 'IN' AND t.day BETWEEN first AND last)
SELECT delivery, date(min(day) + 2440587.5) AS first_day, count(*) AS lines, count(DISTINCT gtin) AS items, sum(qty) AS units, min(expiry - day) AS fewest_days_left,
       round(1.0 * sum(qty * (expiry - day)) / sum(qty), 1) AS mean_days_left FROM r GROUP BY delivery ORDER BY min(act);
