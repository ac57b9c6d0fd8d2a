-- title: Days left, by customer
-- How many days the lots had left as they were shipped, by customer; the mean is that of the units.
-- bar: mean
SELECT customer, count(DISTINCT number) AS shipments, sum(qty) AS units, min(days_left) AS fewest, round(1.0 * sum(qty * days_left) / sum(qty), 1) AS mean,
       round(100.0 * sum(CASE WHEN days_left < 7 THEN qty ELSE 0 END) / sum(qty), 1) AS under_7_percent,
       round(100.0 * sum(CASE WHEN days_left < 30 THEN qty ELSE 0 END) / sum(qty), 1) AS under_30_percent
FROM shipped s, asked WHERE s.day BETWEEN first AND last GROUP BY customer ORDER BY units DESC, customer;
