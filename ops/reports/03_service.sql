-- title: Service level
-- Orders by the month in which they were taken: what could be promised at once, what was shipped since, how many days it took. A cancelled order counts as taken.
-- bar: promised_at_once_percent
WITH o AS (
  SELECT a.day, json_extract(a.reply, '$.short') AS short, (SELECT sum(ordered) FROM lines WHERE ord = a.a) AS ordered,
         (SELECT sum(shipped) FROM lines WHERE ord = a.a) AS shipped, (SELECT count(*) FROM lines WHERE ord = a.a) AS n,
         (SELECT count(*) FROM lines WHERE ord = a.a AND shipped = ordered) AS full, (SELECT state FROM orders WHERE ord = a.a) AS state,
         (SELECT gone.last FROM gone WHERE ord = a.a) - a.day AS days
  FROM act a, asked WHERE a.word IN ('ORDER', 'URGENT') AND a.day BETWEEN asked.first AND asked.last)
SELECT strftime('%Y-%m', day + 2440587.5) AS month, count(*) AS orders, sum(state = 'CANCELLED') AS cancelled, sum(state = 'OPEN') AS open, sum(n) AS lines,
       sum(ordered) AS units_ordered, round(100.0 * (1 - 1.0 * sum(short) / sum(ordered)), 2) AS promised_at_once_percent,
       round(100.0 * sum(shipped) / sum(ordered), 2) AS units_shipped_percent, round(100.0 * sum(full) / sum(n), 2) AS lines_in_full_percent,
       round(100.0 * sum(state = 'DONE') / count(*), 2) AS orders_in_full_percent,
       round(avg(CASE WHEN state = 'DONE' THEN days END), 2) AS mean_days_to_last_shipment, max(CASE WHEN state = 'DONE' THEN days END) AS most_days
FROM o GROUP BY month ORDER BY month;
