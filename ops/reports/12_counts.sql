-- title: Counts
-- Counts by month: how many were right, and what the others changed.
-- bar: right_percent
SELECT strftime('%Y-%m', a.day + 2440587.5) AS month, count(*) AS counts, sum(json_extract(reply, '$.change') = 0) AS right,
       round(100.0 * sum(json_extract(reply, '$.change') = 0) / count(*), 1) AS right_percent, sum(json_extract(reply, '$.change')) AS net_units,
       sum(abs(json_extract(reply, '$.change'))) AS gross_units
FROM act a, asked WHERE word = 'COUNT' AND a.day BETWEEN first AND last GROUP BY month ORDER BY month;
