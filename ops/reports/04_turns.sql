-- title: Stock turns
-- Units of each item over the period: at its start, in, out, at its end; the mean of all its days; how often the stock turned, for a year of 365 days.
-- bar: turns_a_year
WITH p AS (SELECT first, last, last - first + 1 AS days FROM asked),
s AS (
  SELECT i.gtin, i.name, p.days, coalesce(sum(CASE WHEN d.day < p.first THEN q END), 0) AS opening,
         coalesce(sum(CASE WHEN d.day >= p.first AND kind = 'RECEIPT' THEN q END), 0) AS received,
         -coalesce(sum(CASE WHEN d.day >= p.first AND kind = 'SHIPMENT' THEN q END), 0) AS shipped,
         -coalesce(sum(CASE WHEN d.day >= p.first AND kind = 'WRITEOFF' THEN q END), 0) AS written_off,
         coalesce(sum(CASE WHEN d.day >= p.first AND kind = 'WRITEON' THEN q END), 0) AS written_on,
         -- what came on a day is there for the rest of the period
         coalesce(sum(CASE WHEN d.day >= p.first THEN q * (p.last - d.day + 1) END), 0) * 1.0 / p.days AS added
  FROM items i, p LEFT JOIN item_day d ON d.gtin = i.gtin AND d.day <= p.last GROUP BY i.gtin)
SELECT gtin, name AS item, opening, received, shipped, written_off, written_on, opening + received - shipped - written_off + written_on AS closing,
       round(opening + added, 1) AS mean_stock, round(shipped * 365.0 / days / nullif(opening + added, 0), 1) AS turns_a_year,
       round((opening + added) * days / nullif(shipped, 0), 1) AS days_of_stock, round(100.0 * written_off / nullif(received, 0), 2) AS written_off_percent
FROM s ORDER BY shipped DESC, gtin;
