-- title: Days left, by item
-- How many days the lots of an item had left as they came and as they were shipped.
-- bar: mean_as_shipped
SELECT i.gtin, i.name AS item, (SELECT days FROM least WHERE gtin = i.gtin) AS least,
       round((SELECT 1.0 * sum(c.qty * (t.expiry - c.day)) / sum(c.qty) FROM card c JOIN lots t ON t.gtin = c.gtin AND t.lot = c.lot
              WHERE c.gtin = i.gtin AND c.kind = 'RECEIPT' AND c.day BETWEEN q.first AND q.last), 1) AS mean_as_it_came,
       round((SELECT 1.0 * sum(qty * days_left) / sum(qty) FROM shipped s WHERE s.gtin = i.gtin AND s.day BETWEEN q.first AND q.last), 1) AS mean_as_shipped,
       (SELECT min(days_left) FROM shipped s WHERE s.gtin = i.gtin AND s.day BETWEEN q.first AND q.last) AS fewest_as_shipped
FROM items i, asked q ORDER BY mean_as_shipped IS NULL, mean_as_shipped, i.gtin;
