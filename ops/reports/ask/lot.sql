-- lot GTIN LOT: the recall drill: where a lot came from (IN), where it is (BIN, STAGE), whom it went to (OUT), what was written on and off (ON, OFF); BALANCE is what is not accounted for, and has to be 0
WITH g AS (SELECT w1 AS gtin, w2 AS lot FROM words),
m AS (
  SELECT coalesce((SELECT sum(qty) FROM card JOIN g USING (gtin, lot) WHERE kind IN ('RECEIPT', 'WRITEON')), 0) AS came,
         -coalesce((SELECT sum(qty) FROM card JOIN g USING (gtin, lot) WHERE kind = 'WRITEOFF'), 0) AS off,
         coalesce((SELECT sum(qty) FROM shipped JOIN g USING (gtin, lot)), 0) AS went,
         coalesce((SELECT in_bins + staged FROM present JOIN g USING (gtin, lot)), 0) AS here),
rows(place, what, document, day, act, units, customer) AS (
  SELECT 0, 'LOT', coalesce((SELECT name FROM items i WHERE i.gtin = g.gtin), 'no such item')
    || CASE WHEN t.lot IS NULL THEN ', a lot that never came' ELSE '' END
    || CASE WHEN r.act IS NOT NULL THEN ', RECALLED by act ' || r.act WHEN t.held THEN ', HELD' WHEN t.expiry < (SELECT day FROM meta) THEN ', EXPIRED' ELSE '' END, NULL, t.came, NULL, coalesce('expiry ' || date(t.expiry + 2440587.5), '')
    FROM g LEFT JOIN lots t USING (gtin, lot) LEFT JOIN recalls r ON r.gtin = g.gtin AND r.lot = g.lot
  UNION ALL SELECT 1, 'IN', 'delivery ' || note, day, act, qty, '' FROM card JOIN g USING (gtin, lot) WHERE kind = 'RECEIPT'
  UNION ALL SELECT 2, CASE kind WHEN 'WRITEON' THEN 'ON' ELSE 'OFF' END, 'bin ' || bin || ', ' || cause, day, act, abs(qty), '' FROM written JOIN g USING (gtin, lot)
  UNION ALL SELECT 3, 'OUT', 'shipment ' || number || ', order ' || ord, day, act, qty, customer FROM shipped JOIN g USING (gtin, lot)
  UNION ALL SELECT 4, 'BIN', 'bin ' || bin, NULL, NULL, qty, '' FROM stock JOIN g USING (gtin, lot)
  UNION ALL SELECT 5, 'STAGE', 'order ' || ord, NULL, NULL, qty, customer FROM staged JOIN g USING (gtin, lot) JOIN orders USING (ord)
  UNION ALL SELECT 6, 'BALANCE', came || ' received or written on, less ' || off || ' written off, ' || went || ' shipped, ' || here || ' in the house', NULL, NULL,
    came - off - went - here, (SELECT count(DISTINCT customer) FROM shipped JOIN g USING (gtin, lot)) || ' customers got it' FROM m)
SELECT what, document, date(day + 2440587.5) AS day, act, units, customer FROM rows ORDER BY place, act, document;
