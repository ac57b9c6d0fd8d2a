-- trace [GTIN [LOT]]: the traceability sheet of a lot, of an item, or of all: what was received and shipped, with the delivery and its line, or the shipment, the order and the customer
SELECT date(t.day + 2440587.5) AS day, act, what, gtin, name AS item, lot, date(expiry + 2440587.5) AS expiry, qty AS units, delivery, line, shipment, ord AS "order", customer
FROM trace t JOIN items USING (gtin), asked, words
WHERE t.day BETWEEN first AND last AND (w1 = '' OR gtin = w1) AND (w2 = '' OR lot = w2) ORDER BY act, gtin, expiry, came;
