-- title: Traceability sheet
-- What was received and shipped in the period, lot by lot, with the delivery and its line, or the shipment, the order and the customer. Sort and filter the CSV by lot, item or day.
SELECT date(t.day + 2440587.5) AS day, act, what, gtin, name AS item, lot, date(expiry + 2440587.5) AS expiry, qty AS units, delivery, line, shipment, ord AS "order", customer
FROM trace t JOIN items USING (gtin), asked WHERE t.day BETWEEN first AND last ORDER BY act, gtin, expiry, came;
