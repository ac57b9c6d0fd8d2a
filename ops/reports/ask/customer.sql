-- customer NAME: all that a customer got in the period, lot by lot
SELECT s.number AS shipment, date(s.day + 2440587.5) AS day, s.ord AS "order", s.gtin, i.name AS item, s.lot, date(s.expiry + 2440587.5) AS expiry, s.qty AS units, s.days_left
FROM shipped s JOIN items i USING (gtin), asked, words WHERE s.customer = w1 AND s.day BETWEEN first AND last ORDER BY s.number, s.gtin, s.expiry, s.came;
