-- shipment NUMBER: one step back: what a shipment held, lot by lot, and the deliveries with which these lots had come
SELECT s.number AS shipment, date(s.day + 2440587.5) AS day, s.ord AS "order", s.customer, s.gtin, i.name AS item, s.lot, date(s.expiry + 2440587.5) AS expiry, s.qty AS units,
  (SELECT group_concat(note, ' ') FROM (SELECT note FROM card c WHERE c.gtin = s.gtin AND c.lot = s.lot AND c.kind = 'RECEIPT' AND c.act < s.act ORDER BY act)) AS came_with
FROM shipped s JOIN items i USING (gtin), words WHERE CAST(s.number AS TEXT) = w1 ORDER BY s.gtin, s.expiry, s.came;
