-- title: Mass balance
-- Lots whose units do not come out: what the cards show as received, written on, written off and shipped, against bins, stages and shipments. No row: the books balance.
WITH m AS (
  SELECT t.gtin, t.lot, coalesce((SELECT sum(qty) FROM card c WHERE c.gtin = t.gtin AND c.lot = t.lot), 0) AS by_cards,
         coalesce((SELECT in_bins FROM present p WHERE p.gtin = t.gtin AND p.lot = t.lot), 0) AS in_bins,
         coalesce((SELECT staged FROM present p WHERE p.gtin = t.gtin AND p.lot = t.lot), 0) AS staged,
         coalesce((SELECT sum(qty) FROM shipped s WHERE s.gtin = t.gtin AND s.lot = t.lot), 0) AS shipped,
         -coalesce((SELECT sum(qty) FROM card c WHERE c.gtin = t.gtin AND c.lot = t.lot AND c.kind = 'SHIPMENT'), 0) AS shipped_by_cards
  FROM lots t)
SELECT * FROM m WHERE by_cards <> in_bins + staged OR shipped <> shipped_by_cards;
