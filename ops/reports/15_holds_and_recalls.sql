-- title: Holds and recalls
-- Holds and recalls of the period: since when, until when, what came back from stages, what had gone to customers before.
SELECT 'HOLD' AS what, h.gtin, i.name AS item, h.lot, date(h.day + 2440587.5) AS since, (SELECT date(day + 2440587.5) FROM act WHERE act = h.ended) AS until,
       coalesce((SELECT day FROM act WHERE act = h.ended), (SELECT day FROM meta)) - h.day AS days, h.returned, h.who,
       coalesce((SELECT sum(qty) FROM shipped s WHERE s.gtin = h.gtin AND s.lot = h.lot AND s.act < h.act), 0) AS shipped_before
FROM holding h JOIN items i USING (gtin), asked WHERE h.day BETWEEN first AND last
UNION ALL
SELECT 'RECALL', r.gtin, i.name, r.lot, date(a.day + 2440587.5), NULL, NULL, json_extract(a.reply, '$.returned'), a.who,
       coalesce((SELECT sum(qty) FROM shipped s WHERE s.gtin = r.gtin AND s.lot = r.lot AND s.act < r.act), 0)
FROM recalls r JOIN act a USING (act) JOIN items i USING (gtin), asked WHERE a.day BETWEEN first AND last ORDER BY since, what, gtin, lot;
