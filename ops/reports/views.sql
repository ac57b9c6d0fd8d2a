-- What the reports stand on, as temporary tables over a copy of the books: never over books that are served. Days are day numbers. Before this text is
-- read, lotd-reports makes `asked` (the first and the last day of the period) and `words` (what is asked about).
-- Needs SQLite 3.38 or newer (json_extract).

-- The acts, each with its day as `lotd history` reckons it, the sign in front of its key, the word and the fields of its command.
CREATE TEMP TABLE act AS
WITH spelt AS (
  SELECT act, k, reply, '["' || replace(replace(replace(spell, '\', '\\'), '"', '\"'), char(10), '","') || '"]' AS f FROM repeats),
opened AS (
  SELECT act, k, reply, f, CASE WHEN json_extract(f, '$[0]') = 'OPENDAY' THEN CAST(julianday(json_extract(f, '$[1]')) - 2440587.5 AS INTEGER) END AS day FROM spelt),
-- The day on which the acts began: that of the first card's line before any day was opened, or else the day before the first that was
-- opened, or else the business day.
began(day) AS (
  SELECT coalesce((SELECT day FROM cards WHERE act < coalesce((SELECT min(act) FROM opened WHERE day IS NOT NULL), 1000000000001) ORDER BY act LIMIT 1),
                  (SELECT day - 1 FROM opened WHERE day IS NOT NULL ORDER BY act LIMIT 1), (SELECT day FROM meta)))
SELECT act, coalesce(max(day) OVER (ORDER BY act), (SELECT day FROM began)) AS day,
       CASE WHEN k LIKE 'K/%-%' THEN substr(k, 3, instr(substr(k, 3), '-') - 1) ELSE '' END AS who,
       json_extract(f, '$[0]') AS word, json_extract(f, '$[1]') AS a, json_extract(f, '$[2]') AS b, json_extract(f, '$[3]') AS c,
       json_extract(f, '$[4]') AS d, json_extract(f, '$[5]') AS e, f, reply FROM opened;
CREATE UNIQUE INDEX temp.act_act ON act (act);
CREATE INDEX temp.act_word ON act (word, a, b);

-- The lines of the stock cards.
CREATE TEMP TABLE card AS SELECT * FROM cards;
CREATE INDEX temp.card_act ON card (act);
CREATE INDEX temp.card_item_day ON card (gtin, day, qty);
CREATE INDEX temp.card_lot ON card (gtin, lot);
CREATE TEMP TABLE item_day (gtin TEXT, day INTEGER, kind TEXT, q INTEGER, PRIMARY KEY (gtin, day, kind)) WITHOUT ROWID;
INSERT INTO item_day SELECT gtin, day, kind, sum(qty) FROM card GROUP BY gtin, day, kind;

-- What was shipped: a row for each lot of a shipment.
CREATE TEMP TABLE shipped AS
  SELECT s.number, s.act, s.day, s.ord, o.customer, l.gtin, l.lot, l.qty, t.expiry, t.came, t.expiry - s.day AS days_left
  FROM shiplines l JOIN shipments s USING (number) JOIN orders o ON o.ord = s.ord JOIN lots t ON t.gtin = l.gtin AND t.lot = l.lot;
CREATE INDEX temp.shipped_lot ON shipped (gtin, lot);
CREATE INDEX temp.shipped_item ON shipped (gtin, day);
-- The first and the last day on which something of an order was shipped.
CREATE TEMP TABLE gone (ord TEXT PRIMARY KEY, first INTEGER, last INTEGER) WITHOUT ROWID;
INSERT INTO gone SELECT ord, min(day), max(day) FROM shipments GROUP BY ord;

-- What was received and shipped, one step back and one step forward: a row for each line of a delivery, and for each lot of a shipment.
CREATE TEMP VIEW trace AS
  SELECT c.day, c.act, 'IN' AS what, c.gtin, c.lot, t.expiry, t.came, c.qty, substr(c.note, 1, instr(c.note, '/') - 1) AS delivery,
         CAST(substr(c.note, instr(c.note, '/') + 1) AS INTEGER) AS line, NULL AS shipment, NULL AS ord, NULL AS customer
  FROM card c JOIN lots t USING (gtin, lot) WHERE c.kind = 'RECEIPT'
  UNION ALL SELECT day, act, 'OUT', gtin, lot, expiry, came, qty, NULL, NULL, number, ord, customer FROM shipped;

-- Holds, from their act to that of the release or the recall, if there is one.
CREATE TEMP TABLE holding AS
  SELECT h.a AS gtin, h.b AS lot, h.act, h.day, h.who, json_extract(h.reply, '$.returned') AS returned,
         (SELECT min(r.act) FROM act r WHERE r.word IN ('RELEASE', 'RECALL') AND r.a = h.a AND r.b = h.b AND r.act > h.act) AS ended
  FROM act h WHERE h.word = 'HOLD';

-- What was written on and off, and why, as far as the rows tell: what the lot was at that moment, and whether a person counted or
-- wrote off. The books have no reason of a person's own.
CREATE TEMP TABLE written AS
  SELECT c.act, c.day, c.gtin, c.lot, c.note AS bin, c.qty, c.kind, a.word, a.who, t.expiry,
         CASE WHEN c.qty > 0 THEN CASE a.word WHEN 'COUNT' THEN 'found by a count' ELSE 'written on' END
              WHEN EXISTS (SELECT 1 FROM recalls r WHERE r.gtin = c.gtin AND r.lot = c.lot AND r.act < c.act) THEN 'recalled'
              WHEN t.expiry < c.day THEN 'expired'
              WHEN EXISTS (SELECT 1 FROM holding h WHERE h.gtin = c.gtin AND h.lot = c.lot AND h.act < c.act AND (h.ended IS NULL OR h.ended > c.act)) THEN 'held'
              WHEN (SELECT kind FROM bins WHERE name = c.note) = 'HOLD' THEN 'out of a HOLD bin'
              WHEN a.word = 'COUNT' THEN 'missing at a count' ELSE 'written off' END AS cause
  FROM card c JOIN act a USING (act) JOIN lots t ON t.gtin = c.gtin AND t.lot = c.lot WHERE c.kind IN ('WRITEON', 'WRITEOFF');
CREATE INDEX temp.written_lot ON written (gtin, lot);

-- Lots in STORE bins that are neither held nor recalled, each with the last day on which it may be shipped.
CREATE TEMP TABLE fit AS
  SELECT s.gtin, s.lot, t.expiry, t.came, t.expiry - l.days AS until, sum(s.qty) AS units
  FROM stock s JOIN bins b ON b.name = s.bin AND b.kind = 'STORE' JOIN lots t ON t.gtin = s.gtin AND t.lot = s.lot JOIN least l ON l.gtin = s.gtin
  WHERE NOT t.held AND NOT EXISTS (SELECT 1 FROM recalls r WHERE r.gtin = s.gtin AND r.lot = s.lot) GROUP BY s.gtin, s.lot;
CREATE INDEX temp.fit_item ON fit (gtin);

-- The units of each lot in bins and on stages.
CREATE TEMP TABLE present (gtin TEXT, lot TEXT, in_bins INTEGER, staged INTEGER, PRIMARY KEY (gtin, lot)) WITHOUT ROWID;
INSERT INTO present SELECT gtin, lot, sum(b), sum(s) FROM (
  SELECT gtin, lot, qty AS b, 0 AS s FROM stock UNION ALL SELECT gtin, lot, 0, qty FROM staged) GROUP BY gtin, lot;

-- The lines of orders as they were taken.
CREATE TEMP TABLE taken AS
  SELECT o.ord, o.customer, o.state, o.act, a.day, a.who, a.word, l.gtin, l.ordered, l.shipped
  FROM lines l JOIN orders o USING (ord) JOIN act a ON a.act = o.act;
