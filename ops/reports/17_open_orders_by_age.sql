-- title: Open orders by age
-- Open orders, the oldest first: what is still to ship, and what of it is staged, reserved, short.
-- bar: days
WITH o AS (
  SELECT o.ord, o.customer, a.day, a.act, a.who, EXISTS (SELECT 1 FROM urgents u WHERE u.ord = o.ord) AS urgent,
         (SELECT sum(ordered - shipped) FROM lines l WHERE l.ord = o.ord) AS to_ship, coalesce((SELECT sum(qty) FROM staged s WHERE s.ord = o.ord), 0) AS staged,
         coalesce((SELECT sum(qty) FROM reserved r WHERE r.ord = o.ord), 0) AS reserved
  FROM orders o JOIN act a USING (act) WHERE o.state = 'OPEN')
SELECT ord AS "order", customer, date(day + 2440587.5) AS taken, (SELECT day FROM meta) - day AS days, who, urgent, to_ship, staged, reserved, to_ship - staged - reserved AS short
FROM o ORDER BY day, act;
