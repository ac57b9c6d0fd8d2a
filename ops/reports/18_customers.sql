-- title: Customers
-- Customers over the period: orders that they gave, units ordered, units of these shipped since, how many items, the last shipment.
-- bar: units_shipped
SELECT customer, count(DISTINCT ord) AS orders, sum(ordered) AS units_ordered, sum(shipped) AS units_shipped, round(100.0 * sum(shipped) / sum(ordered), 1) AS shipped_percent,
       count(DISTINCT gtin) AS items, (SELECT date(max(day) + 2440587.5) FROM shipped s WHERE s.customer = t.customer) AS last_shipment
FROM taken t, asked WHERE t.day BETWEEN first AND last GROUP BY customer ORDER BY units_shipped DESC, customer;
