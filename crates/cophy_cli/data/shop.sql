-- One order, by its number.
-- weight 100
SELECT * FROM orders WHERE id = 4711;

-- The days on which a customer ordered, in order.
-- weight 40
SELECT ordered FROM orders WHERE customer = 17 ORDER BY ordered;

-- Who ordered from one city in the last month.
-- weight 10
SELECT c.name, o.ordered
FROM customer c JOIN orders o ON c.id = o.customer
WHERE c.city = 'Lund' AND o.ordered >= DATE '2024-12-01'
ORDER BY o.ordered;

-- The best orders of that city in a quarter.
-- weight 5
SELECT o.id, o.ordered, sum(l.price) AS revenue
FROM customer c, orders o, line l
WHERE c.id = o.customer AND l.order_id = o.id
  AND c.city = 'Lund' AND o.ordered BETWEEN DATE '2024-10-01' AND DATE '2024-12-31'
GROUP BY o.id, o.ordered
ORDER BY revenue DESC, o.ordered
LIMIT 10;

-- How many lines each order has.
SELECT o.id, count(*) FROM orders o, line l WHERE o.id = l.order_id GROUP BY o.id;

-- The cities, once each.
SELECT DISTINCT city FROM customer;
