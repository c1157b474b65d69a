-- The shop's statements as MySQL counted them, in the words that the grammar takes: docs/MYSQL.md.
-- weight 20000
SELECT id, country FROM customers WHERE email = ?;
-- weight 9000
SELECT id, placed, total FROM orders WHERE customer_id = ? ORDER BY placed DESC LIMIT ?;
-- weight 300
SELECT count(*), sum(total) FROM orders WHERE state = ? AND placed BETWEEN DATE '2025-12-01' AND DATE '2025-12-08';
-- weight 40
SELECT c.country, sum(o.total) FROM customers c JOIN orders o ON o.customer_id = c.id
WHERE o.placed >= DATE '2025-12-01' GROUP BY c.country;
-- weight 6000
UPDATE orders SET state = ? WHERE id = ?;
-- weight 3000
INSERT INTO orders (customer_id, placed, state, total) VALUES (?, ?, ?, ?);
