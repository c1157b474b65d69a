-- table, 120 calls: the orders of a customer
SELECT id, status, placed, total, currency FROM customer_order WHERE customer_id = {customer:1-200000s} ORDER BY placed DESC LIMIT 20;
-- tuning, 100 calls: an order with its customer
SELECT o.id, o.status, o.total, c.name, c.email FROM customer_order o JOIN customer c ON c.id = o.customer_id WHERE o.id = {order:1-1000000s};
-- table, 100 calls: the lines of an order
SELECT l.id, l.quantity, l.price, p.sku, p.title FROM order_line l JOIN product p ON p.id = l.product_id WHERE l.order_id = {order:1-1000000s};
-- tuning, 60 calls: the payments of an order
SELECT id, method, amount, state FROM payment WHERE order_id = {order:1-1000000s} ORDER BY paid;
-- table, 60 calls: a customer who logs in
SELECT id, name, is_blocked FROM customer WHERE email = 'person{customer:1-200000s}@example.org';
-- tuning, 80 calls: a page of a category
SELECT id, title, price FROM product WHERE category_id = {category:13-149} AND is_active AND stock > 0 ORDER BY price LIMIT 24;
-- tuning, 30 calls: what waits for packing
SELECT id, customer_id, placed FROM customer_order WHERE status = 'paid' ORDER BY placed LIMIT 50;
-- table, 20 calls: newest orders with their customers
SELECT o.id, o.placed, o.total, c.name FROM customer_order o JOIN customer c ON c.id = o.customer_id ORDER BY o.placed DESC LIMIT 25;
-- table, 25 calls: where a parcel is
SELECT s.order_id, s.carrier, s.sent, s.delivered, w.name FROM shipment s JOIN warehouse w ON w.id = s.warehouse_id WHERE s.tracking = '{code:100000-999999}ABCDEF1234';
-- tuning, 10 calls: sold products of a customer's country in a month
SELECT l.product_id, sum(l.quantity) AS sold FROM order_line l JOIN customer_order o ON o.id = l.order_id JOIN customer c ON c.id = o.customer_id WHERE c.country_id = {country:1-59} AND o.placed >= '{day:2022-01-01..2024-11-01}' AND o.placed < '{day+30}' GROUP BY l.product_id ORDER BY sold DESC LIMIT 10;
-- table, 10 calls: takings by day
SELECT date_trunc('day', placed) AS day, count(*), sum(total) FROM customer_order WHERE placed >= '{day:2022-01-01..2024-11-01}' AND placed < '{day+14}' AND status <> 'cancelled' GROUP BY 1 ORDER BY 1;
-- tuning, 15 calls: movements of a product
SELECT moved, quantity, reason, warehouse_id FROM stock_move WHERE product_id = {product:1-40000s} AND moved >= '{day:2022-01-01..2024-06-01}' ORDER BY moved;
-- table, 8 calls: stock of a warehouse by product, in a span of time
SELECT product_id, sum(quantity) FROM stock_move WHERE warehouse_id = {warehouse:1-8} AND moved BETWEEN '{day:2022-01-01..2024-11-01}' AND '{day+7}' GROUP BY product_id HAVING sum(quantity) < 0;
-- tuning, 40 calls: the cart
SELECT i.product_id, i.quantity, p.title, p.price FROM cart_item i JOIN product p ON p.id = i.product_id WHERE i.customer_id = {customer:1-200000s};
-- table, 12 calls: who bought a product
SELECT DISTINCT o.customer_id FROM customer_order o JOIN order_line l ON l.order_id = o.id WHERE l.product_id = {product:1-40000s} AND o.placed > '{day:2024-01-01..2024-10-01}';
-- tuning, 6 calls: payments that failed
SELECT p.id, p.order_id, p.amount, o.customer_id FROM payment p JOIN customer_order o ON o.id = p.order_id WHERE p.state = 'failed' AND p.paid >= '{day:2022-01-01..2024-11-01}' AND p.paid < '{day+31}';
-- table, 6 calls: parcels that were never delivered
SELECT carrier, count(*) FROM shipment WHERE delivered IS NULL AND sent BETWEEN '{day:2022-01-01..2024-11-01}' AND '{day+60}' GROUP BY carrier;
-- tuning, 5 calls: customers without an order since a day
SELECT c.id, c.email FROM customer c WHERE c.city = 'City {city:1-900}' AND NOT EXISTS (SELECT 1 FROM customer_order o WHERE o.customer_id = c.id AND o.placed > '{day:2023-01-01..2024-11-01}');
-- table, 4 calls: the latest order of each customer of a city
SELECT c.id, c.name, (SELECT max(o.placed) FROM customer_order o WHERE o.customer_id = c.id) AS latest FROM customer c WHERE c.city = 'City {city:1-900}';
-- tuning, 3 calls: products that sell best
SELECT p.category_id, p.id, sum(l.quantity * l.price) AS taken FROM order_line l JOIN product p ON p.id = l.product_id WHERE p.category_id IN ({category:13-70}, {other:71-149}) GROUP BY p.category_id, p.id ORDER BY taken DESC LIMIT 20;
-- table, 60 calls: a new line
INSERT INTO order_line (id, order_id, product_id, quantity, price, discount) VALUES ({line:10000000-90000000}, {order:1-1000000s}, {product:1-40000s}, 1, 12.50, 0);
-- tuning, 60 calls: a movement of stock
INSERT INTO stock_move (id, product_id, warehouse_id, moved, quantity, reason) VALUES ({move:10000000-90000000}, {product:1-40000s}, {warehouse:1-8}, '2024-12-31 12:00:00', -1, 'sale');
-- table, 40 calls: an order goes on
UPDATE customer_order SET status = 'packed' WHERE id = {order:980000s-1000000s};
-- tuning, 40 calls: stock falls
UPDATE product SET stock = stock - 1 WHERE id = {product:1-40000s};
-- table, 5 calls: old carts go
DELETE FROM cart_item WHERE added < '2024-12-01 {hour:10-20}:00:00';
-- tuning, 20 calls: a payment settles
UPDATE payment SET state = 'settled', paid = '2024-12-31 12:00:00' WHERE reference = md5('{order:980000s-1000000s}') AND state = 'pending';
