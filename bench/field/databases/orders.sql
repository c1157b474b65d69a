-- An order system: customers, a catalogue of products, orders with their lines, payments, shipments and movements of stock.
CREATE TABLE country (id int PRIMARY KEY, code char(2) NOT NULL, name text NOT NULL);
CREATE TABLE customer (id int PRIMARY KEY, country_id int NOT NULL REFERENCES country, email text NOT NULL, name text NOT NULL,
    city text NOT NULL, phone text, created date NOT NULL, is_blocked boolean NOT NULL);
CREATE TABLE category (id int PRIMARY KEY, parent_id int REFERENCES category, name text NOT NULL);
CREATE TABLE product (id int PRIMARY KEY, category_id int NOT NULL REFERENCES category, sku text NOT NULL, title text NOT NULL,
    description text NOT NULL, price numeric(10, 2) NOT NULL, stock int NOT NULL, is_active boolean NOT NULL);
CREATE TABLE warehouse (id int PRIMARY KEY, name text NOT NULL);
CREATE TABLE customer_order (id int PRIMARY KEY, customer_id int NOT NULL REFERENCES customer, status text NOT NULL,
    placed timestamp NOT NULL, shipped timestamp, total numeric(12, 2) NOT NULL, currency char(3) NOT NULL, note text);
CREATE TABLE order_line (id int PRIMARY KEY, order_id int NOT NULL REFERENCES customer_order, product_id int NOT NULL REFERENCES product,
    quantity int NOT NULL, price numeric(10, 2) NOT NULL, discount numeric(4, 2) NOT NULL);
CREATE TABLE payment (id int PRIMARY KEY, order_id int NOT NULL REFERENCES customer_order, method text NOT NULL, amount numeric(12, 2) NOT NULL,
    state text NOT NULL, paid timestamp, reference text NOT NULL);
CREATE TABLE shipment (id int PRIMARY KEY, order_id int NOT NULL REFERENCES customer_order, warehouse_id int NOT NULL REFERENCES warehouse,
    carrier text NOT NULL, tracking text NOT NULL, sent date NOT NULL, delivered date);
CREATE TABLE stock_move (id bigint PRIMARY KEY, product_id int NOT NULL REFERENCES product, warehouse_id int NOT NULL REFERENCES warehouse,
    moved timestamp NOT NULL, quantity int NOT NULL, reason text NOT NULL);
CREATE TABLE cart_item (customer_id int NOT NULL REFERENCES customer, product_id int NOT NULL REFERENCES product, added timestamp NOT NULL,
    quantity int NOT NULL, PRIMARY KEY (customer_id, product_id));
INSERT INTO country SELECT i, chr(65 + i % 26) || chr(65 + i / 26), 'Country ' || i FROM generate_series(0, 59) i;
INSERT INTO customer SELECT i, draw_low(i, 1, 60), 'person' || i || '@' || (ARRAY['example.org', 'example.com', 'example.net'])[1 + draw(i, 2, 3)],
    words(i, 18), 'City ' || draw_low(i, 3, 900), CASE WHEN draw(i, 4, 3) > 0 THEN '+' || 100000000 + draw(i, 5, 800000000) END,
    date '2019-01-01' + draw(i, 6, 2100), draw(i, 7, 50) = 0 FROM generate_series(1, (200000 * :scale)::int) i;
INSERT INTO category SELECT i, CASE WHEN i > 12 THEN 1 + i % 12 END, 'Category ' || i FROM generate_series(1, 150) i;
INSERT INTO product SELECT i, 13 + draw_low(i, 11, 137), 'SKU-' || lpad(i::text, 8, '0'), words(i, 40), words(i + 1000000, 300),
    1 + draw_low(i, 12, 50000) / 100.0, draw(i, 13, 500), draw(i, 14, 10) > 0 FROM generate_series(1, (40000 * :scale)::int) i;
INSERT INTO warehouse SELECT i, 'Warehouse ' || i FROM generate_series(1, 8) i;
INSERT INTO customer_order SELECT i, 1 + draw_low(i, 21, (200000 * :scale)::int - 1),
    CASE WHEN i > 0.98 * 1000000 * :scale THEN (ARRAY['new', 'paid', 'packed'])[1 + draw(i, 22, 3)]
        WHEN draw(i, 23, 25) = 0 THEN 'cancelled' ELSE 'sent' END, placed,
    CASE WHEN i <= 0.98 * 1000000 * :scale THEN placed + make_interval(hours => 4 + draw(i, 24, 90)) END, 10 + draw_low(i, 25, 200000) / 100.0,
    (ARRAY['EUR', 'EUR', 'EUR', 'USD', 'GBP'])[1 + draw(i, 26, 5)], CASE WHEN draw(i, 27, 8) = 0 THEN words(i, 60) END
    FROM (SELECT i, timestamp '2022-01-01' + i * interval '1095 days' / (1000000 * :scale)::int AS placed
        FROM generate_series(1, (1000000 * :scale)::int) i) AS made;
INSERT INTO order_line SELECT row_number() OVER (), o, 1 + draw_low(8 * o + n, 31, (40000 * :scale)::int - 1), 1 + draw_low(8 * o + n, 32, 9),
    1 + draw_low(8 * o + n, 33, 50000) / 100.0, draw(8 * o + n, 34, 5) / 20.0
    FROM generate_series(1, (1000000 * :scale)::int) o, generate_series(1, 6) n WHERE n <= 1 + draw_low(o, 35, 5);
INSERT INTO payment SELECT id, id, (ARRAY['card', 'card', 'card', 'transfer', 'invoice'])[1 + draw(id, 41, 5)], total,
    CASE WHEN status = 'new' THEN 'pending' WHEN draw(id, 42, 40) = 0 THEN 'refunded' WHEN draw(id, 43, 60) = 0 THEN 'failed' ELSE 'settled' END,
    CASE WHEN status <> 'new' THEN placed + make_interval(mins => draw(id, 44, 3000)) END, md5(id::text) FROM customer_order;
INSERT INTO shipment SELECT row_number() OVER (), id, 1 + draw_low(id, 51, 7), (ARRAY['North Post', 'Parcel One', 'Quick Van'])[1 + draw(id, 52, 3)],
    upper(substr(md5((7 * id)::text), 1, 16)), shipped::date, CASE WHEN draw(id, 53, 30) > 0 THEN shipped::date + 1 + draw(id, 54, 6) END
    FROM customer_order WHERE status = 'sent';
INSERT INTO stock_move SELECT i, 1 + draw_low(i, 61, (40000 * :scale)::int - 1), 1 + draw_low(i, 62, 7),
    timestamp '2022-01-01' + i * interval '1095 days' / (1500000 * :scale)::int, draw(i, 63, 60) - 20,
    (ARRAY['sale', 'sale', 'sale', 'delivery', 'return', 'count'])[1 + draw(i, 64, 6)] FROM generate_series(1, (1500000 * :scale)::int) i;
INSERT INTO cart_item SELECT 1 + draw(i, 71, (200000 * :scale)::int), 1 + draw(i, 72, (40000 * :scale)::int),
    timestamp '2024-12-01' + make_interval(mins => draw(i, 73, 43000)), 1 + draw(i, 74, 3) FROM generate_series(1, (100000 * :scale)::int) i
    ON CONFLICT DO NOTHING;
