-- A shop with columns of all kinds, and names and tables that a catalogue can't have as they are.
CREATE EXTENSION pg_stat_statements;
CREATE SCHEMA sales;
CREATE DOMAIN price AS numeric(12, 2);
CREATE TYPE state AS ENUM ('new', 'paid', 'sent');
CREATE TABLE customer (id serial PRIMARY KEY, email text NOT NULL, name varchar(80), city text, active boolean, born date,
    tags text[], profile jsonb, created timestamptz NOT NULL);
CREATE TABLE product (id int PRIMARY KEY, title text, price price, stock int, weight float8, category int);
CREATE TABLE sales.orders (id bigint PRIMARY KEY, customer_id int, status state, placed timestamp, total numeric(12, 2), note text);
CREATE TABLE line (order_id bigint, number int, product_id int, quantity smallint, amount numeric(12, 2),
    PRIMARY KEY (order_id, number) INCLUDE (amount));
CREATE TABLE "Odd Name" ("the key" int, "select" int, "Ünïcode" text, "9lives" text, "new
line" text);
CREATE TABLE "order" (id int, "group" int, "user" text);
CREATE TABLE event (id bigint, happened date, kind int, payload text) PARTITION BY RANGE (happened);
CREATE TABLE event_2024 PARTITION OF event FOR VALUES FROM ('2024-01-01') TO ('2025-01-01');
CREATE TABLE event_2025 PARTITION OF event FOR VALUES FROM ('2025-01-01') TO ('2026-01-01');
CREATE TABLE fresh (a int, b text);
CREATE TABLE nothing ();
CREATE TABLE empty (a int, b int);
COMMENT ON TABLE customer IS E'odd \x01 comment " ''';
INSERT INTO customer SELECT i, 'user' || i || '@example.org', 'Name ' || i % 700, 'City ' || i % 40, i % 3 > 0,
    date '1950-01-01' + i % 18000, ARRAY['t' || i % 9], jsonb_build_object('k', i % 5), timestamptz '2020-01-01 12:00+00' + i * interval '7 hours'
    FROM generate_series(1, 5000) i;
INSERT INTO product SELECT i, 'Product ' || i, (i % 500) + 0.5, i % 90, i / 3.0, i % 12 FROM generate_series(1, 800) i;
INSERT INTO sales.orders SELECT i, 1 + i * 7 % 5000, (ARRAY['new', 'paid', 'sent'])[1 + i % 3]::state,
    timestamp '2022-01-01 08:30' + i * interval '1 hour', i % 1000 - 0.25, CASE WHEN i % 10 = 0 THEN 'note ' || i END
    FROM generate_series(1, 20000) i;
INSERT INTO line SELECT 1 + i / 3, i % 3, 1 + i * 11 % 800, 1 + i % 9, i % 300 FROM generate_series(1, 60000) i;
INSERT INTO "Odd Name" SELECT i, i % 10, 'x' || i, 'y', 'z' FROM generate_series(1, 300) i;
INSERT INTO "order" SELECT i, i % 5, 'u' || i % 50 FROM generate_series(1, 400) i;
INSERT INTO event SELECT i, date '2024-01-01' + i % 700, i % 20, repeat('p', 40) FROM generate_series(1, 9000) i;
INSERT INTO fresh SELECT i, 'b' || i FROM generate_series(1, 2000) i;
CREATE INDEX orders_customer ON sales.orders (customer_id, placed DESC);
CREATE INDEX orders_open ON sales.orders (placed) WHERE status = 'new';
CREATE INDEX customer_lower ON customer (lower(email));
CREATE INDEX customer_tags ON customer USING gin (tags);
CREATE UNIQUE INDEX customer_email ON customer (email);
CREATE INDEX line_product ON line (product_id) INCLUDE (quantity);
CREATE INDEX "Odd Index" ON "Odd Name" ("the key");
CREATE INDEX event_kind ON event (kind, happened);
CREATE VIEW open_order AS SELECT o.id, o.customer_id, o.total FROM sales.orders o WHERE o.status <> 'sent';
CREATE VIEW customer_sum AS SELECT o.customer_id, sum(o.total) AS total FROM sales.orders o GROUP BY o.customer_id;
CREATE MATERIALIZED VIEW city_count AS SELECT city, count(*) AS people FROM customer GROUP BY city;
ANALYZE customer, product, sales.orders, line, "Odd Name", "order", event, empty, city_count;
