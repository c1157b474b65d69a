-- The tables of TPC-H at a scale factor of :scale, with its keys, filled with rows of like numbers and values as its generator's.
CREATE TABLE region (r_regionkey int PRIMARY KEY, r_name char(25) NOT NULL, r_comment varchar(152));
CREATE TABLE nation (n_nationkey int PRIMARY KEY, n_name char(25) NOT NULL, n_regionkey int NOT NULL, n_comment varchar(152));
CREATE TABLE supplier (s_suppkey int PRIMARY KEY, s_name char(25) NOT NULL, s_address varchar(40) NOT NULL,
    s_nationkey int NOT NULL, s_phone char(15) NOT NULL, s_acctbal numeric(15, 2) NOT NULL, s_comment varchar(101) NOT NULL);
CREATE TABLE part (p_partkey int PRIMARY KEY, p_name varchar(55) NOT NULL, p_mfgr char(25) NOT NULL, p_brand char(10) NOT NULL,
    p_type varchar(25) NOT NULL, p_size int NOT NULL, p_container char(10) NOT NULL, p_retailprice numeric(15, 2) NOT NULL,
    p_comment varchar(23) NOT NULL);
CREATE TABLE partsupp (ps_partkey int, ps_suppkey int, ps_availqty int NOT NULL, ps_supplycost numeric(15, 2) NOT NULL,
    ps_comment varchar(199) NOT NULL);
CREATE TABLE customer (c_custkey int PRIMARY KEY, c_name varchar(25) NOT NULL, c_address varchar(40) NOT NULL,
    c_nationkey int NOT NULL, c_phone char(15) NOT NULL, c_acctbal numeric(15, 2) NOT NULL, c_mktsegment char(10) NOT NULL,
    c_comment varchar(117) NOT NULL);
CREATE TABLE orders (o_orderkey bigint PRIMARY KEY, o_custkey int NOT NULL, o_orderstatus char(1) NOT NULL,
    o_totalprice numeric(15, 2) NOT NULL, o_orderdate date NOT NULL, o_orderpriority char(15) NOT NULL, o_clerk char(15) NOT NULL,
    o_shippriority int NOT NULL, o_comment varchar(79) NOT NULL);
CREATE TABLE lineitem (l_orderkey bigint, l_partkey int NOT NULL, l_suppkey int NOT NULL, l_linenumber int,
    l_quantity numeric(15, 2) NOT NULL, l_extendedprice numeric(15, 2) NOT NULL, l_discount numeric(15, 2) NOT NULL,
    l_tax numeric(15, 2) NOT NULL, l_returnflag char(1) NOT NULL, l_linestatus char(1) NOT NULL, l_shipdate date NOT NULL,
    l_commitdate date NOT NULL, l_receiptdate date NOT NULL, l_shipinstruct char(25) NOT NULL, l_shipmode char(10) NOT NULL,
    l_comment varchar(44) NOT NULL);
INSERT INTO region SELECT i, (ARRAY['AFRICA', 'AMERICA', 'ASIA', 'EUROPE', 'MIDDLE EAST'])[i + 1], words(i, 60)
    FROM generate_series(0, 4) i;
INSERT INTO nation SELECT i, (ARRAY['ALGERIA', 'ARGENTINA', 'BRAZIL', 'CANADA', 'EGYPT', 'ETHIOPIA', 'FRANCE', 'GERMANY', 'INDIA',
    'INDONESIA', 'IRAN', 'IRAQ', 'JAPAN', 'JORDAN', 'KENYA', 'MOROCCO', 'MOZAMBIQUE', 'PERU', 'CHINA', 'ROMANIA', 'SAUDI ARABIA',
    'VIETNAM', 'RUSSIA', 'UNITED KINGDOM', 'UNITED STATES'])[i + 1],
    (ARRAY[0, 1, 1, 1, 4, 0, 3, 3, 2, 2, 4, 4, 2, 4, 0, 0, 0, 1, 2, 3, 4, 2, 3, 3, 1])[i + 1], words(i, 60)
    FROM generate_series(0, 24) i;
INSERT INTO supplier SELECT i, 'Supplier#' || lpad(i::text, 9, '0'), words(i, 20), nation, 10 + nation || '-' || 100 + draw(i, 2, 900)
    || '-' || 1000 + draw(i, 3, 9000), draw(i, 4, 1100000) / 100.0 - 1000, words(i, 40)
    || CASE WHEN i % 500 = 7 THEN ' Customer Complaints' ELSE '' END
    FROM (SELECT i, draw(i, 1, 25) AS nation FROM generate_series(1, (10000 * :scale)::int) i) AS made;
INSERT INTO part SELECT i, colours[1 + draw(i, 11, 20)] || ' ' || colours[1 + draw(i, 12, 20)] || ' ' || colours[1 + draw(i, 13, 20)]
    || ' ' || colours[1 + draw(i, 14, 20)], 'Manufacturer#' || 1 + draw(i, 15, 5), 'Brand#' || 10 + 10 * draw(i, 15, 5) + 1 + draw(i, 16, 5),
    (ARRAY['STANDARD', 'SMALL', 'MEDIUM', 'LARGE', 'ECONOMY', 'PROMO'])[1 + draw(i, 17, 6)] || ' '
    || (ARRAY['ANODIZED', 'BURNISHED', 'PLATED', 'POLISHED', 'BRUSHED'])[1 + draw(i, 18, 5)] || ' '
    || (ARRAY['TIN', 'NICKEL', 'BRASS', 'STEEL', 'COPPER'])[1 + draw(i, 19, 5)], 1 + draw(i, 20, 50),
    (ARRAY['SM', 'LG', 'MED', 'JUMBO', 'WRAP'])[1 + draw(i, 21, 5)] || ' '
    || (ARRAY['CASE', 'BOX', 'BAG', 'JAR', 'PKG', 'PACK', 'CAN', 'DRUM'])[1 + draw(i, 22, 8)], 900 + i % 1000 + i / 100 / 100.0,
    words(i, 8)
    FROM generate_series(1, (200000 * :scale)::int) i, (SELECT ARRAY['almond', 'azure', 'beige', 'black', 'blue', 'brown', 'coral', 'cream',
        'cyan', 'forest', 'ghost', 'green', 'honeydew', 'ivory', 'khaki', 'lace', 'lemon', 'lime', 'linen', 'maroon'] AS colours) AS c;
INSERT INTO partsupp SELECT p, 1 + ((p + s * (2500 * :scale)::int + p / 1000) % (10000 * :scale)::int), 1 + draw(4 * p + s, 31, 9999),
    1 + draw(4 * p + s, 32, 99900) / 100.0, words(4 * p + s, 120)
    FROM generate_series(1, (200000 * :scale)::int) p, generate_series(0, 3) s;
INSERT INTO customer SELECT i, 'Customer#' || lpad(i::text, 9, '0'), words(i, 20), nation, 10 + nation || '-' || 100 + draw(i, 42, 900)
    || '-' || 1000 + draw(i, 43, 9000), draw(i, 44, 1100000) / 100.0 - 1000,
    (ARRAY['AUTOMOBILE', 'BUILDING', 'FURNITURE', 'HOUSEHOLD', 'MACHINERY'])[1 + draw(i, 45, 5)], words(i, 70)
    FROM (SELECT i, draw(i, 41, 25) AS nation FROM generate_series(1, (150000 * :scale)::int) i) AS made;
-- A third of the customers has no order.
INSERT INTO orders SELECT i / 8 * 32 + i % 8, customer + 1 - (customer % 3) / 2, 'O', 1000, date '1992-01-01' + draw(i, 52, 2406),
    (ARRAY['1-URGENT', '2-HIGH', '3-MEDIUM', '4-NOT SPECIFIED', '5-LOW'])[1 + draw(i, 53, 5)],
    'Clerk#' || lpad((1 + draw(i, 54, (1000 * :scale)::int))::text, 9, '0'), 0,
    CASE WHEN i % 97 = 0 THEN 'special ' || substr(md5(i::text), 1, 9) || ' requests ' ELSE '' END || words(i, 42)
    FROM (SELECT i, draw(i, 51, (150000 * :scale)::int - 1) AS customer FROM generate_series(1, (1500000 * :scale)::int) i) AS made;
INSERT INTO lineitem SELECT o_orderkey, part, 1 + ((part + draw(place, 62, 4) * (2500 * :scale)::int + part / 1000) % (10000 * :scale)::int), n,
    quantity, quantity * (900 + part % 1000), draw(place, 63, 11) / 100.0, draw(place, 64, 9) / 100.0,
    CASE WHEN receipt > date '1995-06-17' THEN 'N' WHEN draw(place, 65, 2) = 0 THEN 'R' ELSE 'A' END,
    CASE WHEN ship > date '1995-06-17' THEN 'O' ELSE 'F' END, ship, o_orderdate + 30 + draw(place, 66, 61), receipt,
    (ARRAY['DELIVER IN PERSON', 'COLLECT COD', 'NONE', 'TAKE BACK RETURN'])[1 + draw(place, 67, 4)],
    (ARRAY['REG AIR', 'AIR', 'RAIL', 'SHIP', 'TRUCK', 'MAIL', 'FOB'])[1 + draw(place, 68, 7)], words(place, 24)
    FROM (SELECT *, 1 + draw(place, 61, (200000 * :scale)::int) AS part, 1 + draw(place, 69, 50) AS quantity,
            ship + 1 + draw(place, 70, 30) AS receipt
        FROM (SELECT o_orderkey, o_orderdate, n, o_orderkey * 8 + n AS place, o_orderdate + 1 + draw(o_orderkey * 8 + n, 71, 121) AS ship
            FROM orders, generate_series(1, 7) n WHERE n <= 1 + draw(o_orderkey, 72, 7)) AS lines) AS made;
UPDATE orders SET o_totalprice = price, o_orderstatus = CASE WHEN open = 0 THEN 'F' WHEN closed = 0 THEN 'O' ELSE 'P' END
    FROM (SELECT l_orderkey, sum(l_extendedprice * (1 - l_discount) * (1 + l_tax)) AS price, count(*) FILTER (WHERE l_linestatus = 'O') AS open,
        count(*) FILTER (WHERE l_linestatus = 'F') AS closed FROM lineitem GROUP BY l_orderkey) AS sums WHERE l_orderkey = o_orderkey;
VACUUM FULL orders;
ALTER TABLE partsupp ADD PRIMARY KEY (ps_partkey, ps_suppkey);
ALTER TABLE lineitem ADD PRIMARY KEY (l_orderkey, l_linenumber);
ALTER TABLE nation ADD FOREIGN KEY (n_regionkey) REFERENCES region;
ALTER TABLE supplier ADD FOREIGN KEY (s_nationkey) REFERENCES nation;
ALTER TABLE customer ADD FOREIGN KEY (c_nationkey) REFERENCES nation;
ALTER TABLE partsupp ADD FOREIGN KEY (ps_partkey) REFERENCES part, ADD FOREIGN KEY (ps_suppkey) REFERENCES supplier;
ALTER TABLE orders ADD FOREIGN KEY (o_custkey) REFERENCES customer;
ALTER TABLE lineitem ADD FOREIGN KEY (l_orderkey) REFERENCES orders, ADD FOREIGN KEY (l_partkey, l_suppkey) REFERENCES partsupp;
