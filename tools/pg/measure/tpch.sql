-- The tables of TPC-H, filled at scale 0.1 with rows of like numbers and like values as its generator's.
CREATE TABLE region (r_regionkey int PRIMARY KEY, r_name char(25), r_comment varchar(152));
CREATE TABLE nation (n_nationkey int PRIMARY KEY, n_name char(25), n_regionkey int, n_comment varchar(152));
CREATE TABLE supplier (s_suppkey int PRIMARY KEY, s_name char(25), s_address varchar(40), s_nationkey int, s_phone char(15),
    s_acctbal numeric(15, 2), s_comment varchar(101));
CREATE TABLE part (p_partkey int PRIMARY KEY, p_name varchar(55), p_mfgr char(25), p_brand char(10), p_type varchar(25),
    p_size int, p_container char(10), p_retailprice numeric(15, 2), p_comment varchar(23));
CREATE TABLE partsupp (ps_partkey int, ps_suppkey int, ps_availqty int, ps_supplycost numeric(15, 2), ps_comment varchar(199),
    PRIMARY KEY (ps_partkey, ps_suppkey));
CREATE TABLE customer (c_custkey int PRIMARY KEY, c_name varchar(25), c_address varchar(40), c_nationkey int, c_phone char(15),
    c_acctbal numeric(15, 2), c_mktsegment char(10), c_comment varchar(117));
CREATE TABLE orders (o_orderkey bigint PRIMARY KEY, o_custkey int, o_orderstatus char(1), o_totalprice numeric(15, 2),
    o_orderdate date, o_orderpriority char(15), o_clerk char(15), o_shippriority int, o_comment varchar(79));
CREATE TABLE lineitem (l_orderkey bigint, l_partkey int, l_suppkey int, l_linenumber int, l_quantity numeric(15, 2),
    l_extendedprice numeric(15, 2), l_discount numeric(15, 2), l_tax numeric(15, 2), l_returnflag char(1), l_linestatus char(1),
    l_shipdate date, l_commitdate date, l_receiptdate date, l_shipinstruct char(25), l_shipmode char(10), l_comment varchar(44),
    PRIMARY KEY (l_orderkey, l_linenumber));
SELECT setseed(0.5);
INSERT INTO region SELECT i, (ARRAY['AFRICA', 'AMERICA', 'ASIA', 'EUROPE', 'MIDDLE EAST'])[i + 1], 'a region' FROM generate_series(0, 4) i;
INSERT INTO nation SELECT i, (ARRAY['ALGERIA', 'ARGENTINA', 'BRAZIL', 'CANADA', 'EGYPT', 'ETHIOPIA', 'FRANCE', 'GERMANY', 'INDIA',
    'INDONESIA', 'IRAN', 'IRAQ', 'JAPAN', 'JORDAN', 'KENYA', 'MOROCCO', 'MOZAMBIQUE', 'PERU', 'CHINA', 'ROMANIA', 'SAUDI ARABIA',
    'VIETNAM', 'RUSSIA', 'UNITED KINGDOM', 'UNITED STATES'])[i + 1], i % 5, 'a nation' FROM generate_series(0, 24) i;
INSERT INTO supplier SELECT i, 'Supplier#' || i, md5(i::text), (random() * 24)::int, (10 + i % 25) || '-' || i, random() * 10000 - 1000,
    repeat(md5(i::text), 2) FROM generate_series(1, 1000) i;
INSERT INTO part SELECT i, (ARRAY['almond', 'green', 'forest', 'azure', 'beige', 'black', 'blue', 'brown', 'coral', 'cream'])[1 + i % 10] || ' '
    || md5(i::text), 'Manufacturer#' || 1 + i % 5, 'Brand#' || (1 + i % 5) * 10 + 1 + i / 5 % 5,
    (ARRAY['STANDARD', 'SMALL', 'MEDIUM', 'LARGE', 'ECONOMY', 'PROMO'])[1 + (random() * 5)::int] || ' '
    || (ARRAY['ANODIZED', 'BURNISHED', 'PLATED', 'POLISHED', 'BRUSHED'])[1 + (random() * 4)::int] || ' '
    || (ARRAY['TIN', 'NICKEL', 'BRASS', 'STEEL', 'COPPER'])[1 + (random() * 4)::int], 1 + (random() * 49)::int,
    (ARRAY['SM', 'LG', 'MED', 'JUMBO', 'WRAP'])[1 + (random() * 4)::int] || ' '
    || (ARRAY['CASE', 'BOX', 'BAG', 'JAR', 'PKG', 'PACK', 'CAN', 'DRUM'])[1 + (random() * 7)::int], 900 + i % 1000, 'a part'
    FROM generate_series(1, 20000) i;
INSERT INTO partsupp SELECT p, 1 + (p + s * 250 + p / 1000) % 1000, (random() * 9998)::int + 1, random() * 999 + 1, repeat(md5(p::text), 4)
    FROM generate_series(1, 20000) p, generate_series(0, 3) s ON CONFLICT DO NOTHING;
INSERT INTO customer SELECT i, 'Customer#' || i, md5(i::text), (random() * 24)::int, (10 + (random() * 24)::int) || '-' || i,
    random() * 11000 - 1000, (ARRAY['AUTOMOBILE', 'BUILDING', 'FURNITURE', 'HOUSEHOLD', 'MACHINERY'])[1 + i % 5], repeat(md5(i::text), 2)
    FROM generate_series(1, 15000) i;
INSERT INTO orders SELECT (i / 8) * 32 + i % 8, 1 + (random() * 14999)::int / 3 * 3, (ARRAY['F', 'O', 'P'])[1 + (random() * 2)::int], random() * 400000 + 900,
    date '1992-01-01' + (random() * 2405)::int, (ARRAY['1-URGENT', '2-HIGH', '3-MEDIUM', '4-NOT SPECIFIED', '5-LOW'])[1 + (random() * 4)::int],
    'Clerk#' || i % 100, 0, md5(i::text) || ' a comment' FROM generate_series(1, 150000) i;
INSERT INTO lineitem SELECT o_orderkey, part, 1 + (part + n * 250 + part / 1000) % 1000, n, 1 + (random() * 49)::int, random() * 90000 + 900,
    (random() * 10)::int / 100.0, (random() * 8)::int / 100.0, (ARRAY['R', 'A', 'N'])[1 + (random() * 2)::int],
    (ARRAY['O', 'F'])[1 + (random())::int], ship, o_orderdate + 30 + (random() * 60)::int, ship + 1 + (random() * 29)::int,
    (ARRAY['DELIVER IN PERSON', 'COLLECT COD', 'NONE', 'TAKE BACK RETURN'])[1 + (random() * 3)::int],
    (ARRAY['REG AIR', 'AIR', 'RAIL', 'SHIP', 'TRUCK', 'MAIL', 'FOB'])[1 + (random() * 6)::int], substr(md5(o_orderkey::text), 1, 26)
    FROM (SELECT o_orderkey, o_orderdate, n, 1 + (random() * 19999)::int AS part, o_orderdate + 1 + (random() * 120)::int AS ship
        FROM orders, generate_series(1, 7) n WHERE random() < 0.5714 OR n = 1) AS made;
VACUUM ANALYZE;
