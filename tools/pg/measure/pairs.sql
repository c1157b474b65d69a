-- Queries over the tables of tpch.sql, each with one index that may help it, named in the comment before it.
-- index lineitem l_shipdate
SELECT sum(l_extendedprice) FROM lineitem WHERE l_shipdate = date '1995-06-17';
-- index lineitem l_shipdate
SELECT sum(l_extendedprice) FROM lineitem WHERE l_shipdate BETWEEN date '1995-06-01' AND date '1995-06-07';
-- index lineitem l_shipdate
SELECT sum(l_extendedprice * l_discount) FROM lineitem WHERE l_shipdate >= date '1994-01-01' AND l_shipdate < date '1995-01-01' AND l_quantity < 24;
-- index lineitem l_shipdate, l_discount, l_quantity, l_extendedprice
SELECT sum(l_extendedprice * l_discount) FROM lineitem WHERE l_shipdate >= date '1994-01-01' AND l_shipdate < date '1995-01-01' AND l_quantity < 24;
-- index lineitem l_partkey
SELECT avg(l_quantity) FROM lineitem WHERE l_partkey = 4711;
-- index lineitem l_partkey
SELECT l_orderkey FROM lineitem WHERE l_partkey IN (1, 2, 3, 4, 5, 6, 7, 8, 9, 10);
-- index lineitem l_suppkey
SELECT count(*), max(l_tax) FROM lineitem WHERE l_suppkey = 17;
-- index lineitem l_suppkey
SELECT l_suppkey, count(*) FROM lineitem GROUP BY l_suppkey;
-- index lineitem l_returnflag
SELECT sum(l_tax) FROM lineitem WHERE l_returnflag = 'R';
-- index lineitem l_shipmode, l_receiptdate
SELECT count(l_tax) FROM lineitem WHERE l_shipmode = 'MAIL' AND l_receiptdate BETWEEN date '1994-01-01' AND date '1994-03-31';
-- index orders o_orderdate
SELECT o_orderkey, o_totalprice FROM orders WHERE o_orderdate = date '1996-02-29';
-- index orders o_orderdate
SELECT o_orderpriority, count(*) FROM orders WHERE o_orderdate >= date '1993-07-01' AND o_orderdate < date '1993-10-01' GROUP BY o_orderpriority;
-- index orders o_orderdate, o_orderpriority
SELECT o_orderpriority, count(*) FROM orders WHERE o_orderdate >= date '1993-07-01' AND o_orderdate < date '1993-10-01' GROUP BY o_orderpriority;
-- index orders o_custkey
SELECT o_orderkey, o_totalprice FROM orders WHERE o_custkey = 370;
-- index orders o_custkey
SELECT c_name, o_totalprice FROM customer, orders WHERE c_custkey = o_custkey AND c_custkey = 370;
-- index orders o_custkey
SELECT c_mktsegment, sum(o_totalprice) FROM customer, orders WHERE c_custkey = o_custkey GROUP BY c_mktsegment;
-- index orders o_totalprice
SELECT o_orderkey FROM orders WHERE o_totalprice > 395000 ORDER BY o_totalprice;
-- index orders o_totalprice
SELECT o_orderkey FROM orders ORDER BY o_totalprice DESC LIMIT 10;
-- index customer c_mktsegment
SELECT c_custkey, c_name FROM customer WHERE c_mktsegment = 'BUILDING';
-- index customer c_nationkey, c_acctbal
SELECT c_custkey, c_name FROM customer WHERE c_nationkey = 7 AND c_acctbal > 9500;
-- index customer c_name
SELECT c_custkey FROM customer WHERE c_name = 'Customer#4711';
-- index part p_brand, p_container
SELECT p_partkey, p_size FROM part WHERE p_brand = 'Brand#23' AND p_container = 'MED BOX';
-- index part p_size
SELECT p_partkey, p_name FROM part WHERE p_size = 15;
-- index lineitem l_partkey
SELECT sum(l_extendedprice) FROM lineitem, part WHERE p_partkey = l_partkey AND p_brand = 'Brand#23' AND p_container = 'MED BOX';
-- index lineitem l_orderkey, l_extendedprice
SELECT sum(l_extendedprice) FROM orders, lineitem WHERE o_orderkey = l_orderkey AND o_orderdate = date '1996-02-29';
-- index partsupp ps_suppkey
SELECT ps_partkey, ps_supplycost FROM partsupp, supplier WHERE ps_suppkey = s_suppkey AND s_name = 'Supplier#17';
-- index partsupp ps_suppkey, ps_supplycost, ps_partkey
SELECT ps_partkey, min(ps_supplycost) FROM partsupp WHERE ps_suppkey = 17 GROUP BY ps_partkey;
-- index lineitem l_commitdate
SELECT l_orderkey FROM lineitem WHERE l_commitdate < date '1992-02-15';
