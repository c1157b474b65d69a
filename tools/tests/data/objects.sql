-- Objects that are awkward to index, to name or to read. Each has a comment with its number.
CREATE FUNCTION long_text(seed int, bytes int) RETURNS text LANGUAGE sql IMMUTABLE AS
$$ SELECT left(string_agg(md5(seed || ':' || g), ''), bytes) FROM generate_series(1, bytes / 32 + 1) g $$;
CREATE SCHEMA other;
CREATE SCHEMA "Odd "" schema";

-- 1 json
CREATE TABLE t_json (id int PRIMARY KEY, doc json);
INSERT INTO t_json SELECT g, json_build_object('a', g) FROM generate_series(1, 50) g;
-- 2 xml
CREATE TABLE t_xml (id int, doc xml);
INSERT INTO t_xml SELECT g, ('<a>' || g || '</a>')::xml FROM generate_series(1, 50) g;
-- 3 point
CREATE TABLE t_point (id int, at point);
INSERT INTO t_point SELECT g, point(g, g) FROM generate_series(1, 50) g;
-- 4 box, path, polygon, circle, line, lseg
CREATE TABLE t_shapes (id int, b box, p path, g polygon, c circle, l line, s lseg);
INSERT INTO t_shapes SELECT g, '((0,0),(1,1))', '((0,0),(1,1))', '((0,0),(1,1))', '<(0,0),1>', '{1,1,1}', '((0,0),(1,1))'
FROM generate_series(1, 50) g;
-- 5 jsonb
CREATE TABLE t_jsonb (id int, doc jsonb);
INSERT INTO t_jsonb SELECT g, jsonb_build_object('a', g) FROM generate_series(1, 50) g;
CREATE INDEX t_jsonb_gin ON t_jsonb USING gin (doc);
-- 6 text search
CREATE TABLE t_search (id int, words tsvector, query tsquery);
INSERT INTO t_search SELECT g, to_tsvector('simple', 'word ' || g), to_tsquery('simple', 'word') FROM generate_series(1, 50) g;
-- 7 bytea
CREATE TABLE t_bytea (id int, raw bytea);
INSERT INTO t_bytea SELECT g, decode(md5(g::text), 'hex') FROM generate_series(1, 50) g;
-- 8 uuid
CREATE TABLE t_uuid (id uuid PRIMARY KEY, other uuid);
INSERT INTO t_uuid SELECT md5(g::text)::uuid, md5(g::text || 'x')::uuid FROM generate_series(1, 50) g;
-- 9 addresses
CREATE TABLE t_net (a inet, c cidr, m macaddr, n macaddr8);
INSERT INTO t_net SELECT '10.0.0.1', '10.0.0.0/8', '08:00:2b:01:02:03', '08:00:2b:01:02:03:04:05' FROM generate_series(1, 50);
-- 10 bits
CREATE TABLE t_bits (b bit(12), v varbit(40), u varbit);
INSERT INTO t_bits SELECT 5::bit(12), B'101', B'1' FROM generate_series(1, 50);
-- 11 money, interval and times
CREATE TABLE t_time (m money, i interval, t time, z timetz);
INSERT INTO t_time SELECT 5::money, '1 day', '10:00', '10:00+1' FROM generate_series(1, 50);
-- 12 ranges and multiranges
CREATE TABLE t_range (r int4range, m nummultirange, d daterange);
INSERT INTO t_range SELECT int4range(1, g), nummultirange(numrange(1, g)), daterange('2024-01-01', '2024-02-01') FROM generate_series(2, 50) g;
-- 13 an enum
CREATE TYPE mood AS ENUM ('sad', 'ok', 'happy');
CREATE TABLE t_enum (id int, m mood);
INSERT INTO t_enum SELECT g, 'ok' FROM generate_series(1, 50) g;
-- 14 a composite type that has an order
CREATE TYPE pair AS (a int, b text);
CREATE TABLE t_pair (id int, p pair);
INSERT INTO t_pair SELECT g, (g, 'x')::pair FROM generate_series(1, 50) g;
-- 15 a composite type that has none
CREATE TYPE holder AS (a int, doc json);
CREATE TABLE t_holder (id int, h holder);
INSERT INTO t_holder SELECT g, (g, '{}')::holder FROM generate_series(1, 50) g;
-- 16 an array that has an order
CREATE TABLE t_array (id int, a int[], b text[][]);
INSERT INTO t_array SELECT g, ARRAY[g, g], ARRAY[['a', 'b']] FROM generate_series(1, 50) g;
-- 17 an array of a type that has none
CREATE TABLE t_points (id int, p point[], j json[]);
INSERT INTO t_points SELECT g, ARRAY[point(g, g)], ARRAY['{}'::json] FROM generate_series(1, 50) g;
-- 18 an array of composites that have none
CREATE TABLE t_holders (id int, h holder[]);
INSERT INTO t_holders SELECT g, ARRAY[(g, '{}')::holder] FROM generate_series(1, 50) g;
-- 19 a domain over json
CREATE DOMAIN document AS json;
CREATE TABLE t_document (id int, doc document);
INSERT INTO t_document SELECT g, '{}' FROM generate_series(1, 50) g;
-- 20 a domain over a domain over json
CREATE DOMAIN paper AS document NOT NULL;
CREATE TABLE t_paper (id int, doc paper);
INSERT INTO t_paper SELECT g, '{}' FROM generate_series(1, 50) g;
-- 21 a domain over a domain over int
CREATE DOMAIN natural_number AS int CHECK (VALUE >= 0);
CREATE DOMAIN small_number AS natural_number CHECK (VALUE < 1000);
CREATE TABLE t_small (id small_number, other natural_number);
INSERT INTO t_small SELECT g, g FROM generate_series(1, 50) g;
-- 22 a domain over an array of a type that has no order
CREATE DOMAIN outline AS point[];
CREATE TABLE t_outline (id int, o outline);
INSERT INTO t_outline SELECT g, ARRAY[point(g, g)]::outline FROM generate_series(1, 50) g;
-- 23 an array of a domain over json
CREATE TABLE t_papers (id int, docs document[]);
INSERT INTO t_papers SELECT g, ARRAY['{}'::document] FROM generate_series(1, 50) g;
-- 24 numbers of transactions
CREATE TABLE t_xid (x xid, c cid, y xid8, s pg_snapshot, l pg_lsn);
INSERT INTO t_xid SELECT '5', '5', '5', '10:20:10,14', '16/B374D848' FROM generate_series(1, 50);
-- 25 names and single characters
CREATE TABLE t_name (n name, c "char", b bpchar, v char(300));
INSERT INTO t_name SELECT 'a', 'b', 'c', 'd' FROM generate_series(1, 50);
-- 26 object identifiers
CREATE TABLE t_oid (o oid, r regclass, t regtype, p regproc, v oidvector, w int2vector);
INSERT INTO t_oid SELECT 5, 'pg_class', 'int4', 'now', '1 2', '1 2' FROM generate_series(1, 50);
-- 27 places of rows
CREATE TABLE t_tid (t tid);
INSERT INTO t_tid SELECT '(0,1)' FROM generate_series(1, 50);
-- 28 numbers without a limit
CREATE TABLE t_numeric (n numeric, p numeric(30, 4), r real, d double precision);
INSERT INTO t_numeric SELECT 'NaN', 5, 'Infinity', '-Infinity' FROM generate_series(1, 50);
-- 29 numbers of many digits
CREATE TABLE t_digits (id int, n numeric);
INSERT INTO t_digits SELECT g, (repeat('7', 9000))::numeric FROM generate_series(1, 20) g;
-- 30 days beyond the calendar
CREATE TABLE t_days (d date, t timestamp, z timestamptz);
INSERT INTO t_days SELECT '4000-01-01 BC', 'infinity', '-infinity' FROM generate_series(1, 50);
-- 31 long texts, out of line
CREATE TABLE t_long (id int, title text, body text);
INSERT INTO t_long SELECT g, 'title ' || g, long_text(g, 6000) FROM generate_series(1, 60) g;
-- 32 long texts, out of line and not compressed
CREATE TABLE t_external (id int, body text);
ALTER TABLE t_external ALTER body SET STORAGE EXTERNAL;
INSERT INTO t_external SELECT g, long_text(g, 3000) FROM generate_series(1, 60) g;
-- 33 long texts that stay in line
CREATE TABLE t_main (id int, body text);
ALTER TABLE t_main ALTER body SET STORAGE MAIN;
INSERT INTO t_main SELECT g, long_text(g, 5000) FROM generate_series(1, 60) g;
-- 34 texts that a plain storage keeps whole
CREATE TABLE t_plain (id int, body text);
ALTER TABLE t_plain ALTER body SET STORAGE PLAIN;
INSERT INTO t_plain SELECT g, long_text(g, 3500) FROM generate_series(1, 60) g;
-- 35 long texts that shrink to little
CREATE TABLE t_shrunk (id int, body text);
INSERT INTO t_shrunk SELECT g, repeat('a', 9000) || g FROM generate_series(1, 60) g;
-- 36 a table that keeps long values in line
CREATE TABLE t_target (id int, body text) WITH (toast_tuple_target = 8000);
INSERT INTO t_target SELECT g, long_text(g, 4500) FROM generate_series(1, 60) g;
-- 37 columns of which each fits, but not all
CREATE TABLE t_together (id int, a text, b text, c text, d text);
INSERT INTO t_together SELECT g, long_text(g, 1200), long_text(g + 100, 1200), long_text(g + 200, 1200), 'd' FROM generate_series(1, 60) g;
-- 38 one long value among many short ones
CREATE TABLE t_rare (id int, note text);
INSERT INTO t_rare SELECT g, 'short' FROM generate_series(1, 500) g;
INSERT INTO t_rare SELECT 501, long_text(1, 50000);
-- 39 long values that are indexed as they are, since they fit
CREATE TABLE t_indexed (id int, address text);
INSERT INTO t_indexed SELECT g, long_text(g, 1500) FROM generate_series(1, 60) g;
CREATE INDEX t_indexed_address ON t_indexed (address);
-- 40 long json, whose column an index includes
CREATE TABLE t_included (id int, doc json);
INSERT INTO t_included SELECT g, json_build_object('a', g) FROM generate_series(1, 50) g;
CREATE UNIQUE INDEX t_included_both ON t_included (id) INCLUDE (doc);
-- 41 a limit of characters that is over a third of a page
CREATE TABLE t_limit (id int, a varchar(5000), b varchar(600));
INSERT INTO t_limit SELECT g, 'a', 'b' FROM generate_series(1, 50) g;
-- 42 columns that are generated, counted and dropped
CREATE TABLE t_made (id int GENERATED ALWAYS AS IDENTITY, gone int, twice int GENERATED ALWAYS AS (2 * kept) STORED, kept int);
ALTER TABLE t_made DROP gone;
INSERT INTO t_made (kept) SELECT g FROM generate_series(1, 50) g;
-- 43 more columns than a catalogue has
DO $$ BEGIN
    EXECUTE 'CREATE TABLE t_wide (doc json, ' || (SELECT string_agg('c' || g || ' int', ', ') FROM generate_series(1, 240) g) || ')';
END $$;
INSERT INTO t_wide (doc, c1, c240) SELECT '{}', g, g FROM generate_series(1, 50) g;
-- 44 a table that others inherit from
CREATE TABLE t_parent (id int, kind text);
CREATE INDEX t_parent_id ON t_parent (id);
INSERT INTO t_parent SELECT g, 'p' FROM generate_series(1, 50) g;
-- 45 one that inherits, with columns of its own
CREATE TABLE t_child (extra int, kind text, id int);
ALTER TABLE t_child INHERIT t_parent;
INSERT INTO t_child SELECT g, 'c', g FROM generate_series(1, 300) g;
-- 46 one that inherits from that, in another schema
CREATE TABLE other.t_grandchild () INHERITS (t_child);
CREATE INDEX ON other.t_grandchild (id);
INSERT INTO other.t_grandchild SELECT g, 'g', g FROM generate_series(1, 600) g;
-- 47 a table in partitions, with one for all else
CREATE TABLE t_parts (id int, at date, doc json) PARTITION BY RANGE (at);
CREATE TABLE t_parts_1 PARTITION OF t_parts FOR VALUES FROM ('2024-01-01') TO ('2025-01-01');
CREATE TABLE t_parts_rest PARTITION OF t_parts DEFAULT;
INSERT INTO t_parts SELECT g, date '2024-06-01' + g * 10, '{}' FROM generate_series(1, 100) g;
-- 48 one whose partition is in partitions, in another schema
CREATE TABLE t_deep (id int, kind int) PARTITION BY LIST (kind);
CREATE TABLE other.t_deep_1 PARTITION OF t_deep FOR VALUES IN (1) PARTITION BY HASH (id);
CREATE TABLE other.t_deep_1_0 PARTITION OF other.t_deep_1 FOR VALUES WITH (MODULUS 2, REMAINDER 0);
CREATE TABLE t_deep_1_1 PARTITION OF other.t_deep_1 FOR VALUES WITH (MODULUS 2, REMAINDER 1);
INSERT INTO t_deep SELECT g, 1 FROM generate_series(1, 100) g;
-- 49 one without a partition
CREATE TABLE t_no_part (id int, at date) PARTITION BY RANGE (at);
-- 50 one with long values in a partition
CREATE TABLE t_long_parts (id int, body text) PARTITION BY RANGE (id);
CREATE TABLE t_long_parts_1 PARTITION OF t_long_parts FOR VALUES FROM (0) TO (10);
CREATE TABLE t_long_parts_2 PARTITION OF t_long_parts FOR VALUES FROM (10) TO (1000);
INSERT INTO t_long_parts SELECT g, CASE WHEN g < 10 THEN long_text(g, 4000) ELSE 'short' END FROM generate_series(1, 300) g;
-- 51 the same name in two schemas
CREATE TABLE twice (id int, a int);
CREATE TABLE other.twice (id int, b text);
INSERT INTO twice SELECT g, g FROM generate_series(1, 50) g;
INSERT INTO other.twice SELECT g, 'b' FROM generate_series(1, 50) g;
-- 52 mixed letters, blanks and reserved words
CREATE TABLE "Mixed Case" ("select" int, "Order" int, "order" int, "a b" text);
INSERT INTO "Mixed Case" SELECT g, g, g, 'x' FROM generate_series(1, 50) g;
-- 53 names of 63 bytes
CREATE TABLE abcdefghijklmnopqrstuvwxyz_abcdefghijklmnopqrstuvwxyz_123456789 (
    abcdefghijklmnopqrstuvwxyz_abcdefghijklmnopqrstuvwxyz_123456789 int,
    abcdefghijklmnopqrstuvwxyz_abcdefghijklmnopqrstuvwxyz_123456780 int);
INSERT INTO abcdefghijklmnopqrstuvwxyz_abcdefghijklmnopqrstuvwxyz_123456789 SELECT g, g FROM generate_series(1, 50) g;
-- 54 names of 63 bytes in which a character takes three
CREATE TABLE "表表表表表表表表表表表表表表表表表表表表表" ("列列列列列列列列列列列列列列列列列列列列列" int, "列列列列列列列列列列列列列列列列列列列列行" int, "é" text);
INSERT INTO "表表表表表表表表表表表表表表表表表表表表表" SELECT g, g, 'x' FROM generate_series(1, 50) g;
-- 55 names with quotes and backslashes
CREATE TABLE "a""b'c\d" ("x""y" int, "x'y" int, "\!" int);
INSERT INTO "a""b'c\d" SELECT g, g, g FROM generate_series(1, 50) g;
-- 56 names with line ends, signs of formats and of variables
CREATE TABLE "line
end -- %s :v" ("%s" int, ":v" int, "$1" int, "
\! touch" int, "/*" int, ";" int);
INSERT INTO "line
end -- %s :v" SELECT g, g, g, g, g, g FROM generate_series(1, 50) g;
-- 57 an odd schema
CREATE TABLE "Odd "" schema"."Odd "" table" (id int, "😀" int);
INSERT INTO "Odd "" schema"."Odd "" table" SELECT g, g FROM generate_series(1, 50) g;
-- 58 names that a new index would have
CREATE TABLE clash (id int, name text);
INSERT INTO clash SELECT g, 'x' FROM generate_series(1, 50) g;
CREATE INDEX clash_id_idx ON clash (id) WHERE id > 10;
CREATE INDEX clash_name_idx ON clash (lower(name));
CREATE VIEW clash_id_1_idx AS SELECT 1 AS one;
CREATE SEQUENCE clash_name_1_idx;
-- 59 a materialized view
CREATE MATERIALIZED VIEW m_full AS SELECT id, doc, long_text(id, 4000) AS body FROM t_json;
-- 60 one that isn't filled
CREATE MATERIALIZED VIEW m_empty AS SELECT id, doc FROM t_json WITH NO DATA;
-- 61 an unlogged table
CREATE UNLOGGED TABLE t_unlogged (id int, v int);
INSERT INTO t_unlogged SELECT g, g FROM generate_series(1, 50) g;
-- 62 a table with policies
CREATE TABLE t_policy (id int, secret text);
INSERT INTO t_policy SELECT g, long_text(g, 5000) FROM generate_series(1, 50) g;
ALTER TABLE t_policy ENABLE ROW LEVEL SECURITY;
CREATE POLICY p ON t_policy USING (id > 10);
-- 63 a foreign table, and a table with one as a partition
CREATE EXTENSION file_fdw;
CREATE SERVER files FOREIGN DATA WRAPPER file_fdw;
CREATE FOREIGN TABLE f_away (id int, v text) SERVER files OPTIONS (filename '/dev/null');
CREATE TABLE t_half (id int, v text) PARTITION BY RANGE (id);
CREATE TABLE t_half_here PARTITION OF t_half FOR VALUES FROM (0) TO (1000);
CREATE FOREIGN TABLE f_half PARTITION OF t_half FOR VALUES FROM (1000) TO (2000) SERVER files OPTIONS (filename '/dev/null');
INSERT INTO t_half SELECT g, 'x' FROM generate_series(1, 50) g;
-- 64 a foreign table that inherits
CREATE TABLE t_far (id int, v text);
CREATE FOREIGN TABLE f_far () INHERITS (t_far) SERVER files OPTIONS (filename '/dev/null');
INSERT INTO t_far SELECT g, 'x' FROM generate_series(1, 50) g;
-- 65 a typed table
CREATE TABLE t_typed OF pair;
INSERT INTO t_typed SELECT g, 'x' FROM generate_series(1, 50) g;
-- 66 a table without a column, and one of no rows
CREATE TABLE t_bare ();
CREATE TABLE t_fresh (id int, body text);
-- 67 collations
CREATE COLLATION folded (provider = icu, locale = 'und-u-ks-level2', deterministic = false);
CREATE TABLE t_collated (a text COLLATE "C", b text COLLATE "und-x-icu", c text COLLATE folded);
INSERT INTO t_collated SELECT 'a' || g, 'b' || g, 'c' || g FROM generate_series(1, 50) g;
-- 68 indexes that give another order
CREATE TABLE t_orders (id int, a text COLLATE "und-x-icu", b int, c int);
INSERT INTO t_orders SELECT g, 'a' || g, g, g FROM generate_series(1, 50) g;
CREATE INDEX t_orders_down ON t_orders (b DESC, c);
CREATE INDEX t_orders_like ON t_orders (a text_pattern_ops);
CREATE INDEX t_orders_other ON t_orders (a COLLATE "C");
CREATE INDEX t_orders_second ON t_orders (c, a COLLATE "C", b);
-- 69 constraints that make indexes
CREATE TABLE t_bound (id int UNIQUE DEFERRABLE, r int4range, EXCLUDE USING gist (r WITH &&));
INSERT INTO t_bound SELECT g, int4range(g, g + 1) FROM generate_series(1, 50) g;
-- 70 views: plain, with a check, recursive
CREATE VIEW v_plain AS SELECT id, doc FROM t_json;
CREATE VIEW v_check AS SELECT id FROM t_json WHERE id > 5 WITH CHECK OPTION;
CREATE RECURSIVE VIEW v_recursive (n) AS SELECT 1 UNION ALL SELECT n + 1 FROM v_recursive WHERE n < 5;
-- 71 a table of a session, which is gone
CREATE TEMP TABLE t_gone (id int, doc json);

ANALYZE;
