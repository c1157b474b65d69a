"""The queries over the catalogs of a server. Nothing in them calls what a user made."""
from __future__ import annotations

OWN = "n.nspname NOT IN ('pg_catalog', 'information_schema') AND n.nspname !~ '^pg_(toast|temp_)'"

TABLES = f"""
SELECT c.oid::int8, n.nspname::text, c.relname::text, c.relkind::text, c.reltuples::float8, c.relpages::int8,
       CASE WHEN c.relispartition THEN pg_catalog.pg_partition_root(c.oid)::oid::int8 END,
       coalesce(pg_catalog.array_to_string(c.reloptions, ',') ~ 'toast_tuple_target', false)
FROM pg_catalog.pg_class c JOIN pg_catalog.pg_namespace n ON n.oid = c.relnamespace
WHERE c.relkind IN ('r', 'm', 'p', 'v', 'f') AND {OWN}
ORDER BY n.nspname, c.relname"""
INHERITS = """
SELECT i.inhparent::int8, i.inhrelid::int8
FROM pg_catalog.pg_inherits i JOIN pg_catalog.pg_class p ON p.oid = i.inhparent
WHERE p.relkind = 'r' ORDER BY i.inhparent, i.inhrelid"""
SIZES = """
SELECT c.oid::int8, pg_catalog.pg_relation_size(c.oid) / pg_catalog.current_setting('block_size')::int8,
       coalesce(pg_catalog.pg_relation_size(nullif(c.reltoastrelid, 0)), 0)
FROM pg_catalog.pg_class c WHERE c.oid = ANY(%s::oid[])"""
VIEWS = """
SELECT c.oid::int8, pg_catalog.pg_get_viewdef(c.oid) FROM pg_catalog.pg_class c WHERE c.oid = ANY(%s::oid[])"""
DOMAINS = "SELECT oid::int8, typbasetype::int8, typtypmod::int4 FROM pg_catalog.pg_type WHERE typtype = 'd'"
TYPES = """
SELECT oid::int8, typlen::int4, CASE WHEN typnamespace = 'pg_catalog'::regnamespace THEN typname::text ELSE '' END
FROM pg_catalog.pg_type WHERE oid = ANY(%s::oid[])"""
COLUMNS = f"""
SELECT a.attrelid::int8, a.attnum::int4, a.attname::text, a.atttypid::int8, a.atttypmod::int4, a.attstorage::text,
       a.attgenerated::text = 'v'
FROM pg_catalog.pg_attribute a JOIN pg_catalog.pg_class c ON c.oid = a.attrelid
JOIN pg_catalog.pg_namespace n ON n.oid = c.relnamespace
WHERE a.attnum > 0 AND NOT a.attisdropped AND c.relkind IN ('r', 'm', 'p') AND NOT c.relispartition AND {OWN}
ORDER BY a.attrelid, a.attnum"""
STATS = f"""
SELECT c.oid::int8, s.attname::text, s.n_distinct::float8, s.avg_width::int4, s.correlation::float8,
       CASE WHEN a.atttypid = ANY(%s::oid[]) THEN s.most_common_vals::text::text[] END,
       CASE WHEN a.atttypid = ANY(%s::oid[]) THEN s.histogram_bounds::text::text[] END, s.inherited,
       s.most_common_freqs::float8[], s.null_frac::float8,
       CASE WHEN a.atttypid = ANY(%s::oid[]) THEN ARRAY(SELECT pg_catalog.octet_length(it)
           FROM unnest(s.most_common_vals::text::text[]) WITH ORDINALITY l(it, at) ORDER BY at) END,
       CASE WHEN a.atttypid = ANY(%s::oid[]) THEN ARRAY(SELECT pg_catalog.octet_length(it)
           FROM unnest(s.histogram_bounds::text::text[]) it) END
FROM pg_catalog.pg_stats s JOIN pg_catalog.pg_namespace n ON n.nspname = s.schemaname
JOIN pg_catalog.pg_class c ON c.relnamespace = n.oid AND c.relname = s.tablename
JOIN pg_catalog.pg_attribute a ON a.attrelid = c.oid AND a.attname = s.attname
WHERE NOT c.relispartition AND {OWN}
ORDER BY s.inherited"""
NAMES = f"""
SELECT c.relname::text FROM pg_catalog.pg_class c JOIN pg_catalog.pg_namespace n ON n.oid = c.relnamespace
WHERE {OWN} AND c.relname ~* '_idx$' ORDER BY 1"""
INDEXES = f"""
SELECT i.indrelid::int8, x.relname::text, m.amname::text, i.indisunique, i.indisvalid AND i.indisready,
       i.indpred IS NOT NULL, i.indexprs IS NOT NULL, i.indisclustered, i.indnkeyatts::int4, i.indkey::int2[]::int4[],
       i.indoption::int2[]::int4[],
       ARRAY(SELECT CASE WHEN a.attcollation <> l.coll THEN 'other'
                 WHEN EXISTS (SELECT FROM pg_catalog.pg_opclass d
                     WHERE d.opcmethod = o.opcmethod AND d.opcfamily = o.opcfamily AND d.opcdefault) THEN 'ordinary'
                 WHEN o.opcname::text !~ '_pattern_ops$' THEN 'other'
                 WHEN l.coll IN (950, 951) OR (l.coll = 100 AND EXISTS (SELECT FROM pg_catalog.pg_database b
                     WHERE b.datname = pg_catalog.current_database() AND b.datcollate IN ('C', 'POSIX'))) THEN 'ordinary'
                 ELSE 'pattern' END
             FROM unnest(i.indclass::oid[], i.indcollation::oid[]) WITH ORDINALITY l(class, coll, at)
             JOIN pg_catalog.pg_opclass o ON o.oid = l.class
             LEFT JOIN pg_catalog.pg_attribute a ON a.attrelid = i.indrelid AND a.attnum = i.indkey[l.at::int4 - 1]
             ORDER BY l.at)
FROM pg_catalog.pg_index i JOIN pg_catalog.pg_class x ON x.oid = i.indexrelid JOIN pg_catalog.pg_am m ON m.oid = x.relam
JOIN pg_catalog.pg_class c ON c.oid = i.indrelid JOIN pg_catalog.pg_namespace n ON n.oid = c.relnamespace
WHERE NOT c.relispartition AND {OWN}
ORDER BY i.indrelid, x.relname"""
"""The last column has for each key whether its operator class is an ordinary one of its column. In the collation C the
order of a pattern's operator class is the ordinary one."""
_IS_ARRAY = (
    "t.typtype = 'b' AND t.typlen = -1 AND t.typelem <> 0 AND t.typsubscript = 'array_subscript_handler'::regproc"
)
ORDERS = f"""
SELECT t.oid::int8, pg_catalog.format_type(t.oid, NULL), t.typtype::text,
       CASE WHEN {_IS_ARRAY} THEN ARRAY[t.typelem::int8]
            WHEN t.typtype = 'c' THEN ARRAY(SELECT a.atttypid::int8 FROM pg_catalog.pg_attribute a
                WHERE a.attrelid = t.typrelid AND a.attnum > 0 AND NOT a.attisdropped) END,
       EXISTS (
           SELECT FROM pg_catalog.pg_opclass o JOIN pg_catalog.pg_am m ON m.oid = o.opcmethod
           WHERE m.amname = 'btree' AND o.opcdefault AND (o.opcintype = t.oid OR EXISTS (
               SELECT FROM pg_catalog.pg_cast k WHERE k.castsource = t.oid AND k.casttarget = o.opcintype
               AND k.castmethod = 'b' AND k.castcontext = 'i')))
FROM pg_catalog.pg_type t WHERE t.oid = ANY(%s::oid[])"""
"""For types that are no domains: their parts where they have any, and whether they have an operator class themselves.
PostgreSQL 14 is the first with typsubscript."""
BEFORE_14 = (" AND t.typsubscript = 'array_subscript_handler'::regproc", "")
