"""What is the same in each script of `ddl --script`: settings, refusals, and prepared statements whose rows psql runs."""
from __future__ import annotations

from cophy_pg.server import OWN

BRIEF, PATIENT = "5s", "30min"

IS_VALID = "i.indisvalid AND i.indisready"
IS_PLAIN = "i.indisvalid>=i.indisunique AND i.indpred IS NULL"
IS_BEING_MADE = "EXISTS(SELECT FROM pg_stat_progress_create_index WHERE index_relid=i.indexrelid)"
COLUMNS = """ARRAY(
        SELECT coalesce(a.attname::text,regexp_replace(pg_get_indexdef(i.indexrelid,k.at::int4,true),'::text[)]$',')'),'')
        FROM unnest(i.indkey::int2[]) WITH ORDINALITY k(number, at)
        LEFT JOIN pg_attribute a ON a.attrelid = i.indrelid AND a.attnum = k.number ORDER BY k.at)"""
"""How an index `i` of pg_index stands, to the script and to `effect`: one that isn't plain is partial, or was to be unique
and is INVALID, which no script leaves. A function of a column is shown without the cast to text that PostgreSQL has there."""
_STATE = f"""SELECT count(*) FILTER (WHERE NOT is_it) > 0 AS is_other, count(*) FILTER (WHERE is_it AND is_valid) > 0 AS is_there,
    count(*) FILTER (WHERE is_it AND NOT is_valid) > 0 AS is_invalid,
    count(*) FILTER (WHERE is_it AND (NOT is_valid OR mark = :'mark')) > 0 AS is_own
FROM (
    SELECT {IS_VALID} AS is_valid, obj_description(c.oid, 'pg_class') AS mark,
        coalesce((m.nspname,t.relname,c.relam)=($1,$3,403) AND {IS_PLAIN}
        AND NOT {IS_BEING_MADE} AND $4={COLUMNS}, false) AS is_it
    FROM pg_class c JOIN pg_namespace n ON n.oid = c.relnamespace LEFT JOIN pg_index i ON i.indexrelid = c.oid
    LEFT JOIN pg_class t ON t.oid = i.indrelid LEFT JOIN pg_namespace m ON m.oid = t.relnamespace
    WHERE (n.nspname,c.relname)=($1,$2)) found"""
"""Whether an index is there, and as what: its schema, its name, its table and its columns, or its function of one, are
the parameters. Another are one that isn't plain, one that is no B-tree (that is 403 on each server), and what another
session is making."""
BEGIN = f"""\\set QUIET on
\\set ON_ERROR_STOP on
\\set AUTOCOMMIT on
\\pset tuples_only on
\\pset format unaligned
\\pset pager off
SET search_path TO pg_catalog, pg_temp;
SET standard_conforming_strings TO on;
SET statement_timeout TO 0;
SET client_min_messages TO warning;
SET cophy.fault TO '';
SELECT :{{?undo}} AS is_undo \\gset
\\if :{{?without}}
\\else
    \\set without ''
\\endif
\\set asked :without
\\if :{{?all}}
\\elif :is_undo
\\else
    \\set without :without ',UNADVISED'
\\endif
-- What is made here is marked, so that nothing else is dropped.
\\set mark 'MARK'
-- An index that another run is making looks like one that was left INVALID.
SELECT pg_try_advisory_lock(1668247673, 1) AS is_alone \\gset
\\if :is_alone
\\else
    DO 'BEGIN RAISE EXCEPTION ''another run of such a script is going on in this database''; END';
\\endif
-- What locks out writers gives up soon, so that nobody has to queue behind it; what is CONCURRENTLY waits for the transactions
-- of others, and holds nobody up.
\\set brief '{BRIEF}'
\\set patient '{PATIENT}'
SET lock_timeout TO :'patient';
"""
INDEX = f"""-- What is left to do for an index: it is made, or dropped with -v undo=1. Nothing once another could not be made.
PREPARE cophy_index (text, text, text, text[], int, text, text, text) AS {OWN}
WITH index AS (
{_STATE}
), asked AS (
    SELECT *, format('%I.%I', $1, $2) AS name, $5::text = ANY (string_to_array(replace(:'without', ' ', ''), ',')) AS is_out FROM index
), todo AS (
    SELECT *, NOT is_out AND NOT :'is_undo' AS is_in, NOT is_out AND NOT :'is_undo' AND NOT is_there AND NOT is_other AS is_new,
        NOT is_out AND :'is_undo' AS is_back, format('%s: %s ', $5, regexp_replace($2, '[^A-Za-z0-9_]', '?', 'g')) AS told FROM asked
)
SELECT '{OWN} ' || step FROM todo, LATERAL (VALUES
    (1, $7 <> '' AND NOT is_out AND NOT :'is_undo', format('SELECT %L', format('%s: %s, %s', $5, $6, $7))),
    (2, is_in AND is_there, 'SELECT ''it is there already'''),
    (3, is_in AND is_other, format('SET cophy.fault TO %L', format('the index %s can not be made: its name is taken by another', $6))),
    (4, is_new AND is_invalid, 'SELECT ''an earlier run left it INVALID, so it is dropped first'''),
    (5, is_new AND is_invalid OR is_back AND is_own, format('DROP INDEX CONCURRENTLY %s', name)),
    (6, is_new, $8),
    (7, is_new, format('DO %L', format('DECLARE is_valid bool := (SELECT indisvalid AND indisready FROM pg_index WHERE indexrelid = '
        'to_regclass(%1$L)); BEGIN IF is_valid THEN COMMENT ON INDEX %1$s IS %2$L; ELSE PERFORM set_config(%3$L, %4$L, false); '
        'END IF; IF NOT is_valid THEN RAISE WARNING %5$L; END IF; END', name, :'mark', 'cophy.fault',
        format('the index %s was not made: run the script again, or with -v undo=1', $6),
        'it is left INVALID: it serves no query, and each write pays for it'))),
    (8, is_back AND is_own, format('SELECT %L', told || 'is dropped')),
    (9, is_back AND is_there AND NOT is_own, format('SELECT %L', told || 'stays: this script did not make it'))
) steps (at, is_asked, step) WHERE is_asked AND current_setting('cophy.fault') = '' ORDER BY at;
"""
GO_ON, STOP = "\\set ON_ERROR_STOP :is_undo", "\\set ON_ERROR_STOP on"
"""What is made goes on to where a fault is told; what is dropped stops."""
TELL = """DO 'BEGIN IF current_setting(''cophy.fault'') <> '''' THEN RAISE EXCEPTION ''%'', current_setting(''cophy.fault''); END IF; END';"""
"""Ends the script with what wasn't made."""
PASSED = f"""PREPARE cophy_passed (int[]) AS {OWN}
SELECT 'not made: '||string_agg(number::text,', ') FROM unnest($1) number
WHERE NOT :'is_undo' AND number::text=ANY(string_to_array(replace(:'asked',' ',''),',')) HAVING count(*)>0;
"""
"""Names the numbers that were to be passed over."""
STATE = f"PREPARE cophy_state (text, text, text, text[]) AS {OWN}\n{_STATE};\n"
# Each part of a partitioned table with its index and that of the part above, by names of at most 63 bytes.
PARTS = f"""PREPARE cophy_parts (int, text, text, text, text) AS {OWN}
WITH tree AS (
    SELECT p.relid, p.parentrelid, p.level, n.nspname, c.relname, c.relkind, c.relnamespace, CASE WHEN p.level = 0 THEN $4
        ELSE CASE WHEN octet_length(c.relname::text) = length(c.relname) THEN left(c.relname, 24) ELSE 'part' END
            || '_' || left($4, 20) || '_' || left(encode(sha256(convert_to($4, 'UTF8')), 'hex'), 6) || '_' || c.oid::text END AS index
    FROM pg_partition_tree((SELECT t.oid FROM pg_class t JOIN pg_namespace s ON s.oid = t.relnamespace
        WHERE s.nspname = $2 AND t.relname = $3)) p
    JOIN pg_class c ON c.oid = p.relid JOIN pg_namespace n ON n.oid = c.relnamespace WHERE c.relkind IN ('r', 'p')
), parts AS (
    SELECT t.*, i.indexrelid, i.indisvalid AND i.indisready AS is_valid, u.nspname AS upper, u.index AS upper_index,
        EXISTS (SELECT FROM pg_inherits h WHERE h.inhrelid = i.indexrelid) AS is_attached
    FROM tree t LEFT JOIN tree u ON u.relid = t.parentrelid
    LEFT JOIN pg_class x ON x.relname = t.index AND x.relnamespace = t.relnamespace
    LEFT JOIN pg_index i ON i.indexrelid = x.oid AND i.indrelid = t.relid
)
SELECT '{OWN} ' || CASE $1
    WHEN 0 THEN format('SELECT %L', format('an earlier run left that of %s INVALID, so it is dropped first',
        regexp_replace(relname, '[^A-Za-z0-9_]', '?', 'g')))
    WHEN 1 THEN format('DROP INDEX CONCURRENTLY %I.%I', nspname, index)
    WHEN 2 THEN format('CREATE INDEX %I ON ONLY %I.%I %s', index, nspname, relname, $5)
    WHEN 3 THEN format('CREATE INDEX CONCURRENTLY %I ON %I.%I %s', index, nspname, relname, $5)
    WHEN 4 THEN format('ALTER INDEX %I.%I ATTACH PARTITION %I.%I', upper, upper_index, nspname, index)
    ELSE format('DROP INDEX CONCURRENTLY %I.%I', nspname, index) END
FROM parts
WHERE CASE $1
    WHEN 0 THEN relkind = 'r' AND NOT is_valid
    WHEN 1 THEN relkind = 'r' AND NOT is_valid
    WHEN 2 THEN relkind = 'p' AND indexrelid IS NULL
    WHEN 3 THEN relkind = 'r' AND indexrelid IS NULL
    WHEN 4 THEN level > 0 AND indexrelid IS NOT NULL AND NOT is_attached
    ELSE relkind = 'r' AND indexrelid IS NOT NULL AND NOT is_attached END
ORDER BY CASE $1 WHEN 4 THEN -level ELSE level END, nspname, relname;
"""
"""The steps of a partitioned table, by their numbers: what an earlier run left INVALID is told and then dropped,
the indexes of what has parts are made alone, those of the parts, and these are attached; the fifth drops what isn't
attached."""
LAID = f"""PREPARE cophy_laid (text, text, text) AS {OWN}
SELECT count(*) > 0 AS is_laid FROM pg_index i JOIN pg_class x ON x.oid = i.indexrelid
JOIN pg_class t ON t.oid = i.indrelid JOIN pg_namespace n ON n.oid = t.relnamespace
WHERE i.indisclustered AND n.nspname = $1 AND t.relname = $2 AND x.relname = $3;
"""


REFUSE = r"""WITH RECURSIVE touched AS (
    SELECT c.oid FROM pg_class c JOIN pg_namespace n ON n.oid=c.relnamespace
    WHERE (n.nspname::text,c.relname::text) IN (SELECT schema,name FROM (VALUES NAMES) asked(place,schema,name)
        WHERE place <> ALL (string_to_array(replace(:'without',' ',''),',')))
    UNION SELECT i.inhrelid FROM pg_inherits i JOIN touched t ON i.inhparent=t.oid
), owners AS (
    SELECT DISTINCT c.relowner AS oid, pg_has_role(current_user,c.relowner,'USAGE') AS is_own
    FROM touched t JOIN pg_class c ON c.oid=t.oid
), names AS (
    SELECT string_agg(shown,' and ') AS owners, string_agg(shown,' or ') FILTER (WHERE NOT rolsuper) AS others,
        bool_and(is_own) AS is_owner, string_agg('REVOKE '||shown||' FROM '||quote_ident(session_user),'; ') FILTER (WHERE NOT :{?joined} AND r.oid IN (
        SELECT roleid FROM pg_auth_members WHERE member=to_regrole(quote_ident(session_user)))) AS leave
    FROM owners o JOIN (SELECT oid,rolsuper,regexp_replace(quote_ident(rolname),'[^ -~]','?','g') AS shown FROM pg_roles) r
        ON r.oid=o.oid
)
SELECT coalesce(owners,'') AS owners, coalesce(is_owner,true) AS is_owner, 'done'||coalesce(
    '; joined the owner for this alone? '||leave,'') AS done, coalesce(
    'run it as ' || others || ' (psql -X -U), or as a role that is a member of it (GRANT)',
    'disable the event trigger, or give its function to a superuser') AS todo,
    EXISTS (SELECT FROM pg_roles o WHERE NOT o.rolsuper AND o.rolname <> session_user AND (
    o.oid IN (SELECT oid FROM owners)
    OR EXISTS (SELECT FROM pg_event_trigger e JOIN pg_proc p ON p.oid=e.evtfoid WHERE p.proowner = o.oid AND e.evtenabled <> 'D'))
    AND EXISTS (SELECT FROM pg_roles r WHERE r.rolsuper
        AND (pg_has_role(session_user,r.oid,'MEMBER') OR pg_has_role(current_user,r.oid,'MEMBER')))) AS is_others
FROM names \gset
\if :is_others
    \warn 'To make these indexes' :todo
    DO 'BEGIN RAISE EXCEPTION ''tables or event triggers of others: let their owner run the script, not a superuser''; END';
\endif
\if :is_owner
\else
    \warn 'Run this script as' :owners
    DO 'BEGIN RAISE EXCEPTION ''only the owner of the tables may make indexes on them''; END';
\endif
"""
