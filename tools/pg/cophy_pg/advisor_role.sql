-- Makes the role cophy_advisor with the rights that `cophy-pg export` and `cophy-pg verify` need and no others, and the
-- extension hypopg in a schema of its own; says what pg_stat_statements lacks, with the lines that mend it. `cophy-pg setup`
-- runs it, or a superuser does, once in each database:
--
--     psql -X -d DATABASE -f advisor_role.sql
--     psql -X -d DATABASE -v statements=counted -f advisor_role.sql
--     psql -X -d DATABASE -v tables=granted -f advisor_role.sql
--
-- The second form makes the extension pg_stat_statements too, in a schema of its own. The third lets the role read no table.
-- Then grant it USAGE of the schemas and SELECT of the tables whose statements are to be looked at; it is right where the
-- tables of several applications, which mustn't read each other's, stand in one database. The role has no password:
-- \password cophy_advisor gives it one. Statements are read with the role's own path: where the application has another than
-- the database, ALTER ROLE cophy_advisor SET search_path gives it that.
\set ON_ERROR_STOP on
\if :{?tables} \else
    \set tables all
\endif
\if :{?statements} \else
    \set statements kept
\endif
-- What is done here is none of the statements to advise on.
/* cophy-pg */ DO $$
BEGIN
    PERFORM pg_catalog.set_config('pg_stat_statements.track', 'none', false);
EXCEPTION WHEN insufficient_privilege THEN
    NULL;
END $$;
SET search_path TO pg_catalog, pg_temp;
SET client_min_messages TO warning;
SELECT NOT EXISTS (SELECT FROM pg_catalog.pg_roles WHERE rolname = 'cophy_advisor') AS is_new,
       :'tables' = 'all' AS reads_all,
       :'statements' = 'counted' AND NOT EXISTS (
           SELECT FROM pg_catalog.pg_extension WHERE extname = 'pg_stat_statements') AS makes_statements,
       EXISTS (SELECT FROM pg_catalog.pg_namespace WHERE nspname = 'counted') AS has_counted,
       EXISTS (SELECT FROM pg_catalog.pg_extension WHERE extname = 'hypopg') AS has_hypopg,
       current_setting('server_version_num')::int >= 140000 AS has_read_all \gset
BEGIN;

-- A function that another role may change would run here with a superuser's rights.
DO $$
BEGIN
    IF EXISTS (SELECT FROM pg_catalog.pg_event_trigger e JOIN pg_catalog.pg_proc p ON p.oid = e.evtfoid
               JOIN pg_catalog.pg_roles r ON r.oid = p.proowner WHERE e.evtenabled <> 'D' AND NOT r.rolsuper) THEN
        RAISE EXCEPTION 'an event trigger runs a function that no superuser owns';
    END IF;
END $$;

\if :is_new
    CREATE ROLE cophy_advisor LOGIN;
\endif
ALTER ROLE cophy_advisor NOSUPERUSER NOCREATEDB NOCREATEROLE NOREPLICATION NOBYPASSRLS CONNECTION LIMIT 4;
ALTER ROLE cophy_advisor SET default_transaction_read_only TO on;
-- Its own statements would fill pg_stat_statements.
DO $$
BEGIN
    ALTER ROLE cophy_advisor SET pg_stat_statements.track TO 'none';
EXCEPTION WHEN insufficient_privilege OR undefined_object THEN
    NULL;
END $$;
-- The planner looks at the ends of indexes, which would count as their scans.
DO $$
BEGIN
    ALTER ROLE cophy_advisor SET track_counts TO off;
EXCEPTION WHEN insufficient_privilege THEN
    NULL;
END $$;
GRANT CONNECT ON DATABASE :"DBNAME" TO cophy_advisor;
-- The statements of all roles in pg_stat_statements.
GRANT pg_read_all_stats TO cophy_advisor;
-- EXPLAIN asks for the right to read a table, and the views of statistics do.
\if :reads_all
    \if :has_read_all
        GRANT pg_read_all_data TO cophy_advisor;
    \else
        DO $$
        DECLARE
            name text;
        BEGIN
            FOR name IN SELECT nspname FROM pg_catalog.pg_namespace WHERE nspname !~ '^pg_' AND nspname <> 'information_schema'
            LOOP
                EXECUTE format('GRANT USAGE ON SCHEMA %I TO cophy_advisor', name);
                EXECUTE format('GRANT SELECT ON ALL TABLES IN SCHEMA %I TO cophy_advisor', name);
            END LOOP;
        END $$;
    \endif
\endif

-- A schema that nobody else may rename or put functions into. By the comment undo_role.sql knows what was made here.
DO $$
BEGIN
    IF EXISTS (SELECT FROM pg_catalog.pg_extension WHERE extname = 'hypopg') THEN
        NULL;
    ELSIF NOT EXISTS (SELECT FROM pg_catalog.pg_available_extensions WHERE name = 'hypopg') THEN
        RAISE WARNING 'the extension hypopg is not installed here, so that verify will not run';
    ELSE
        CREATE SCHEMA hypopg;
        COMMENT ON SCHEMA hypopg IS 'made by cophy-pg setup';
        CREATE EXTENSION hypopg SCHEMA hypopg;
    END IF;
END $$;
SELECT n.nspname AS home FROM pg_catalog.pg_extension e JOIN pg_catalog.pg_namespace n ON n.oid = e.extnamespace
WHERE e.extname = 'hypopg'
UNION ALL SELECT 'pg_catalog' LIMIT 1 \gset
GRANT USAGE ON SCHEMA :"home" TO cophy_advisor;

-- A schema that no other role owns, so that nobody may put another view in the place of the extension's.
\if :makes_statements
    \if :has_counted \else
        CREATE SCHEMA counted;
        COMMENT ON SCHEMA counted IS 'made by cophy-pg setup';
        GRANT USAGE ON SCHEMA counted TO PUBLIC;
    \endif
    CREATE EXTENSION pg_stat_statements SCHEMA counted;
\endif
COMMIT;

SELECT NOT EXISTS (SELECT FROM pg_catalog.pg_extension WHERE extname = 'pg_stat_statements') AS lacks_statements,
       loaded !~ '(^|[ ,"/])pg_stat_statements($|[ ,"])' AS is_unloaded,
       (SELECT pg_catalog.string_agg(pg_catalog.quote_literal(pg_catalog.btrim(it, ' "')), ', ')
        FROM pg_catalog.regexp_split_to_table(pg_catalog.concat_ws(',', nullif(loaded, ''), 'pg_stat_statements'), ',') AS it) AS wanted,
       coalesce('postgresql@' || cluster[1] || '-' || cluster[2], 'postgresql') AS service,
       coalesce('of the cluster ' || cluster[1] || '/' || cluster[2], 'of each PostgreSQL on its machine') AS whose
FROM pg_catalog.current_setting('shared_preload_libraries') AS loaded
CROSS JOIN (SELECT pg_catalog.regexp_match(pg_catalog.current_setting('data_directory'),
    '^/var/lib/postgresql/([0-9.]+)/([A-Za-z0-9_.]+)/?$') AS cluster) AS place \gset
\if :lacks_statements
    \warn 'The extension pg_stat_statements is missing in' :DBNAME', so nobody knows its statements. A superuser makes it there:'
    \warn '    CREATE SCHEMA counted; GRANT USAGE ON SCHEMA counted TO PUBLIC;'
    \warn '    CREATE EXTENSION pg_stat_statements SCHEMA counted;'
\endif
\if :is_unloaded
    \warn 'The server counts no statements until pg_stat_statements is loaded. Two lines do that; the second ends all connections' :whose':'
    \warn '    sudo -u postgres psql -p' :PORT '-c "ALTER SYSTEM SET shared_preload_libraries =' :wanted'"'
    \warn '    sudo systemctl restart' :service
    \warn 'Then let the application run for a working day, or for one round of all that matters.'
\endif
SELECT pg_catalog.concat_ws(', ', CASE WHEN :'is_new' THEN 'the role cophy_advisor' END,
           CASE WHEN NOT :'has_hypopg' AND EXISTS (SELECT FROM pg_catalog.pg_extension WHERE extname = 'hypopg')
               THEN 'the extension hypopg and its schema hypopg' END,
           CASE WHEN :'makes_statements' THEN pg_catalog.concat('the extension pg_stat_statements',
               CASE WHEN NOT :'has_counted' THEN ' and its schema counted' END) END) AS made \gset
SELECT :'made' <> '' AS is_made \gset
\if :is_made
    \echo made: :made
\endif
\echo the role cophy_advisor is ready in :DBNAME
