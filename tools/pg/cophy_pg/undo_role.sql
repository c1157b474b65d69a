-- Takes back in a database what advisor_role.sql made there. `cophy-pg setup --undo` runs it, or a superuser does:
--
--     psql -X -q -A -t -d DATABASE -f undo_role.sql
--
-- The extensions hypopg and pg_stat_statements go where each is in the schema that was made for it, and that schema with
-- it: one that bears the comment of advisor_role.sql and belongs to a superuser, since an owner may write any comment. The
-- role's rights in this database are revoked; the role goes where nothing on the server knows it any more. Nothing goes
-- by CASCADE, nor by DROP OWNED, so that what others put there, or made of it, stays and is told. Each line that it prints
-- is an array of JSON: what is gone, that rights were revoked, what is kept since it bears no mark, what is left with the
-- reason, which other database knows a role, and that there is no role cophy_advisor any more.
\set ON_ERROR_STOP on
-- What is done here is none of the statements to advise on.
/* cophy-pg */ DO $$
BEGIN
    PERFORM pg_catalog.set_config('pg_stat_statements.track', 'none', false);
EXCEPTION WHEN insufficient_privilege THEN
    NULL;
END $$;
SET search_path TO pg_catalog, pg_temp;
SET standard_conforming_strings TO on;
SET client_min_messages TO warning;
SET lock_timeout TO '5s';
SET statement_timeout TO '60s';
SET cophy_pg.told TO '';
BEGIN ISOLATION LEVEL READ COMMITTED READ WRITE;

-- A function that another role may change would run here with a superuser's rights.
DO $$
BEGIN
    IF NOT (SELECT rolsuper FROM pg_catalog.pg_roles WHERE rolname = current_user) THEN
        RAISE EXCEPTION 'only a superuser may run this';
    END IF;
    IF EXISTS (SELECT FROM pg_catalog.pg_event_trigger e JOIN pg_catalog.pg_proc p ON p.oid = e.evtfoid
               JOIN pg_catalog.pg_roles r ON r.oid = p.proowner WHERE e.evtenabled <> 'D' AND NOT r.rolsuper) THEN
        RAISE EXCEPTION 'an event trigger runs a function that no superuser owns';
    END IF;
END $$;
SET lc_messages TO 'C';

DO $$
DECLARE
    told text := '';
    given record;
    thing text;
    message text;
    detail text;
BEGIN
    FOR given IN
        SELECT w.extension, w.schema, e.oid IS NOT NULL AS is_there, home.nspname AS home,
               coalesce(o.rolsuper, false) AS is_safe,
               coalesce(o.rolsuper AND obj_description(n.oid, 'pg_namespace') = 'made by cophy-pg setup', false) AS is_marked,
               coalesce(home.oid = n.oid AND maker.rolsuper, false) AS is_in_it
        FROM (VALUES ('hypopg', 'hypopg'), ('pg_stat_statements', 'counted')) AS w (extension, schema)
        LEFT JOIN pg_namespace n ON n.nspname = w.schema
        LEFT JOIN pg_roles o ON o.oid = n.nspowner
        LEFT JOIN pg_extension e ON e.extname = w.extension
        LEFT JOIN pg_roles maker ON maker.oid = e.extowner
        LEFT JOIN pg_namespace home ON home.oid = e.extnamespace
        ORDER BY w.extension
    LOOP
        IF given.is_there AND NOT (given.is_marked AND given.is_in_it) THEN
            told := concat(told, CASE WHEN given.is_in_it AND given.is_safe
                THEN json_build_array('kept', format('the extension %s and its schema %s', given.extension, given.schema),
                                      format('DROP EXTENSION %I; DROP SCHEMA %I;', given.extension, given.schema))
                ELSE json_build_array('kept', format('the extension %s in the schema %s', given.extension, given.home),
                                      format('DROP EXTENSION %I;', given.extension)) END, E'\n');
        END IF;
        CONTINUE WHEN NOT given.is_marked;
        BEGIN
            IF given.is_in_it THEN
                thing := format('the extension %s', given.extension);
                EXECUTE format('DROP EXTENSION %I', given.extension);
                told := concat(told, json_build_array('gone', thing), E'\n');
            END IF;
            thing := format('the schema %s', given.schema);
            -- A failure of this alone undoes this alone.
            BEGIN
                EXECUTE format('DROP SCHEMA %I', given.schema);
                told := concat(told, json_build_array('gone', thing), E'\n');
            EXCEPTION WHEN OTHERS THEN
                GET STACKED DIAGNOSTICS message = MESSAGE_TEXT, detail = PG_EXCEPTION_DETAIL;
                told := concat(told, json_build_array('left', thing, message, detail), E'\n');
            END;
        EXCEPTION WHEN OTHERS THEN
            GET STACKED DIAGNOSTICS message = MESSAGE_TEXT, detail = PG_EXCEPTION_DETAIL;
            told := concat(told, json_build_array('left', thing, message, detail), E'\n');
        END;
    END LOOP;
    PERFORM set_config('cophy_pg.told', told, false);
END $$;

-- The rights in this database. What isn't revoked here keeps the role, and is told below.
DO $$
DECLARE
    statement text;
    revoked int := 0;
BEGIN
    FOR statement IN
        SELECT DISTINCT CASE d.classid
            WHEN 'pg_database'::regclass THEN format('REVOKE ALL ON DATABASE %I', current_database())
            WHEN 'pg_namespace'::regclass THEN format('REVOKE ALL ON SCHEMA %s', d.objid::regnamespace)
            WHEN 'pg_class'::regclass THEN format('REVOKE ALL ON TABLE %s', d.objid::regclass)
            WHEN 'pg_proc'::regclass THEN format('REVOKE ALL ON ROUTINE %s', d.objid::regprocedure)
            WHEN 'pg_type'::regclass THEN format('REVOKE ALL ON TYPE %s', d.objid::regtype)
            WHEN 'pg_default_acl'::regclass THEN (
                SELECT format('ALTER DEFAULT PRIVILEGES FOR ROLE %s%s REVOKE ALL ON %s', a.defaclrole::regrole,
                              ' IN SCHEMA ' || nullif(a.defaclnamespace, 0)::regnamespace::text, k.word)
                FROM pg_default_acl a JOIN (VALUES ('r'::"char", 'TABLES'), ('S', 'SEQUENCES'), ('f', 'ROUTINES'), ('T', 'TYPES'),
                                                   ('n', 'SCHEMAS')) AS k (kind, word) ON k.kind = a.defaclobjtype
                WHERE a.oid = d.objid)
            END || ' FROM cophy_advisor'
        FROM pg_shdepend d JOIN pg_database here ON here.datname = current_database()
        JOIN pg_roles r ON r.oid = d.refobjid AND r.rolname = 'cophy_advisor'
        WHERE d.refclassid = 'pg_authid'::regclass AND d.deptype = 'a'
              AND (d.dbid = here.oid OR d.classid = 'pg_database'::regclass AND d.objid = here.oid)
    LOOP
        BEGIN
            CONTINUE WHEN statement IS NULL;
            EXECUTE statement;
            revoked := revoked + 1;
        EXCEPTION WHEN OTHERS THEN
            NULL;
        END;
    END LOOP;
    IF revoked > 0 THEN
        PERFORM set_config('cophy_pg.told',
            concat(current_setting('cophy_pg.told'), json_build_array('rights', 'cophy_advisor'), E'\n'), false);
    END IF;
END $$;

-- The role of `advise`, and that of `make`, which only a `kill -9` leaves.
DO $$
DECLARE
    told text := current_setting('cophy_pg.told');
    name text;
    owned text[];
    named text[];
    databases text[];
    thing text;
    message text;
    detail text;
BEGIN
    FOR name IN SELECT rolname FROM pg_roles WHERE rolname IN ('cophy_advisor', 'cophy_maker') ORDER BY rolname LOOP
        thing := format('the role %s', name);
        SELECT array_agg(known.what ORDER BY known.what) FILTER (WHERE known.deptype = 'o'),
               array_agg(known.what ORDER BY known.what) FILTER (WHERE known.deptype <> 'o' AND known.elsewhere IS NULL),
               array_agg(DISTINCT known.elsewhere) FILTER (WHERE known.elsewhere IS NOT NULL)
        INTO owned, named, databases
        FROM (SELECT d.deptype, other.datname::text AS elsewhere,
                     coalesce(CASE WHEN d.dbid IN (0, here.oid) THEN pg_describe_object(d.classid, d.objid, d.objsubid) END,
                              format('one in the database %s', other.datname)) AS what
              FROM pg_shdepend d JOIN pg_database here ON here.datname = current_database()
              LEFT JOIN pg_database other ON other.oid <> here.oid
                   AND other.oid = CASE WHEN d.classid = 'pg_database'::regclass THEN d.objid ELSE d.dbid END
              WHERE d.refclassid = 'pg_authid'::regclass AND d.refobjid = name::regrole) AS known;
        IF name = 'cophy_maker' AND EXISTS (SELECT FROM pg_stat_activity WHERE usename = name) THEN
            told := concat(told, json_build_array('left', thing, 'it has a session'), E'\n');
            CONTINUE;
        END IF;
        IF owned IS NOT NULL THEN
            message := concat('it owns ', owned[1], ' and ' || nullif(cardinality(owned) - 1, 0) || ' more');
            told := concat(told, json_build_array('left', thing, message), E'\n');
        END IF;
        IF named IS NOT NULL THEN
            message := concat(named[1], ' and ' || nullif(cardinality(named) - 1, 0) || ' more', ' in this database needs it');
            told := concat(told, json_build_array('left', thing, message), E'\n');
        END IF;
        FOR at IN 1 .. coalesce(cardinality(databases), 0) LOOP
            told := concat(told, json_build_array('known', thing, databases[at]), E'\n');
        END LOOP;
        CONTINUE WHEN owned IS NOT NULL OR named IS NOT NULL OR databases IS NOT NULL;
        BEGIN
            EXECUTE format('DROP ROLE %I', name);
            told := concat(told, json_build_array('gone', thing), E'\n');
        EXCEPTION WHEN OTHERS THEN
            GET STACKED DIAGNOSTICS message = MESSAGE_TEXT, detail = PG_EXCEPTION_DETAIL;
            told := concat(told, json_build_array('left', thing, message, detail), E'\n');
        END;
    END LOOP;
    IF NOT EXISTS (SELECT FROM pg_roles WHERE rolname = 'cophy_advisor') THEN
        told := concat(told, json_build_array('no role'), E'\n');
    END IF;
    PERFORM set_config('cophy_pg.told', told, false);
END $$;
COMMIT;
SELECT current_setting('cophy_pg.told');
