"""`cophy_maker`: a role that is a member of the owner of tables for as long as a script of an advice runs."""
from __future__ import annotations

import secrets
import signal
from collections.abc import Iterator
from contextlib import contextmanager

from cophy_text.files import ENDS
from cophy_pg.ddl import written_name
from cophy_pg.inputs import NoInput
from cophy_pg.progress import say
from cophy_pg.setup import verifier_of
from cophy_pg.superuser import Session, Superuser

MAKER = "cophy_maker"
HOME = "postgres"
"""The database from where roles are made, since what others may plant in theirs would run there."""
SAFE = """SET search_path TO pg_catalog, pg_temp;
SET standard_conforming_strings TO on;
SET client_min_messages TO warning;
SET lock_timeout TO '5s';
"""
"""Who has just given the role a right to what is his, in a transaction that goes on, would hold up its end as long as he likes."""
JOIN = """BEGIN;
DO 'BEGIN IF EXISTS (SELECT FROM pg_stat_activity WHERE usename = ''{maker}'')
    THEN RAISE EXCEPTION ''{maker} is at work: another make goes on on this server''; END IF; END';
DROP ROLE IF EXISTS {maker};
SELECT to_char(now() + interval '1 minute', 'YYYY-MM-DD HH24:MI:SSOF') AS until \\gset
CREATE ROLE {maker} LOGIN CONNECTION LIMIT 1 PASSWORD '{verifier}' VALID UNTIL :'until' IN ROLE {owner};
COMMENT ON ROLE {maker} IS '{mark}';
COMMIT;"""
"""One that an earlier run left, as by kill -9, is dropped first."""
LEAVE = """SELECT count(*) FILTER (WHERE is_ours) > 0 AS is_ours, count(*) > 0 AND {is_made} AS is_there FROM (
    SELECT shobj_description(oid, 'pg_authid') IS NOT DISTINCT FROM '{mark}' AS is_ours FROM pg_roles WHERE rolname = '{maker}'
) found \\gset
\\if :is_ours
    \\set ON_ERROR_STOP off
    ALTER ROLE {maker} NOLOGIN;
    DO 'DECLARE name text; BEGIN
        FOR name IN SELECT DISTINCT roleid::regrole::text FROM pg_auth_members WHERE member = to_regrole(''{maker}'') LOOP
            EXECUTE format(''REVOKE %s FROM {maker}'', name); END LOOP; END';
    \\set ON_ERROR_STOP on
    DROP ROLE {maker};
\\elif :is_there
    DO 'BEGIN RAISE EXCEPTION ''the comment of {maker} was changed, or another make has made it anew''; END';
\\endif"""
"""Before it is dropped it may do nothing any more, whatever the owner is called by now, since what he planted may have made
something its own, by which it stays."""


@contextmanager
def joined(superuser: Superuser, owner: str) -> Iterator[str]:
    """Lets a superuser make the role, gives its password, with which one session may begin within a minute, and lets him drop
    it at the end. What the owner planted may give it another password, but not another minute."""
    secret = secrets.token_urlsafe(24)
    mark = f"made by cophy-pg make, {secrets.token_hex(8)}"
    given = {"maker": MAKER, "owner": written_name(owner), "mark": mark, "verifier": verifier_of(secret)}
    with superuser.session(HOME) as session:
        # One that was broken off in between is asked for too.
        may_be_there, is_made = True, False
        try:
            may_be_there = is_made = session.run(SAFE + JOIN.format(**given))
            if not may_be_there:
                raise NoInput(f"{superuser.shown()} did not make the role {MAKER}, a member of {owner!a}")
            yield secret
        finally:
            if may_be_there:
                _leave(superuser, session, SAFE + LEAVE.format(**given, is_made=is_made))


def _leave(superuser: Superuser, session: Session, leave: str) -> None:
    """Takes the role away. Ctrl-C ends the session that made it too, so that another one does, which begins with these
    signals blocked and so outlives a second Ctrl-C."""
    before = signal.pthread_sigmask(signal.SIG_BLOCK, ENDS)
    is_gone = False
    try:
        is_gone = session.run(leave)
        if not is_gone:
            with superuser.session(HOME) as another:
                is_gone = another.run(leave)
    finally:
        if not is_gone:
            say(f"{MAKER} is left as a role: let a superuser look at what it owns or may do, and DROP ROLE {MAKER}")
        signal.pthread_sigmask(signal.SIG_SETMASK, before)
