"""`ddl --script`: a script of psql that makes the picks of an advice, says what went wrong, and takes them back."""
from __future__ import annotations

import hashlib
import re
from collections.abc import Mapping, Sequence
from types import MappingProxyType

from cophy_text import VERSION
from cophy_text.answers import counted
from cophy_text.shown import printable, space
from cophy_pg.ddl import Laid, Made, Named, written_path, written_text
from cophy_pg.schema import Schema, Table
from cophy_pg.script_sql import BEGIN, GO_ON, INDEX, LAID, PARTS, PASSED, REFUSE, STATE, STOP, TELL
from cophy_pg.server import OWN
from cophy_pg.sizes import stored_pages
from cophy_pg.speed import Speed, duration
from cophy_pg.unlimited import likely, warning

MOST_LISTED = 3
"""So many statements of a pick stand at the top of the script."""


def script_text(
    schema: Schema,
    made: list[Made],
    head: list[str],
    speed: Speed,
    unadvised: Sequence[int] = (),
    gains: Mapping[str, str] = MappingProxyType({}),
) -> str:
    """The script. It can be run again after a fault, and with `-v undo=1` it drops what it made. What stands at the unadvised
    places is made where that is asked for. `gains` says what picks bring, as they are shown."""
    text = _text(schema, made, head, speed, unadvised, gains)
    return text.replace("'MARK'", f"'{_mark_of(text)}'", 1)


def is_unchanged(text: str) -> bool:
    """Whether a script is as it was written, but for its lines of comment. psql reads a NUL as the end of a line that the
    next one goes on."""
    if "\0" in text:
        return False
    found = re.search(r"'(cophy-pg, script [0-9a-f]{12})'", text)
    return found is not None and found[1] == _mark_of(text.replace(found[0], "'MARK'", 1))


def _mark_of(text: str) -> str:
    """What marks the indexes of a script: all of its lines but those of comment. As no literal goes on over a line, none of
    these can stand within one, and end it."""
    marked = "\n".join(it for it in text.split("\n") if not it.startswith("--"))
    return f"cophy-pg, script {hashlib.sha256(marked.encode()).hexdigest()[:12]}"


def _text(
    schema: Schema, made: list[Made], head: list[str], speed: Speed, unadvised: Sequence[int], gains: Mapping[str, str]
) -> str:
    """The script without what marks it."""
    listed = [it for it in made if not it.why_not]
    parted = [it for it in listed if _table(schema, it).is_partitioned]
    prepared = [INDEX] * any(it.indexes for it in listed if it not in parted)
    prepared += [STATE, PARTS] * bool(parted) + [LAID] * any(it.laid is not None for it in listed)
    prepared += [PASSED] * bool(listed)
    begin = BEGIN.replace("UNADVISED", ",".join(map(str, unadvised)))
    lines = [*_told(schema, listed, speed, unadvised), *head, ""]
    lines += [begin + _refuse(listed) + "".join(prepared) + GO_ON]
    lines += ["", "-- The indexes"]
    for it in listed:
        lines += [
            "",
            *_about(schema, it, it.place in unadvised, gains.get(it.pick.shown(), "")),
            *_steps(schema, it, speed),
        ]
    passed = [f"EXECUTE cophy_passed (ARRAY[{','.join(str(it.place) for it in listed)}]);"] * bool(listed)
    # Behind it stands what ends a membership of the owner.
    done = ":done" if listed else "done"
    return _marked("\n".join([*lines, "", STOP, TELL, *passed, f"\\echo {done}", ""]))


def _about(schema: Schema, made: Made, is_unadvised: bool, gain: str) -> list[str]:
    """The comment before a pick."""
    fails, told = warning(likely(schema, made.pick)), ["not recommended"] * is_unadvised + [gain] * bool(gain)
    text = ": ".join([f"{made.place}. {made.shown()}", *[", ".join(told)] * bool(told)])
    return [f"-- {it}" for it in [text, *[fails] * bool(fails)]]


def _steps(schema: Schema, made: Made, speed: Speed) -> list[str]:
    """What makes a pick, or takes it back."""
    table, about = _table(schema, made), "by an index that is there"
    if made.indexes:
        about = f"about {space(stored_pages(schema, made.pick) or made.pick.pages)}, {speed.of_index(table)}"
    say = f"\\echo '{made.place}: {made.shown()}, {about}'"
    if table.is_partitioned:
        return _alone(made, _undo_parts(table, made), [say, *_make_parts(table, made), *made.analyses])
    lines = _make(made, about)
    if made.laid is None:
        return [*lines, *(_alone(made, [], made.analyses) if made.analyses else [])]
    lay = [*[say] * (not lines), *_lay(made, made.laid, speed.told(table, len(made.indexes)))]
    return [*_alone(made, _stand(made, made.laid), []), *lines, *_alone(made, [], lay)]


def _alone(made: Made, undo: list[str], make: list[str]) -> list[str]:
    """Steps that stop at a fault, once all before them are done, unless the pick is left out."""
    asked = f"SELECT '{made.place}' = ANY (string_to_array(replace(:'without', ' ', ''), ',')) AS is_out \\gset"
    return [STOP, TELL, asked, "\\if :is_out", "\\elif :is_undo", *undo, "\\else", *make, "\\endif", GO_ON]


def _marked(text: str) -> str:
    """The script with our mark before each statement, so that none is taken for one of the workload."""
    lines, is_open = list[str](), False
    for line in text.split("\n"):
        bare = line.lstrip()
        is_sql = is_open or bool(bare) and not bare.startswith(("\\", "--"))
        lines.append(line[: len(line) - len(bare)] + f"{OWN} {bare}" if is_sql and not is_open else line)
        is_open = is_sql and not bare.endswith((";", "\\gset", "\\gexec"))
    return "\n".join(lines)


def _told(schema: Schema, listed: list[Made], speed: Speed, unadvised: Sequence[int]) -> list[str]:
    """What the script makes, how long that takes, whom it locks out, and how to take it back, for who runs it."""
    making = [it for it in listed if it.place not in unadvised]
    size = space(sum(stored_pages(schema, it.pick) or it.pick.pages for it in making if it.indexes))
    time = duration(sum(speed.seconds(_table(schema, it), bool(it.indexes), it.laid is not None) for it in making))
    lines = [f"-- {counted(len(making), 'step')}, about {size} of indexes and {time}, made by cophy-pg {VERSION}."]
    lines += ["-- CONCURRENTLY: reads and writes go on; waits for open transactions, 30 minutes at most each."]
    if any(it.laid is not None for it in making):
        lines += ["-- CLUSTER locks its table against all others, readers too."]
    lines += [
        "-- For the owner of the tables: psql -X -f FILE. After a fault or Ctrl-C run it again: it makes INVALID ones anew."
    ]
    lines += ["-- -v undo=1 drops what it made, nothing else; -v without=N,N passes over numbers."]
    lines += ["-- -v all=1 makes what isn't recommended too."] * bool(unadvised)
    lines += ["-- It makes these, and is else the same in each such script:"]
    return [*lines, *(text for it in making for text in _listed(it))]


def _listed(made: Made) -> list[str]:
    """The statements of a pick as comments, the first few of many."""
    texts = [f"--   {printable(it)}" for it in made.statements]
    rest = len(texts) - MOST_LISTED
    return texts if rest <= 0 else [*texts[:MOST_LISTED], f"--   and {rest} more of {printable(made.shown())}"]


def _refuse(listed: list[Made]) -> str:
    """Ends the script for a superuser, or who may become one, where a table, a partition or an event trigger's function is
    another role's: what that planted there, as in a partition key, would run with all rights. And for who isn't the owner of
    the tables, nor a member of it."""
    tables = {(str(it.place), *where) for it in listed for where in (it.where, *(index.where for index in it.indexes))}
    names = sorted(f"({', '.join(map(written_text, it))})" for it in tables)
    return REFUSE.replace("NAMES", ", ".join(names)) if names else ""


def _table(schema: Schema, made: Made) -> Table:
    return schema.tables[made.where]


def _make(made: Made, about: str) -> list[str]:
    """The indexes that stand for a pick; the first one says what is made."""
    lines = []
    for index in made.indexes:
        shown, said = map(written_text, (made.shown(), about))
        lines += [f"EXECUTE cophy_index ({_values(index)}, {made.place}, {shown}, {said},"]
        lines += [f"    {written_text(index.statement())}) \\gexec"]
        about = ""
    return lines


def _lay(made: Made, laid: Laid, told: list[str]) -> list[str]:
    """Lays the rows of a table in the order of its index, unless they are."""
    (cluster, analyse), asked = laid.statements(), _is_laid(laid)
    lines = [asked, "\\if :is_laid", "    \\echo 'its table is clustered by it already'", "\\else"]
    lines += [f"    -- {it}" for it in told[1:]]
    lines += [f"    \\echo '{told[0]}'", "    SET lock_timeout TO :'brief';", *_tried(cluster, asked, "is_laid")]
    lines += [f"        {_fail(made, 'does not cluster its table yet: run the script again, or with -v undo=1')}"]
    return [*lines, "    \\endif", "\\endif", "SET lock_timeout TO :'patient';", analyse]


def _tried(statement: str, asked: str, flag: str, then: str = "") -> list[str]:
    """Tries a statement that may fail, asks what came of it, takes what follows, and begins what is said where it failed."""
    tried = ["\\set ON_ERROR_STOP off", statement, "\\set ON_ERROR_STOP on", asked, f"\\if :{flag}"]
    return [f"    {it}" for it in [*tried, *[f"    {then}"] * bool(then), "\\else"]]


def _mark(index: Named) -> str:
    """Marks an index as one that this script made."""
    return f"COMMENT ON INDEX {index.shown()} IS :'mark';"


def _is_laid(laid: Laid) -> str:
    """Asks whether a table is clustered by its index."""
    return f"EXECUTE cophy_laid ({', '.join(map(written_text, (*laid.where, laid.index)))}) \\gset"


def _make_parts(table: Table, made: Made) -> list[str]:
    state, mark = _state(made.indexes[0]), _mark(made.indexes[0])
    lines = ["SET lock_timeout TO :'patient';", state, *_refuse_other(made)]
    # Once it is valid, PostgreSQL itself makes those of new partitions, by names of its own.
    lines += ["\\if :is_there", "    \\echo 'it is there already'", "\\else"]
    lines += [_step(table, made, 0), _step(table, made, 1)]
    lines += [
        "SET lock_timeout TO :'brief';",
        _step(table, made, 2),
        *["\\if :is_invalid", "\\else", f"    {mark}", "\\endif"],
        "SET lock_timeout TO :'patient';",
        _step(table, made, 3),
    ]
    lines += ["SET lock_timeout TO :'brief';", _step(table, made, 4), state, "\\if :is_there", "\\else"]
    return [*lines, f"    {_fail(made, 'is not valid yet: run the script again, or with -v undo=1')}", *["\\endif"] * 2]


def _stand(made: Made, laid: Laid) -> list[str]:
    """Lets the rows of a table stand as they lie."""
    lines = ["SET lock_timeout TO :'brief';", _is_laid(laid), "\\if :is_laid"]
    lines += [f"    ALTER TABLE {written_path(laid.where)} SET WITHOUT CLUSTER;"]
    lines += [f"    \\echo 'the rows of {made.pick.table} stay as they lie'", "\\endif"]
    return [*lines, "SET lock_timeout TO :'patient';"]


def _undo_parts(table: Table, made: Made) -> list[str]:
    """Drops the index of a partitioned table, and what isn't attached to it."""
    index = made.indexes[0]
    name = re.sub(r"[^A-Za-z0-9_]", "?", index.name)
    lines = ["SET lock_timeout TO :'brief';", _state(index), "\\if :is_own", f"    DROP INDEX {index.shown()};"]
    lines += [f"    \\echo '{made.place}: {name} is dropped'", "\\elif :is_there"]
    lines += [f"    \\echo '{made.place}: {name} stays: this script did not make it'", "\\endif"]
    return [*lines, "SET lock_timeout TO :'patient';", _step(table, made, 5)]


def _step(table: Table, made: Made, number: int) -> str:
    """A step of a partitioned table, which is asked for when those before it are done."""
    index = made.indexes[0]
    values = ", ".join(map(written_text, (table.schema, table.name, index.name, index.columns_text())))
    return f"EXECUTE cophy_parts ({number}, {values}) \\gexec"


def _values(index: Named) -> str:
    """An index as the prepared statements are given it."""
    columns = ", ".join(map(written_text, index.columns))
    if index.function:
        columns = f"format('{index.function}(%I)', {columns})"
    return f"{', '.join(map(written_text, (index.where[0], index.name, index.where[1])))}, ARRAY[{columns}]"


def _state(index: Named) -> str:
    """Asks whether an index is there, and as what."""
    return f"EXECUTE cophy_state ({_values(index)}) \\gset"


def _refuse_other(made: Made) -> list[str]:
    return ["\\if :is_other", f"    {_fail(made, 'can not be made: its name is taken by another')}", "\\endif"]


def _fail(made: Made, why: str) -> str:
    """A statement that ends the script with an error."""
    return f"DO 'BEGIN RAISE EXCEPTION ''the index {made.shown()} {why}''; END';"
