"""Workloads that are drawn, and a plain model of what edits make of them."""
from __future__ import annotations

import random
import re
from collections import Counter

# Statements over the catalogue of the shop with a number, and with blanks between their tokens.
FORMS = (
    "select name from customer where id = {0}",
    "select id from orders where customer = {0} and status <> 'a; b' order by ordered",
    "select c . name , o . status from customer c , orders o where c . id = o . customer and c . city = 'it''s -- {0} /*'",
    "update orders set status = '{0}' where id = ?",
    "select city , count ( * ) from customer where name like '\"{0}' group by city limit 5",
    "insert into line values ( {0} , - 1 , 2.5 , ? )",
)
WORDS = "select from where and order by update set group limit like insert into values".split()
TOKEN = re.compile(r"'(?:[^']|'')*'|\"[^\"]+\"|\$?[\w.]+|[<>!][=>]|\S")
BETWEEN = (" ", "\n", "\t \r\n", "/* ' ; */", "-- it's; \"\n", "/**/--weight5\n", " -- weight 5 x\n")

Listed = list[tuple[str, int]]


def plain(sql: str) -> str:
    """A statement without comments, in one spelling."""
    listed = (it if it[0] == "'" else it.strip('"').lower() for it in TOKEN.findall(sql))
    return " ".join("<>" if it == "!=" else "?" if it[0] == "$" else it for it in listed)


def spelled(form: str, draw: random.Random, within: str = "") -> str:
    """A statement in some spelling, with a text between two of its tokens."""
    found, parts = "", TOKEN.findall(form)
    for at, it in enumerate(parts):
        if it[0].isalpha():
            it = "".join(draw.choice((letter.upper(), letter)) for letter in it)
            it = f'"{it}"' if it.lower() not in WORDS and draw.random() < 0.2 else it
        it = {"<>": "!=", "?": f"${at}"}.get(it, it) if draw.random() < 0.5 else it
        found += (" " * found.endswith("-") + draw.choice(BETWEEN) + within * (at == 2) if at else "") + it
    return found


def drawn(draw: random.Random, count: int) -> Listed:
    """Statements of few forms with few weights, so that many are the same."""
    return [(draw.choice(FORMS).format(draw.randrange(3)), draw.choice((1, 1, 2, 60, 1000000))) for _ in range(count)]


def written(listed: Listed, draw: random.Random) -> bytes:
    """A workload of these statements; some weights stand within the statement before."""
    text, is_told = draw.choice(("", ";", "-- weights 5\n")), False
    for at, (form, weight) in enumerate(listed):
        if not is_told and (weight > 1 or draw.random() < 0.3):
            text += f"-- weight 9\n--\tWEIGHT  00{weight} \r\n"
        is_told = at + 1 < len(listed) and draw.random() < 0.3
        within = f"-- weight {listed[at + 1][1]}\n" if is_told else ""
        text += spelled(form, draw, within) + draw.choice((";", " ;\n;", "\n-- a;\n;"))
    return text.encode()


def applied(edits: bytes, listed: Listed) -> Listed:
    """What edits make of statements, step by step."""
    now = [*listed]
    for line in edits.decode().split("\n")[:-1]:
        verb, _, rest = line.partition(" ")
        if verb == "remove":
            del now[int(rest) - 1]
        elif verb == "weigh":
            number, weight = map(int, rest.split(" "))
            now[number - 1] = (now[number - 1][0], weight)
        elif verb == "add":
            heavy, _, sql = rest.partition(" ")
            now.append((plain(sql), int(heavy)))
        else:
            assert line == "advise", line
        assert len(now) <= 1000
    return now


def fewest(old: Listed, new: Listed) -> int:
    """How many edits lead from ones to others: of each form as many as one side has, but for those that have a like."""
    count = 0
    for form in {form for form, _ in old + new}:
        one, other = (Counter(weight for its, weight in side if its == form) for side in (old, new))
        count += max(one.total(), other.total()) - (one & other).total()
    return count
