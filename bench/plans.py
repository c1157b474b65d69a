#!/usr/bin/env -S python3 -IB
"""Time to plan joins: chains, stars and cliques of 2 to 8 slots, each slot with 0, 4 or 16 indexes.

In one run: a whole statement by `cophy cost`, the planner's calls alone, and PostgreSQL's planning of the same query.
"""
import os
import sys
import tempfile

sys.path.insert(0, os.path.dirname(os.path.realpath(__file__)))
from joins import GRAPHS, SLOTS, catalogue_text, select_text  # noqa: E402
from measure import arguments, need_program, need_status_0, print_row, run_lightest  # noqa: E402
from postgres import Postgres  # noqa: E402
from searches import Searches  # noqa: E402

# The most slots that a workload may have in all.
SLOTS_IN_ALL = 2000
HEADS = ("graph", "slots", "indexes", "statement", "least", "new", "cost", "postgres")
RATIOS = ("x statement", "x least", "x cost")
WIDTHS = (6, 5, 7, 9, 9, 9, 9, 10, 11, 8, 8)


def put(folder, name, text):
    path = os.path.join(folder, name)
    with open(path, "w") as file:
        file.write(text)
    return path


def statement_microseconds(options, folder, catalogue, statement, copies):
    """The processor's time that one more such statement adds to a call of `cost`.

    That is its reading, its binding, its offers, its plan and its line; the start of the program falls out.
    """
    words = [options.program, "cost", catalogue]
    one = run_lightest([*words, put(folder, "one.sql", statement + ";\n")], options.repeat)
    need_status_0(one, statement[:80])
    many = run_lightest([*words, put(folder, "many.sql", (statement + ";\n") * copies)], options.repeat)
    need_status_0(many, statement[:80])
    return 1e6 * max(0.0, many.processor - one.processor) / (copies - 1)


def cell(value):
    return "-" if value is None else f"{value:.1f}"


def ratio(theirs, ours):
    return None if theirs is None or not ours else theirs / ours


def measured_row(options, tools, graph, slots, indexes, statement, copies):
    """One line of the table."""
    folder, catalogue, searches, postgres = tools
    whole = None
    if options.program:
        whole = statement_microseconds(options, folder, catalogue, statement, copies)
    alone = searches.microseconds(graph, slots, indexes) if searches else {}
    beside = postgres.microseconds(statement) if postgres else None
    times = (whole, alone.get("least"), alone.get("new"), alone.get("cost"))
    ratios = [ratio(beside, times[at]) for at in (0, 1, 3)]
    print_row((graph, slots, indexes, *(cell(it) for it in (*times, beside, *ratios))), WIDTHS)


def print_grid(options, folder, searches, postgres):
    for indexes in map(int, options.indexes.split(",")):
        catalogue = put(folder, "c.toml", catalogue_text(indexes))
        if postgres:
            postgres.make_tables(indexes)
        for graph in GRAPHS:
            for slots in map(int, options.slots.split(",")):
                tools = folder, catalogue, searches, postgres
                copies = min(1000, SLOTS_IN_ALL // slots)
                measured_row(options, tools, graph, slots, indexes, select_text(graph, slots), copies)


def print_repeated_edges(options, folder):
    """A chain of the most slots whose edges are each written so often."""
    catalogue = put(folder, "c.toml", catalogue_text(4))
    for repeat in (1, 14, 1428):
        statement = select_text("chain", SLOTS, repeat)
        whole = statement_microseconds(options, folder, catalogue, statement, 20)
        print_row((f"x{repeat}", SLOTS, 4, cell(whole)), WIDTHS)


def the_options():
    parser = arguments(__doc__)
    parser.add_argument("--slots", default="2,3,4,5,6,7,8", help="the numbers of slots (default: 2 to 8)")
    parser.add_argument("--indexes", default="0,4,16", help="the numbers of indexes a slot (default: 0,4,16)")
    parser.add_argument("--search", help="a built search_bench (default: it is built, in a temporary folder)")
    parser.add_argument("--no-search", action="store_true", help="leave the planner's calls alone out")
    parser.add_argument("--no-program", action="store_true", help="leave whole statements out")
    return parser.parse_args()


def main():
    options = the_options()
    if options.no_program:
        options.program = None
    else:
        need_program(options.program)
    with tempfile.TemporaryDirectory() as folder:
        searches = None if options.no_search else Searches(options.search, folder)
        postgres = Postgres.started()
        try:
            print("microseconds; x: how many times as long PostgreSQL's planning takes")
            print_row((*HEADS, *RATIOS), WIDTHS)
            print_grid(options, folder, searches, postgres)
            if options.program:
                print_repeated_edges(options, folder)
        finally:
            if postgres:
                postgres.stop()
    print("statement: what one more adds to a call of cost. x14: a chain whose edges are each written 14 times.")
    if not postgres:
        print("postgres: it isn't installed, so its column is left out")


main()
