#!/usr/bin/env -S python3 -IB
"""Time and peak memory of `cost` on catalogues and workloads of 1, 4 and 16 MiB: growth should be linear.

A text whose columns have histograms of 257 ends should be read as fast, and ranges over one priced as fast."""
import ctypes
import ctypes.util
import os
import sys
import tempfile
import time

sys.path.insert(0, os.path.dirname(os.path.realpath(__file__)))
from measure import arguments, need_program, need_status_0, print_row, run_best  # noqa: E402

MIB = 1024 * 1024
# 200 tables of 200 columns in 16 MiB; smaller catalogues have fewer tables of the same kind.
TABLES_A_MIB = 12.5
COLUMNS = 200
INDEXES = 5
# 1000 statements in 16 MiB; smaller workloads have fewer statements of the same length.
STATEMENTS_A_MIB = 62.5

SMALL_CATALOGUE = """version = 1
[[table]]
name = "t"
rows = 100000
pages = 2000
[[table.column]]
name = "c"
kind = "int"
width = 8
distinct = 1000
low = 1
high = 100000
[[table.column]]
name = "d"
kind = "date"
width = 4
[[table.index]]
name = "t_c"
keys = ["c", "d"]
"""
BOUNDS = 257
WIDTHS = (10, 6, 9, 9, 9, 9, 10)
SMALL_WORKLOAD = "SELECT c FROM t ORDER BY d\n"


def column(number, note):
    return (
        f'[[table.column]]\nname = "column_{number}"\nkind = "int"\nwidth = 8\ndistinct = {1000 + number}\n'
        f'low = 1\nhigh = 1000000\nnote = "{note}"\n'
    )


def bounds_line(step):
    return "bounds = [" + ", ".join(str(end * step + 1) for end in range(BOUNDS)) + "]\n"


def make_bounded(size):
    """A catalogue of at most so many bytes whose columns have histograms, as many of them as there is room for."""
    texts = ["version = 2\n"]
    room = size - len(texts[0])
    for table in range(200):
        head = f'[[table]]\nname = "{f"t{table}" if table else "t"}"\nrows = 100000\npages = 2000\n'
        listed = [column(number, "") + bounds_line(10**7) for number in range(COLUMNS)]
        while listed and len(head) + sum(map(len, listed)) > room:
            listed.pop()
        if len(listed) < 3:
            break
        texts += [head, *listed]
        room -= len(head) + sum(map(len, listed))
    return "".join(texts).encode()


def small_bounded():
    """The small catalogue with a histogram of its column c."""
    text = SMALL_CATALOGUE.replace("version = 1", "version = 2")
    return text.replace("high = 100000\n", "high = 100000\n" + bounds_line(400))


def index(number):
    keys = ", ".join(f'"column_{number * 8 + key}"' for key in range(8))
    return f'[[table.index]]\nname = "index_{number}"\nkeys = [{keys}]\n'


def catalogue_with(tables, note):
    texts = ["version = 1\n"]
    for number in range(tables):
        name = "t" if number == 0 else f"t{number}"
        texts.append(f'[[table]]\nname = "{name}"\nrows = 100000\npages = 2000\n')
        texts.extend(column(number, note) for number in range(COLUMNS))
        texts.extend(index(number) for number in range(INDEXES))
    return "".join(texts)


def make_catalogue(size):
    """A catalogue of at most so many bytes, and nearly as many. A key without meaning fills each column up."""
    tables = max(1, int(TABLES_A_MIB * size / MIB))
    room = (size - len(catalogue_with(tables, ""))) // (tables * COLUMNS)
    text = catalogue_with(tables, "x" * room).encode()
    assert len(text) <= size, (len(text), size)
    return text


def make_workload(size, columns):
    """SELECTs over the table t, each with long lists of items and of conditions, in at most so many bytes."""
    statements = max(1, int(STATEMENTS_A_MIB * size / MIB))
    room = size // statements - 64
    texts = []
    for number in range(statements):
        first, second = columns
        text = f"SELECT {first} FROM t WHERE {first} IN (0"
        at = 1
        while len(text) < room // 2:
            text += f", {at}"
            at += 1
        text += ")"
        while len(text) < room:
            text += f" AND {first} >= {at}"
            at += 1
        texts.append(f"-- weight {number % 100 + 1}\n{text} ORDER BY {second};\n")
    text = "".join(texts).encode()
    assert len(text) <= size, (len(text), size)
    return text


def put(folder, name, text):
    path = os.path.join(folder, name)
    with open(path, "wb") as file:
        file.write(text if isinstance(text, bytes) else text.encode())
    return path


def cost(options, catalogue, workload, what):
    run = run_best([options.program, "cost", catalogue, workload], options.repeat)
    need_status_0(run, what)
    return run


def tomllib_run(options, catalogue):
    read = "import sys, tomllib\nwith open(sys.argv[1], 'rb') as file: tomllib.load(file)"
    return run_best([sys.executable, "-Ic", read, catalogue], options.repeat)


class ParseResult(ctypes.Structure):
    _fields_ = [("tree", ctypes.c_void_p), ("stderr", ctypes.c_void_p), ("error", ctypes.c_void_p)]


def postgres_parser():
    """PostgreSQL's own parser, as libpg_query has it, where that is installed as a shared library."""
    name = ctypes.util.find_library("pg_query")
    if name is None:
        return None
    library = ctypes.CDLL(name)
    library.pg_query_parse.restype = ParseResult
    library.pg_query_parse.argtypes = [ctypes.c_char_p]
    library.pg_query_free_parse_result.argtypes = [ParseResult]
    return library


def parse_seconds(library, text):
    """The time in which it parses the statements, one by one."""
    statements = text.split(b";\n")
    begun = time.perf_counter()
    for statement in statements:
        result = library.pg_query_parse(statement)
        if result.error:
            sys.exit("libpg_query refuses a statement")
        library.pg_query_free_parse_result(result)
    return time.perf_counter() - begun


def show(name, size, mib, run, beside="", peak=""):
    cells = (name, size, f"{run.seconds:.3f}", f"{mib / run.seconds:.1f}", f"{run.peak_mib:.1f}", beside, peak)
    print_row(cells, WIDTHS)


def catalogues(options, folder, sizes, name, make, where=""):
    """The cost of one statement over catalogues of each size."""
    workload = put(folder, "one.sql", f"SELECT column_1 FROM t {where}ORDER BY column_2\n")
    for size in sizes:
        text = make(size * MIB)
        catalogue = put(folder, "c.toml", text)
        run = cost(options, catalogue, workload, f"{name} of {size} MiB")
        beside = tomllib_run(options, catalogue)
        show(name, size, len(text) / MIB, run, f"{beside.seconds:.3f}", f"{beside.peak_mib:.1f}")


def main():
    parser = arguments(__doc__)
    parser.add_argument("--mib", default="1,4,16", help="the sizes (default: 1,4,16)")
    options = parser.parse_args()
    need_program(options.program)
    sizes = [int(size) for size in options.mib.split(",")]
    library = postgres_parser()
    with tempfile.TemporaryDirectory() as folder:
        small_catalogue = put(folder, "small.toml", SMALL_CATALOGUE)
        small_workload = put(folder, "small.sql", SMALL_WORKLOAD)
        run = cost(options, small_catalogue, small_workload, "small files")
        print_row(("files", "MiB", "seconds", "MiB/s", "peak MiB", "beside", "its peak"), WIDTHS)
        print_row(("small", "", f"{run.seconds:.3f}", "", f"{run.peak_mib:.1f}", "", ""), WIDTHS)
        catalogues(options, folder, sizes, "catalogue", make_catalogue)
        catalogues(options, folder, sizes, "bounds", make_bounded, "WHERE column_2 < 100000 ")
        bounded_catalogue = put(folder, "bounded.toml", small_bounded())
        for size in sizes:
            text = make_workload(size * MIB, ("c", "d"))
            workload = put(folder, "w.sql", text)
            show("ranges", size, size, cost(options, bounded_catalogue, workload, f"a workload of {size} MiB over a histogram"))
            run = cost(options, small_catalogue, workload, f"a workload of {size} MiB")
            show("workload", size, size, run, f"{parse_seconds(library, text):.3f}" if library else "-")
        for size in sizes:
            catalogue = put(folder, "c.toml", make_catalogue(size * MIB))
            workload = put(folder, "w.sql", make_workload(size * MIB, ("column_1", "column_2")))
            show("both", size, 2 * size, cost(options, catalogue, workload, f"both of {size} MiB"))
    print("beside: tomllib on the same catalogue, libpg_query on the same workload" + ("" if library else " (not installed)"))


main()
