#!/usr/bin/env -S python3 -IB
"""`cophy` where memory is refused: a command is run again and again, and each time one more allocation succeeds before one is
refused, until a run asks for no more. Each run has to end with status 7, write nothing and put no file, or with the answer and
the certificate of a run in which none is refused. The commands: `explain` of a join of a chain of four tables, whose least plan
is bushy; `cost` on the shop of the examples; `advise --cert` where one of two indexes fits; `check` of such a certificate; `retune` by an edit of each kind.

A shared library that is loaded first stands in for the C library's `malloc`, `calloc`, `realloc` and the aligned ones, and
refuses the call of a number, or all from it on (`--all`). It is written in C to a temporary folder and compiled by `cc`, so this
needs a program that is linked dynamically against the GNU C library. What the C library itself asks for before `main` counts too."""
import os
import subprocess
import sys
from dataclasses import dataclass
from tempfile import TemporaryDirectory

sys.path.insert(0, os.path.dirname(os.path.realpath(__file__)))
from measure import ROOT, arguments, need_program, print_row  # noqa: E402

WIDTHS = (8, 8, 8, 8, 8)

SHIM = r"""
#define _GNU_SOURCE
#include <errno.h>
#include <fcntl.h>
#include <stddef.h>
#include <stdlib.h>
#include <unistd.h>

void *__libc_malloc(size_t size);
void *__libc_calloc(size_t count, size_t size);
void *__libc_realloc(void *old, size_t size);
void *__libc_memalign(size_t alignment, size_t size);

static unsigned long calls, refused_call, all_behind;

__attribute__((constructor)) static void begin(void) {
    const char *number = getenv("REFUSED_CALL");
    all_behind = getenv("REFUSED_ALL") != NULL;
    calls = 0;
    refused_call = number ? strtoul(number, NULL, 10) : 0;
}

/* Whether this call is refused. The first refusal leaves a file behind. */
static int refuses(void) {
    if (refused_call == 0) return 0;
    calls++;
    if (calls < refused_call || (calls > refused_call && !all_behind)) return 0;
    const char *mark = getenv("REFUSED_MARK");
    if (calls == refused_call && mark) {
        int file = open(mark, O_CREAT | O_WRONLY, 0600);
        if (file >= 0) close(file);
    }
    errno = ENOMEM;
    return 1;
}

void *malloc(size_t size) { return refuses() ? NULL : __libc_malloc(size); }
void *calloc(size_t count, size_t size) { return refuses() ? NULL : __libc_calloc(count, size); }
void *realloc(void *old, size_t size) { return refuses() ? NULL : __libc_realloc(old, size); }
void *memalign(size_t alignment, size_t size) { return refuses() ? NULL : __libc_memalign(alignment, size); }
void *aligned_alloc(size_t alignment, size_t size) { return memalign(alignment, size); }
int posix_memalign(void **place, size_t alignment, size_t size) {
    void *made = memalign(alignment, size);
    if (!made) return ENOMEM;
    *place = made;
    return 0;
}
"""

# Tables of 1000 rows on 20 pages, with the distinct values of their columns.
# `a` and `d` are cut down to a row, and both ends of the chain are joined first.
CHAIN = {"a": ("k 1000", "x 1000"), "b": ("x 1000", "y 10"), "c": ("y 10", "x 1000"), "d": ("x 1000", "k 1000")}
CHAIN_LOAD = "SELECT count(*) FROM a, b, c, d" " WHERE a.k = 1 AND d.k = 1 AND a.x = b.x AND b.y = c.y AND c.x = d.x\n"
# Two indexes, of which one fits into 4 pages.
KNAPSACK = {"t": ("c 1000",), "v": ("d 1000", "e 1000")}
KNAPSACK_LOAD = "-- weight 10\nSELECT c FROM t ORDER BY c;\n-- weight 11\nSELECT d, e FROM v ORDER BY d, e;\n"
CERTIFICATE = "\n".join(
    [
        "cophy certificate 1",
        "budget 4",
        "config 2",
        "cost 954000",
        "bound 954000",
        "sets 0",
        "tree 3",
        "B 1",
        "L 0",
        "L 0",
        "end",
        "",
    ]
)
EDITS = "remove 2\nadd 11 SELECT d, e FROM v ORDER BY d, e\nweigh 1 1\nadvise\n"
MEMORY = 7
MOST = 1_000_000


@dataclass
class Case:
    """A command: its words, where names of files in capitals stand for paths, what these hold, and how its answer begins."""

    words: str
    files: dict[str, str]
    head: bytes


def catalogue(tables: dict[str, tuple[str, ...]]) -> str:
    text = "version = 1\n"
    for table, columns in tables.items():
        text += f'[[table]]\nname = "{table}"\nrows = 1000\npages = 20\n'
        for column in columns:
            name, distinct = column.split()
            text += f'[[table.column]]\nname = "{name}"\nkind = "int"\nwidth = 4\ndistinct = {distinct}\n'
    return text


def example(name: str) -> str:
    with open(os.path.join(ROOT, "examples", name)) as file:
        return file.read()


def cases() -> list[Case]:
    knapsack = {"CAT": catalogue(KNAPSACK), "LOAD": KNAPSACK_LOAD}
    return [
        Case(
            "explain CAT LOAD CONF 1",
            {"CAT": catalogue(CHAIN), "LOAD": CHAIN_LOAD, "CONF": ""},
            b"statement 1 plan 136082 upkeep 0\n",
        ),
        Case(
            "cost CAT LOAD",
            {"CAT": example("shop.toml"), "LOAD": example("shop.sql")},
            b"statement 1 weight 100 cost 5010\n",
        ),
        Case(
            "advise CAT LOAD 4 --cert PROOF", knapsack, b"budget 4\ncandidates 2 left over 0\npick 2 v(d, e) 4 pages\n"
        ),
        Case("check CAT LOAD CERT", {**knapsack, "CERT": CERTIFICATE}, b"proved cost 954000 bound 954000 budget 4\n"),
        Case("retune CAT LOAD EDITS 4", {**knapsack, "EDITS": EDITS}, b"advice 1\nbudget 4\ncandidates 2 left over 0\n"),
    ]


def put(folder: str, name: str, text: str) -> str:
    path = os.path.join(folder, name)
    with open(path, "w") as file:
        file.write(text)
    return path


def shim(folder: str) -> str:
    """The path of the shared library."""
    source, built = put(folder, "shim.c", SHIM), os.path.join(folder, "shim.so")
    done = subprocess.run(
        ["cc", "-O1", "-fno-builtin", "-shared", "-fPIC", "-o", built, source], capture_output=True, text=True
    )
    if done.returncode:
        sys.exit(f"cc: {done.stderr}")
    return built


@dataclass
class Told:
    """What a run ended with: its status, its output, and the certificate that it put, if any."""

    status: int
    output: bytes
    put: bytes | None


class Refusing:
    """Runs a command where one allocation is refused."""

    def __init__(self, words: list[str], folder: str, library: str, all_behind: bool) -> None:
        self.words = words
        self.mark, self.proof = os.path.join(folder, "mark"), os.path.join(folder, "PROOF")
        self.env = {**os.environ, "LD_PRELOAD": library, "REFUSED_MARK": self.mark}
        if all_behind:
            self.env["REFUSED_ALL"] = "1"

    def run(self, number: int) -> tuple[Told, bool]:
        """What it ended with, and whether the allocation of that number came; number 0 refuses none."""
        env = {**self.env, "REFUSED_CALL": str(number)}
        done = subprocess.run(
            self.words, env=env, stdin=subprocess.DEVNULL, stdout=subprocess.PIPE, stderr=subprocess.DEVNULL
        )
        put = taken(self.proof)
        return Told(done.returncode, done.stdout, put), taken(self.mark) is not None


def taken(path: str) -> bytes | None:
    """The bytes of a file, which is removed."""
    if not os.path.exists(path):
        return None
    with open(path, "rb") as file:
        held = file.read()
    os.unlink(path)
    return held


def examined(refusing: Refusing, wanted: Told) -> tuple[int, int, list[str]]:
    """How many runs ended with status 7 and with the answer, and what is wrong with others."""
    memory, answers, wrong = 0, 0, []
    for number in range(1, MOST):
        told, came = refusing.run(number)
        if told == Told(MEMORY, b"", None):
            memory += 1
        elif told == wanted:
            answers += 1
        else:
            wrong.append(f"allocation {number} refused: {told}"[:300])
        if not came:
            break
    return memory, answers, wrong


def refused(case: Case, program: str, library: str, all_behind: bool) -> tuple[int, int, list[str]]:
    """Runs a case until it asks for no more memory."""
    with TemporaryDirectory() as folder:
        paths = {name: put(folder, name, text) for name, text in case.files.items()}
        paths["PROOF"] = os.path.join(folder, "PROOF")
        words = [paths.get(word, word) for word in case.words.split()]
        refusing = Refusing([program, *words], folder, library, all_behind)
        wanted, _ = refusing.run(0)
        if wanted.status != 0 or not wanted.output.startswith(case.head):
            sys.exit(f"{case.words}: with all memory: {wanted}"[:300])
        return examined(refusing, wanted)


def main() -> None:
    parser = arguments(__doc__)
    parser.add_argument(
        "--all", action="store_true", help="refuse every allocation from that number on, and not that one alone"
    )
    given = parser.parse_args()
    need_program(given.program)
    lines: list[str] = []
    print_row(("command", "runs", "status 7", "answer", "wrong"), WIDTHS)
    with TemporaryDirectory() as folder:
        library = shim(folder)
        for case in cases():
            memory, answers, wrong = refused(case, given.program, library, given.all)
            print_row((case.words.split()[0], memory + answers + len(wrong), memory, answers, len(wrong)), WIDTHS)
            lines += [f"{case.words}: {line}" for line in wrong]
    for line in lines:
        print(line)
    sys.exit(1 if lines else 0)


if __name__ == "__main__":
    main()
