"""Workloads of many shapes: tables from ten rows to ten millions, weights over four orders of magnitude, statements over one
to eight slots, few wide tables and many small ones, writes. Python's own generator is used with whole numbers alone, so each
call makes the same texts."""
import random
from dataclasses import dataclass

# Widths of columns in bytes, and rows that a page has.
WIDTHS = (2, 4, 8, 20, 60)
ROWS_OF_A_PAGE = (20, 50, 120)
CONDITIONS = ("= 1", "= 2", "BETWEEN 1 AND 3", "< 4", "IN (1, 2, 3)")


@dataclass(frozen=True)
class Shape:
    """Tables, columns of each, statements; how many slots a statement has at most and whether these are joined to the first
    one (a star) or each to the one before (a chain); the orders of magnitude of the tables' rows; the share of writes, in
    hundredths."""

    tables: int
    columns: int
    statements: int
    slots: int
    is_star: bool
    least_order: int
    most_order: int
    writes: int


SHAPES = {
    "steps-20": Shape(7, 12, 20, 4, False, 1, 7, 10),
    "steps-60": Shape(7, 14, 60, 4, False, 1, 7, 0),
    "steps-200": Shape(10, 20, 200, 3, False, 1, 7, 5),
    "looks-100": Shape(8, 24, 100, 1, False, 2, 7, 0),
    "looks-600": Shape(16, 16, 600, 1, False, 3, 7, 10),
    "stars-80": Shape(9, 16, 80, 5, True, 1, 6, 0),
    "wide-stars-40": Shape(10, 10, 40, 8, True, 1, 6, 0),
    "writes-150": Shape(8, 16, 150, 4, False, 2, 7, 45),
    "many-tables-200": Shape(70, 7, 200, 4, False, 1, 6, 5),
    "few-wide-100": Shape(2, 90, 100, 2, False, 4, 7, 0),
    "chains-100": Shape(10, 12, 100, 6, False, 2, 7, 0),
    "full-1000": Shape(20, 20, 1000, 2, False, 2, 7, 5),
}
# Of ten thousand of the pages of all useful candidates.
SHARES = (20, 100, 300, 1000, 3000, 5000)


class Maker:
    """Makes the texts of a shape from a seed."""

    def __init__(self, shape: Shape, seed: int, may_cluster: bool):
        self.shape = shape
        self.may_cluster = may_cluster
        self.draws = random.Random(seed)

    def column(self, number: int, rows: int, order: int) -> str:
        some = 10 ** self.draws.randrange(order + 1) * self.draws.randrange(1, 8)
        distinct = max(1, min(rows, rows if number == 0 else some))
        return (
            f'[[table.column]]\nname = "c{number}"\nkind = "int"\nwidth = {self.draws.choice(WIDTHS)}\n'
            f"distinct = {distinct}\nlow = 0\nhigh = {distinct}\n"
        )

    def table(self, number: int) -> str:
        shape = self.shape
        order = shape.least_order + number * (shape.most_order - shape.least_order + 1) // shape.tables
        if shape.is_star and number == 0:
            order = shape.most_order + 1
        rows = self.draws.randrange(10**order // 2, 10**order * 3 // 2)
        text = (
            f'[[table]]\nname = "t{number}"\nrows = {rows}\npages = {rows // self.draws.choice(ROWS_OF_A_PAGE) + 1}\n'
        )
        if self.may_cluster:
            text += "may_cluster = true\n"
        text += "".join(self.column(it, rows, order) for it in range(shape.columns))
        if self.draws.randrange(3):
            clustered = "true" if self.draws.randrange(2) else "false"
            text += f'[[table.index]]\nname = "key"\nkeys = ["c0"]\nunique = true\nclustered = {clustered}\n'
        return text

    def name(self) -> str:
        return f"c{self.draws.randrange(1, self.shape.columns)}"

    def write(self) -> str:
        table = self.draws.randrange(self.shape.tables)
        return self.draws.choice(
            (
                f"UPDATE t{table} SET {self.name()} = 1 WHERE {self.name()} = 2;",
                f"DELETE FROM t{table} WHERE {self.name()} = 3 AND {self.name()} > 1;",
                f"INSERT INTO t{table} VALUES ({', '.join('0' * self.shape.columns)});",
            )
        )

    def select(self) -> str:
        shape, draws = self.shape, self.draws
        slots = draws.randrange(1, shape.slots + 1)
        first = 0 if shape.is_star and slots > 1 else draws.randrange(shape.tables)
        tables = [first, *(draws.randrange(1, shape.tables) for _ in range(slots - 1))]
        parts = [
            f"s{0 if shape.is_star else it - 1}.{self.name()} = s{it}.{draws.choice(('c0', self.name()))}"
            for it in range(1, slots)
        ]
        for it in range(slots):
            parts += [f"s{it}.{self.name()} {draws.choice(CONDITIONS)}" for _ in range(draws.choice((0, 1, 1, 2)))]
        items = ", ".join(f"s{draws.randrange(slots)}.{self.name()}" for _ in range(draws.randrange(1, 4)))
        end, kind = "", draws.randrange(10)
        column = f"s{draws.randrange(slots)}.{self.name()}"
        if kind < 3:
            end = f" ORDER BY {column}"
        elif kind < 5:
            items, end = f"{column}, count(*)", f" GROUP BY {column}"
        listed = ", ".join(f"t{table} s{it}" for it, table in enumerate(tables))
        where = f" WHERE {' AND '.join(parts)}" if parts else ""
        return f"SELECT {items} FROM {listed}{where}{end};"

    def statement(self) -> str:
        weight = max(1, 10 ** self.draws.randrange(5) * self.draws.randrange(1, 10) // 10)
        is_write = self.draws.randrange(100) < self.shape.writes
        return f"-- weight {weight}\n{self.write() if is_write else self.select()}\n"

    def texts(self) -> tuple[str, str]:
        """A catalogue and a workload."""
        catalogue = f"version = {2 if self.may_cluster else 1}\n" + "".join(self.table(it) for it in range(self.shape.tables))
        return catalogue, "".join(self.statement() for _ in range(self.shape.statements))


def texts(name: str, seed: int, may_cluster: bool = False) -> tuple[str, str]:
    """The catalogue and the workload of a shape, whose tables may be clustered or not."""
    return Maker(SHAPES[name], seed, may_cluster).texts()
