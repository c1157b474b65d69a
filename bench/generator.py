"""The texts of the generator, as the crate `workload_gen` makes them."""
MODULUS = 1 << 64


class Draws:
    """Numbers drawn one after the other from a seed."""

    def __init__(self, seed: int):
        self.state = seed

    def draw(self, count: int) -> int:
        """A number from 0 to below `count`."""
        self.state = (self.state * 6364136223846793005 + 1442695040888963407) % MODULUS
        return (self.state >> 33) % count


def column(name: str, kind: str, width: int, distinct: int, ends: tuple[object, object] | None = None) -> str:
    text = f'[[table.column]]\nname = "{name}"\nkind = "{kind}"\nwidth = {width}\ndistinct = {distinct}\n'
    return text if ends is None else text + f"low = {ends[0]}\nhigh = {ends[1]}\n"


def table(number: int, draws: Draws) -> str:
    rows = 1000 * (1 + draws.draw(1000))
    first = 10 + draws.draw(991)
    second = 10 + draws.draw(991)
    return "".join(
        (
            f'[[table]]\nname = "t{number}"\nrows = {rows}\npages = {rows // 50}\n',
            column("k", "int", 8, rows),
            column("f", "int", 8, 1000),
            column("a", "int", 4, first, (1, first)),
            column("b", "int", 4, second, (1, second)),
            column("d", "date", 4, 3653, ('"2000-01-01"', '"2009-12-31"')),
            '[[table.index]]\nname = "pk"\nkeys = ["k"]\nunique = true\n',
        )
    )


def statement(tables: int, draws: Draws) -> str:
    weight = 1 + draws.draw(100)
    i = 1 + draws.draw(tables)
    v = 1 + draws.draw(1000)
    kind = draws.draw(5)
    j = i % tables + 1
    lines = (
        f"SELECT a, b FROM t{i} WHERE a = {v} ORDER BY b;",
        f"SELECT k, d FROM t{i} WHERE b BETWEEN {v} AND {v + 50};",
        f"SELECT x.a, y.b FROM t{i} x, t{j} y WHERE x.f = y.k AND x.b = {v} ORDER BY x.a;",
        f"SELECT a, sum(b) FROM t{i} GROUP BY a;",
        f"UPDATE t{i} SET b = {v} WHERE k = {v};",
    )
    return f"-- weight {weight}\n{lines[kind]}\n"


def texts(seed: int, tables: int, statements: int) -> tuple[str, str]:
    """A catalogue and a workload."""
    draws = Draws(seed)
    catalogue = "version = 1\n" + "".join(table(number, draws) for number in range(1, tables + 1))
    return catalogue, "".join(statement(tables, draws) for _ in range(statements))
