"""Catalogues and statements whose join graphs are chains, stars and cliques."""

SLOTS = 8
GRAPHS = ("chain", "star", "clique")


def column(number):
    return f"c{number}"


def index_keys(count):
    """The keys of so many indexes: single columns first, then pairs."""
    single = [(column(at),) for at in range(1, SLOTS + 1)]
    pairs = [(column(at), column(at % SLOTS + 1)) for at in range(1, SLOTS + 1)]
    return (single + pairs)[:count]


def table_text(number, indexes):
    rows = 10000 * number
    text = f'[[table]]\nname = "t{number}"\nrows = {rows}\npages = {rows // 50}\n'
    for at in range(1, SLOTS + 1):
        text += f'[[table.column]]\nname = "{column(at)}"\nkind = "int"\nwidth = 8\ndistinct = {100 * at * number}\n'
    for place, keys in enumerate(index_keys(indexes), 1):
        quoted = ", ".join(f'"{key}"' for key in keys)
        text += f'[[table.index]]\nname = "i{place}"\nkeys = [{quoted}]\n'
    return text


def catalogue_text(indexes):
    return "version = 1\n" + "".join(table_text(number, indexes) for number in range(1, SLOTS + 1))


def edges(graph, slots):
    if graph == "chain":
        return [(at, at + 1) for at in range(1, slots)]
    if graph == "star":
        return [(1, at) for at in range(2, slots + 1)]
    return [(a, b) for a in range(1, slots + 1) for b in range(a + 1, slots + 1)]


def select_text(graph, slots, repeat=1):
    sources = ", ".join(f"t{at}" for at in range(1, slots + 1))
    ties = [f"t{a}.{column(b)} = t{b}.{column(a)}" for a, b in edges(graph, slots)] * repeat
    return f"SELECT t1.c1 FROM {sources} WHERE {' AND '.join(ties)} ORDER BY t1.c2"
