"""The command `cophy-lint`."""
from __future__ import annotations

import argparse
import sys
from pathlib import Path

from cophy_lint.checks import Warning, catalogue_remarks, lines, workload_remarks
from cophy_lint.edits import edits_remarks
from cophy_lint.rules import rules_remarks
from cophy_text import VERSION
from cophy_text.tokens import has_statement


def parser() -> argparse.ArgumentParser:
    """The words of the command."""
    made = argparse.ArgumentParser(
        prog="cophy-lint",
        description="Warns of what cophy takes in silence and is probably wrong: keys of a catalogue that mean nothing, "
        "tables without rows, rules and edits that change nothing. Notes what is a guess: columns without distinct, ranges of parameters; a line for each kind "
        "of note, with all its places. Of tables and columns that no statement of the workload names, their numbers count for "
        "nothing and aren't looked at. A file without warnings may still be refused.",
        epilog="The status is 0 where there are no warnings, whatever is noted; 1 where there are some; 2 where a file "
        "can't be read or the words are faulty.",
    )
    made.add_argument("catalogue", metavar="CATALOGUE")
    made.add_argument("workload", metavar="WORKLOAD", nargs="?")
    made.add_argument("--rules", metavar="FILE", help="a file of rules over the catalogue, for cophy ruled")
    made.add_argument("--edits", metavar="FILE", help="a file of edits of the workload, for cophy retune")
    made.add_argument("--version", action="version", version=f"cophy-lint {VERSION}")
    return made


def main() -> int:
    """Prints the warnings and notes, and gives the status."""
    words = parser().parse_args()
    try:
        workload, rules, edits = map(_content, (words.workload, words.rules, words.edits))
        # What edits add is named too.
        naming = workload + b"\n" + (edits or b"") if workload is not None else None
        remarks, document = catalogue_remarks(Path(words.catalogue).read_bytes(), naming)
    except OSError as fault:
        print(f"cophy-lint: {fault.filename}: {fault.strerror}", file=sys.stderr)
        return 2
    found = [(words.catalogue, remarks)]
    if workload is not None and (edits is None or has_statement(workload)):
        found.append((words.workload, workload_remarks(workload, document)))
    if rules is not None:
        found.append((words.rules, rules_remarks(rules, document, naming)))
    if edits is not None:
        found.append((words.edits, edits_remarks(edits, document, workload)))
    for file, remarks in found:
        for line in lines(remarks):
            print(f"{file}: {line}")
    return 1 if any(isinstance(it, Warning) for _, remarks in found for it in remarks) else 0


def _content(file: str | None) -> bytes | None:
    return Path(file).read_bytes() if file else None


if __name__ == "__main__":
    sys.exit(main())
