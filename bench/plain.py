"""The crates of a repository as plain Rust, without contracts, built by rustc: a means to try in seconds how fast code is and
how many nodes it takes, before anything is proved. It is no build of the product: nothing is proved, each access to a
slice is checked when it runs, which costs some time, and the readers of text are left out."""
import os
import re
import shutil
import subprocess
import sys

from measure import ROOT

SOURCE = os.path.join(os.path.dirname(os.path.abspath(__file__)), "plain")
# Lowest first.
CRATES = (
    "adv_base",
    "adv_shelf",
    "plan_model",
    "planner",
    "cardinality",
    "hypo_indexes",
    "interesting_orders",
    "access_paths",
    "bip_model",
    "inum_cache",
    "programme_parts",
    "tuning",
    "lagrange_bound",
    "interior_point",
    "relaxations",
    "branch_bound",
    "certificate",
    "gap_checker",
    "candidates",
)
CLAUSE = re.compile(r"^[ \t]*(?:requires|ensures|decreases)\b(?![ \t]*[(:=.])[^\n{]*\{", re.M)
GHOST = re.compile(r"^[ \t]*(?:pub(?:\([a-z]+\))? )?ghost (?!use\b)[\w ]*[:=]?[^\n{]*\{", re.M)
# What is left out or written otherwise, in order.
CHANGES = (
    (r"^[ \t]*(pub )?ghost use [^;]*;\n", ""),
    (r"^[ \t]*#!?\[(tactic|cycle)[^\n]*\]\n", ""),
    (r"^[ \t]*///[^\n]*\n", ""),
    (r"#\[cfg\(test\)\]\s*mod tests;\n", ""),
    (r"^[ \t]*#\[error\([^\n]*\)\]\n", ""),
    (r"^use (thiserror::Error|std::marker::Model);\n", ""),
    (r"^use std::(alloc|num)::", "use shim::"),
    (r"vec!\[in (\w+); ([^;\]]+); ([^;]+?)\]\?", r"shim::filled(\1, \2, \3)?"),
    (r"vec!\[in (\w+); ([^;\]]+)\]\?", r"shim::listed(\1, vec![\2])?"),
    (r"format!\(in \w+; ([^;]*?)\)\?", r"format!(\1)"),
    (r"Box::new\((\w+), ", r"shim::boxed(\1, "),
    (r"<(\w+): Drop>", r"<\1>"),
    (r"\.collect\(alloc\)", ".collect_in(alloc)"),
)


def block_end(text: str, at: int) -> int:
    """The place behind the block whose brace stands at `at`."""
    depth = 0
    while True:
        depth += {"{": 1, "}": -1}.get(text[at], 0)
        at += 1
        if depth == 0:
            return at


def without(text: str, pattern: re.Pattern[str]) -> str:
    """A text without the blocks that a pattern begins. The semicolon of a declaration stays behind its clauses."""
    while found := pattern.search(text):
        end = block_end(text, found.end() - 1)
        if pattern is CLAUSE and text[end : end + 1] == ";":
            text = text[: found.start()].rstrip() + text[end:]
            continue
        while pattern is GHOST and text[end : end + 1] in (",", ";"):
            end += 1
        text = text[: found.start()] + text[end:].removeprefix("\n")
    return text


def derived(found: re.Match[str]) -> str:
    names = [name.strip() for name in found.group(1).split(",")]
    kept = [name for name in names if name and name not in ("Drop", "Error")]
    return f"#[derive({', '.join(kept)})]" if kept else ""


def rust(text: str, is_root: bool) -> str:
    """A file of Rattle as one of Rust."""
    for pattern, new in CHANGES[:3]:
        text = re.sub(pattern, new, text, flags=re.M)
    text = without(without(text, GHOST), CLAUSE)
    for pattern, new in CHANGES[3:]:
        text = re.sub(pattern, new, text, flags=re.M)
    text = re.sub(r"impl[^\n]* Model for [^{]*\{\s*\}\n", "", text)
    text = re.sub(r"#\[derive\(([^)]*)\)\]", derived, text)
    text = re.sub(r"^(?!//!)", "use shim::{Collect, Vec};\n", text, count=1, flags=re.M)
    return "#![allow(warnings)]\n" + text if is_root else text


def translate(root: str, crate: str, out: str) -> None:
    """Writes a crate's files."""
    source = os.path.join(root, "crates", crate, "src")
    for at, _, names in os.walk(source):
        for name in names:
            path = os.path.join(at, name)
            inner = os.path.relpath(path, source)
            if not name.endswith(".rt") or inner.startswith("tests"):
                continue
            with open(path) as file:
                text = rust(file.read(), name == "lib.rt")
            if crate == "adv_shelf":
                # No file is read or written: of this crate the takers, and what shelves are, alone.
                if name not in ("lib.rt", "shelf.rt", "taker.rt"):
                    continue
                if name == "lib.rt":
                    text = ("#![allow(warnings)]\nmod shelf;\nmod taker;\n"
                            "pub use shelf::{Failed, PutFault, Shelf};\npub use taker::Taker;\n")
            if crate == "adv_base":
                # No text is read, so no dates either.
                text = "" if name == "days.rt" else text.replace("pub use days::day_of;\n", "")
            to = os.path.join(out, crate, inner.removesuffix(".rt") + ".rs")
            os.makedirs(os.path.dirname(to), exist_ok=True)
            with open(to, "w") as file:
                file.write(text)


def compiled(words: list[str], folder: str) -> None:
    done = subprocess.run(
        ["rustc", "--edition", "2024", "-C", "opt-level=3", "-C", "codegen-units=1", "-L", "lib", *words],
        cwd=folder,
        capture_output=True,
        text=True,
    )
    if done.returncode:
        sys.exit(f"rustc {' '.join(words)}:\n{done.stderr[-5000:]}")


def plain(folder: str, root: str = ROOT, name: str = "main") -> str:
    """The path of a program, built in a folder."""
    if not shutil.which("rustc"):
        sys.exit("there is no rustc on the path")
    os.makedirs(os.path.join(folder, "lib"), exist_ok=True)
    library = ["--crate-type", "rlib", "-C", "embed-bitcode=yes", "--out-dir", "lib"]
    compiled([*library, "--crate-name", "shim", os.path.join(SOURCE, "shim.rs")], folder)
    compiled([*library, "--crate-name", "indexmap", os.path.join(SOURCE, "indexmap.rs"), "--extern", "shim"], folder)
    known = ["--extern", "shim", "--extern", "indexmap"]
    for crate in CRATES:
        shutil.rmtree(os.path.join(folder, crate), ignore_errors=True)
        translate(root, crate, folder)
        compiled([*library, "--crate-name", crate, f"{crate}/lib.rs", *known], folder)
        known += ["--extern", crate]
    compiled(["-C", "lto=fat", "-o", "plain", os.path.join(SOURCE, f"{name}.rs"), *known], folder)
    return os.path.join(folder, "plain")
