"""Programs of Rattle over the crates of a repository, which stand as text in folders of bench/: copied to a folder of
their own, and there proved and built, or run unproved."""
import os
import shutil
import subprocess
import sys
from collections.abc import Iterable
from dataclasses import dataclass, field

from measure import ROOT

BENCH = os.path.dirname(os.path.abspath(__file__))
TRY_SECONDS = 3600


@dataclass
class Source:
    """A program: its crate's name, the folders of bench/ with its files, later ones over earlier ones, the crates that it
    uses, and words to run it on once it is built."""

    name: str
    uses: tuple[str, ...]
    words: tuple[str, ...]
    folders: tuple[str, ...] = ()
    # Of a folder before the last, only paths that begin so are taken.
    shared: tuple[str, ...] = field(default=())


def crates(root: str) -> dict[str, list[str]]:
    """Each crate of a repository with what it stands on, lowest first."""
    with open(os.path.join(root, "crates.txt")) as file:
        lines = [line.split("#")[0].split(":") for line in file]
    return {line[0].strip(): line[1].split() for line in lines if len(line) == 2}


def below(names: Iterable[str], known: dict[str, list[str]]) -> set[str]:
    """These crates and all below them, without those of the kit."""
    found: set[str] = set()
    left = list(names)
    while left:
        name = left.pop()
        if name in known and name not in found:
            found.add(name)
            left.extend(known[name])
    return found


def copy_source(source: Source, crate: str) -> None:
    """The program's files, each named and naming as the crate is."""
    folders = source.folders or (source.name,)
    for folder in folders:
        top = os.path.join(BENCH, folder)
        for at, _, names in os.walk(top):
            for name in names:
                path = os.path.relpath(os.path.join(at, name), top).removesuffix(".txt")
                if folder != folders[-1] and not path.startswith(source.shared):
                    continue
                with open(os.path.join(at, name)) as file:
                    text = file.read().replace(folder, source.name)
                os.makedirs(os.path.dirname(os.path.join(crate, path)), exist_ok=True)
                with open(os.path.join(crate, path), "w") as file:
                    file.write(text)


def copied(source: Source, root: str, folder: str) -> str:
    """The crate of the program in a folder, above copies of the crates below it with what earlier builds proved. What the
    folder has from an earlier time stays where the repository has nothing newer."""
    known = crates(root)
    needed = below(source.uses, known)
    for name in needed:
        copy = os.path.join(folder, "crates", name)
        for part in ("src", "specs", "proofs"):
            shutil.rmtree(os.path.join(copy, part), ignore_errors=True)
        skipped = shutil.ignore_patterns("must-fail", *(("out",) if os.path.exists(os.path.join(copy, "out")) else ()))
        shutil.copytree(os.path.join(root, "crates", name), copy, ignore=skipped, dirs_exist_ok=True)
    shutil.copy(os.path.join(root, "HANDLES"), folder)
    with open(os.path.join(folder, "crates.txt"), "w") as file:
        file.writelines(f"{name}: {' '.join(known[name])}\n" for name in known if name in needed)
        file.write(f"{source.name}: {' '.join(source.uses)} anyhow\n")
    crate = os.path.join(folder, "crates", source.name)
    for part in ("src", "specs", "proofs"):
        shutil.rmtree(os.path.join(crate, part), ignore_errors=True)
    copy_source(source, crate)
    return crate


def need_rt() -> None:
    if not shutil.which("rt"):
        sys.exit("a program has to be built, and there is no rt on the path: give one that is built")


def built(source: Source, folder: str, root: str = ROOT) -> str:
    """The path of the program, proved and built in a folder."""
    need_rt()
    os.makedirs(folder, exist_ok=True)
    crate = copied(source, root, folder)
    print(f"proving and building {source.name}; that may take some minutes", file=sys.stderr)
    done = subprocess.run(["rt", "run", "--", *source.words], cwd=crate, capture_output=True, text=True)
    program = os.path.join(crate, "out", source.name)
    if done.returncode or not os.access(program, os.X_OK):
        sys.exit(f"{source.name} isn't built:\n{done.stdout[-2000:]}{done.stderr[-2000:]}")
    return program


def run_built(program: str, calls: list[list[str]]) -> list[str]:
    """What a built program prints, call by call."""
    texts = []
    for words in calls:
        done = subprocess.run([program, *words], capture_output=True, text=True)
        if done.returncode:
            sys.exit(f"{' '.join(words)}: status {done.returncode}, {done.stderr[:300].strip()}")
        texts.append(done.stdout)
    return texts


def run_unproved(source: Source, folder: str, calls: list[list[str]], root: str = ROOT) -> list[str]:
    """What the program prints, call by call, unproved, with checks and without optimising: its times are no figures."""
    need_rt()
    os.makedirs(folder, exist_ok=True)
    crate = copied(source, root, folder)
    cases = os.path.join(folder, "cases")
    shutil.rmtree(cases, ignore_errors=True)
    os.makedirs(cases)
    for number, words in enumerate(calls):
        open(os.path.join(cases, f"{number:04}"), "w").close()
        with open(os.path.join(cases, f"{number:04}.args"), "w") as file:
            file.writelines(f"{word}\n" for word in words)
    command = ["rt", "try", "--steps", "1", "--seconds", str(TRY_SECONDS), "--cases", cases]
    done = subprocess.run(command, cwd=crate, capture_output=True, text=True)
    return cases_in(done.stdout, len(calls), done.stderr)


def cases_in(text: str, count: int, errors: str) -> list[str]:
    """The output of each case in what `rt try` printed."""
    found: dict[int, list[str]] = {}
    at = None
    for line in text.splitlines():
        if line.startswith("== "):
            at = int(line.split()[1].split(".")[0])
            found[at] = []
        elif at is not None:
            found[at].append(line)
    missing = [number for number in range(count) if number not in found]
    if missing:
        sys.exit(f"cases {missing} gave nothing:\n{text[-1000:]}{errors[-3000:]}")
    return ["\n".join(found[number]) for number in range(count)]
