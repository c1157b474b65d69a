"""Runs a command and measures its time and its peak memory."""
import argparse
import os
import re
import shutil
import subprocess
import sys
import tempfile
import time
from dataclasses import dataclass

ROOT = os.path.dirname(os.path.dirname(os.path.abspath(__file__)))
TIME = shutil.which("time")
PROGRAM = os.path.join(ROOT, "crates", "cophy_cli", "out", "cophy_cli")


@dataclass
class Run:
    seconds: float
    processor: float
    peak_mib: float
    status: int
    output: bytes


def run_once(words):
    """Runs a command to its end. The peak is the largest resident set that the system saw, in MiB.

    What the system counts for a child begins with the memory of the process that started it, so GNU time, which is
    small, starts the command where it is installed. Else no peak below that of this script, some 20 MiB, can be seen.
    """
    with tempfile.TemporaryFile() as out, tempfile.NamedTemporaryFile("r") as peak:
        timed = [TIME, "-q", "-f", "%M", "-o", peak.name, *words] if TIME else words
        begun = time.perf_counter()
        child = subprocess.Popen(timed, stdin=subprocess.DEVNULL, stdout=out, stderr=subprocess.DEVNULL)
        _, status, usage = os.wait4(child.pid, 0)
        seconds = time.perf_counter() - begun
        child.returncode = os.waitstatus_to_exitcode(status)
        out.seek(0)
        kib = int(peak.read() or 0) if TIME else usage.ru_maxrss
        return Run(seconds, usage.ru_utime + usage.ru_stime, kib / 1024, child.returncode, out.read())


def run_counted(words):
    """The same by valgrind, with billions of instructions in the place of the processor's time. A process that the
    command's own takes the place of itself by, as a program does that wants another stack, is counted too."""
    with tempfile.TemporaryDirectory() as folder:
        log = os.path.join(folder, "log")
        tool = ["valgrind", "--tool=callgrind", "--trace-children=yes", "--callgrind-out-file=/dev/null"]
        run = run_once([*tool, f"--log-file={log}.%p", *words])
        texts = [open(os.path.join(folder, it)).read() for it in os.listdir(folder)]
    counts = [int(it) for text in texts for it in re.findall(r"Collected : (\d+)", text)]
    if not counts:
        sys.exit(f"valgrind counts nothing of {words[0]}")
    return Run(run.seconds, sum(counts) / 1e9, run.peak_mib, run.status, run.output)


def run_best(words, repeat):
    """The fastest of some runs."""
    return min((run_once(words) for _ in range(repeat)), key=lambda run: run.seconds)


def run_lightest(words, repeat):
    """The one of some runs that took the processor for the shortest time, whatever else the machine did."""
    return min((run_once(words) for _ in range(repeat)), key=lambda run: run.processor)


def arguments(description):
    """The options that every script has."""
    parser = argparse.ArgumentParser(description=description)
    parser.add_argument("--program", default=PROGRAM, help="the built program (default: that of this repository)")
    parser.add_argument("--repeat", type=int, default=3, help="how often each is run; the fastest counts (default: 3)")
    return parser


def need_program(path):
    if not os.access(path, os.X_OK):
        sys.exit(f"there is no program at {path}: build it by a call of ./cophy, or give --program")


def need_status_0(run, what):
    """A benchmark of a refusal would measure nothing."""
    if run.status != 0:
        sys.exit(f"{what}: status {run.status}, {run.output[:200].decode(errors='replace').strip()!r}")


def need_answer(run, what):
    """The same where an advice that was stopped counts too, with status 1."""
    if run.status != 1:
        need_status_0(run, what)


def print_row(cells, widths):
    print("  ".join(f"{cell!s:>{width}}" for cell, width in zip(cells, widths)), flush=True)
