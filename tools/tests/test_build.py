"""What the script `cophy` builds and when, in which order, and what it tells of that."""
from __future__ import annotations

import contextlib
import os
import shutil
import signal
import subprocess
import unittest
from pathlib import Path

from patience import LONG, until
from script_copy import OverCopy


class Build(OverCopy):
    def test_a_build_tells_each_crate_and_its_number(self) -> None:
        ran = self.copy.call("cost", "a", "b", FAKE_TEXT="done\\n", FAKE_STATUS="3")
        self.assertEqual((ran.returncode, ran.stdout), (3, b"done\n"))
        for told in (r"proving adv_base \(1 of 2\),", r"building cophy_cli \(2 of 2\),", "built, in"):
            self.assertRegex(ran.stderr.decode(), rf"{told} \d+ min \d\d")
        called = self.copy.called()
        self.assertEqual(called[0], "rt lib --jobs 1 in adv_base")
        self.assertTrue(called[1].startswith("rt run -- cost "))
        self.assertEqual(called[2], "program cost a b")

    def test_only_crates_that_the_program_stands_on_are_proved(self) -> None:
        lines = ["base: jiff", "apart: base", "left: base", "right: base", "top: right left", "cophy_cli: top"]
        (self.copy.root / "crates.txt").write_text("# Lowest first.\n" + "\n".join(lines) + "\n")
        for crate in ("base", "left", "right", "top", "apart"):
            (self.copy.root / "crates" / crate).mkdir()
        self.copy.call("cost", "a", "b")
        called = [it.split()[-1] for it in self.copy.called() if it.startswith("rt lib")]
        self.assertEqual(called, ["base", "left", "right", "top"])

    def test_several_crates_are_proved_at_once_where_that_is_asked_or_the_machine_allows(self) -> None:
        self.lay_crates(["base:", "top: base", "cophy_cli: top"], {"base": 1, "top": 1})
        ran = self.copy.call("cost", "a", "b", COPHY_JOBS="4", FAKE_TEXT="done\\n")
        self.assertEqual((ran.returncode, ran.stdout), (0, b"done\n"))
        for told in ("proving 3 crates, with at most 4 processes", r"building cophy_cli \(3 of 3\)"):
            self.assertRegex(ran.stderr.decode(), rf"{told}, \d+ min \d\d")
        called = self.copy.called()
        self.assertEqual(called.pop(0), "rt lib --jobs 3 in base")
        self.assertEqual(called[0], "rt lib --jobs 3 in top")
        self.assertTrue(called[1].startswith("rt run -- cost "))
        self.assertEqual(called[2], "program cost a b")

    def test_a_word_that_is_no_number_of_jobs_is_passed_over_and_told(self) -> None:
        for jobs in ("0", "four", "-1", "100"):
            with self.subTest(jobs=jobs):
                self.copy.forget()
                ran = self.copy.call("cost", "a", "b", COPHY_JOBS=jobs)
                self.assertIn(b"COPHY_JOBS is no number from 1 to 99", ran.stderr)
                self.assertNotIn(f"--jobs {jobs} ", self.copy.called()[0])

    def lay_crates(self, lines: list[str], sizes: dict[str, int]) -> None:
        """Lists these crates, and makes them of so many lines."""
        (self.copy.root / "crates.txt").write_text("\n".join(lines) + "\n")
        for crate, size in sizes.items():
            source = self.copy.root / "crates" / crate / "src"
            source.mkdir(parents=True, exist_ok=True)
            (source / "lib.rt").write_text("//\n" * size)

    def test_the_crate_for_which_the_most_waits_is_begun_first_and_with_several_processes(self) -> None:
        lines = ["base:", "small: base", "large: base", "top: large", "other: base", "cophy_cli: top small other"]
        self.lay_crates(lines, {"base": 1, "small": 2, "large": 5, "top": 1, "other": 1})
        room = self.copy.folder / "room"
        room.mkdir()
        ran = self.copy.call("cost", "a", "b", COPHY_JOBS="4", FAKE_TOGETHER="large small", TMPDIR=str(room))
        self.assertEqual(ran.returncode, 0)
        called = [it for it in self.copy.called() if it.startswith("rt lib")]
        self.assertEqual(called[0], "rt lib --jobs 3 in base")
        self.assertEqual(set(called[1:3]), {"rt lib --jobs 3 in large", "rt lib --jobs 1 in small"})
        self.assertEqual({it.split()[-1] for it in called[3:]}, {"top", "other"})
        self.assertEqual(list(room.iterdir()), [])

    def test_where_a_program_stands_crates_are_proved_in_turn_in_the_checkout(self) -> None:
        self.copy.build()
        (self.copy.root / "out" / "built").unlink()
        self.copy.call("cost", "a", "b", COPHY_JOBS="9")
        self.assertEqual(self.copy.called()[0], "rt lib --jobs 4 in adv_base")

    def test_of_two_calls_at_once_the_second_waits_for_the_first_ones_build(self) -> None:
        how = self.copy.environment(FAKE_UNTIL=str(self.copy.goes_on), FAKE_TEXT="done")
        root = self.copy.root
        words = [str(root / "cophy"), "cost", "a", "b"]
        pipe = subprocess.PIPE
        first = subprocess.Popen(words, cwd=root, env=how, stdout=pipe, stderr=pipe, text=True)
        until(self.copy.called, "the first one builds")
        second = subprocess.Popen(words, cwd=root, env=how, stdout=pipe, stderr=pipe, text=True)
        assert second.stderr is not None
        self.assertEqual(second.stderr.readline(), f"cophy: waiting for another build in {root}\n")
        self.copy.goes_on.touch()
        said, told = first.communicate(timeout=LONG)
        self.assertEqual((first.returncode, said), (0, "done"))
        self.assertIn("first use", told)
        self.assertEqual((*second.communicate(timeout=LONG), second.returncode), ("done", "", 0))
        self.assertEqual(len([it for it in self.copy.called() if it.startswith("rt lib")]), 1)

    def test_a_checkout_that_cannot_be_written_is_told_in_a_line(self) -> None:
        causes = {
            "File exists": lambda out: out.touch(),
            "Is a directory": lambda out: (out / "build.lock").mkdir(parents=True),
        }
        for cause, lay in causes.items():
            with self.subTest(cause=cause):
                out = self.copy.root / "out"
                lay(out)
                ran = self.copy.call("cost", "a", "b")
                told = f"cophy: the program has to be built, and {out} can't be written: {cause}\n"
                self.assertEqual((ran.returncode, ran.stdout, ran.stderr.decode()), (70, b"", told))
                shutil.rmtree(out, ignore_errors=True)
                out.unlink(missing_ok=True)

    def test_a_checkout_without_the_right_to_write_is_told_in_a_line(self) -> None:
        user = 65534 if os.geteuid() == 0 else None
        self.copy.folder.chmod(0o755)
        self.copy.root.chmod(0o555)
        self.addCleanup(self.copy.root.chmod, 0o755)
        ran = subprocess.run(
            [self.copy.root / "cophy", "cost", "a", "b"],
            cwd=self.copy.root,
            env=self.copy.environment(LC_ALL="C"),
            capture_output=True,
            text=True,
            check=False,
            user=user,
        )
        told = f"cophy: the program has to be built, and {self.copy.root / 'out'} can't be written: Permission denied\n"
        self.assertEqual((ran.returncode, ran.stdout, ran.stderr), (70, "", told))

    def test_a_log_that_cannot_be_written_is_told(self) -> None:
        log = self.copy.root / "out" / "build.log"
        log.mkdir(parents=True)
        ran = self.copy.call("cost", "a", "b")
        self.assertEqual((ran.returncode, ran.stdout), (70, b""))
        self.assertEqual(ran.stderr.splitlines()[-1].decode(), f"cophy: the build can't go on: {log}: Is a directory")

    def test_a_circle_in_the_list_of_crates_ends_the_build(self) -> None:
        self.lay_crates(["one: two", "two: one", "cophy_cli: one two"], {"one": 1, "two": 1})
        self.assertEqual(self.copy.call("cost", "a", "b", COPHY_JOBS="4").returncode, 70)
        self.assertEqual(self.copy.called(), [])

    def test_a_word_to_the_script_alone_ends_the_build(self) -> None:
        for number in (signal.SIGTERM, signal.SIGHUP):
            for jobs in ("1", "4"):
                with self.subTest(number=number, jobs=jobs):
                    started = self.begin(jobs, "900", signal.SIG_DFL)
                    os.kill(started.pid, number)
                    self.assertEqual(started.wait(timeout=LONG), 130)
                    until(lambda: not self.running(), "all has ended")

    def test_an_interrupt_ends_what_is_begun_and_leaves_nothing(self) -> None:
        started = self.begin("4", "900", signal.SIG_DFL)
        os.killpg(started.pid, signal.SIGINT)
        self.assertEqual(started.wait(timeout=LONG), 130)
        until(lambda: not self.running(), "all has ended")
        self.assertEqual(list((self.copy.folder / "room").iterdir()), [])
        self.assertEqual(sorted(it.name for it in (self.copy.root / "out").iterdir()), ["build.lock", "build.log"])

    def test_a_signal_that_is_to_be_passed_over_ends_nothing(self) -> None:
        for number in (signal.SIGINT, signal.SIGHUP):
            with self.subTest(number=number):
                started = self.begin("4", "1", signal.SIG_IGN)
                os.killpg(started.pid, number)
                self.assertEqual(started.wait(timeout=LONG), 0)

    def begin(self, jobs: str, seconds: str, what: signal.Handlers) -> subprocess.Popen[bytes]:
        """Begins a build whose steps take so long, and waits until a crate is begun. What an interrupt and a terminal that is
        closed do is said."""

        def prepare() -> None:
            for number in (signal.SIGINT, signal.SIGHUP):
                signal.signal(number, what)

        self.copy.forget()
        self.lay_crates(["base:", "top: base", "cophy_cli: top"], {"base": 1, "top": 1})
        room = self.copy.folder / "room"
        room.mkdir(exist_ok=True)
        started = subprocess.Popen(
            [self.copy.root / "cophy", "cost", "a", "b"],
            cwd=self.copy.root,
            env=self.copy.environment(COPHY_JOBS=jobs, FAKE_SECONDS=seconds, TMPDIR=str(room)),
            stdin=subprocess.DEVNULL,
            stderr=subprocess.DEVNULL,
            start_new_session=True,
            preexec_fn=prepare,
        )
        until(self.copy.called, "a crate is begun")
        return started

    def running(self) -> list[str]:
        """What runs in the copy's folders."""
        found = []
        for it in Path("/proc").glob("[0-9]*/cwd"):
            with contextlib.suppress(OSError):
                if os.readlink(it).startswith(str(self.copy.folder)):
                    found.append(str(it))
        return found

    def test_a_crate_that_is_not_proved_ends_the_build(self) -> None:
        self.lay_crates(["base:", "top: base", "cophy_cli: top"], {"base": 1, "top": 1})
        room = self.copy.folder / "room"
        room.mkdir()
        ran = self.copy.call("cost", "a", "b", COPHY_JOBS="4", FAKE_RT="1", TMPDIR=str(room))
        self.assertEqual((ran.returncode, ran.stdout), (70, b""))
        self.assertIn(b"the build failed", ran.stderr)
        self.assertEqual(self.copy.called(), ["rt lib --jobs 3 in base"])
        self.assertEqual(list(room.iterdir()), [])

    def test_a_second_call_builds_nothing(self) -> None:
        self.copy.call("cost", "a", "b")
        before = len(self.copy.called())
        ran = self.copy.call("cost", "a", "b")
        self.assertEqual(self.copy.called()[before:], ["program cost a b"])
        self.assertEqual(ran.stderr, b"")

    def test_a_newer_source_is_built_again(self) -> None:
        self.copy.build()
        source = self.copy.root / "crates" / "adv_base" / "src" / "lib.rt"
        source.touch()
        os.utime(source, (2**31, 2**31))
        self.copy.call("cost", "a", "b")
        self.assertEqual(self.copy.called()[0], "rt lib --jobs 1 in adv_base")

    def test_a_failed_build_ends_with_70_and_prints_nothing(self) -> None:
        ran = self.copy.call("cost", "a", "b", FAKE_RT="1")
        self.assertEqual((ran.returncode, ran.stdout), (70, b""))
        self.assertIn(b"the build failed", ran.stderr)
        self.assertEqual(self.copy.called(), ["rt lib --jobs 1 in adv_base"])
        self.assertFalse((self.copy.root / "out" / "built").exists())

    def test_without_rt_it_says_what_to_install(self) -> None:
        (self.copy.folder / "bin" / "rt").unlink()
        path = f"{self.copy.folder / 'bin'}:/usr/bin:/bin"
        for words in (("cost", "a", "b"), ("--unproved", "cost", "a", "b")):
            with self.subTest(words=words):
                ran = self.copy.call(*words, PATH=path)
                self.assertEqual((ran.returncode, ran.stdout), (70, b""))
                self.assertIn(b"install the Rattle kit", ran.stderr)

    def test_on_a_terminal_progress_is_one_line_that_is_written_over(self) -> None:
        later = r"\rcophy: proving adv_base \(1 of 2\), [0-9]+ min (?!00)[0-9]{2} s so far"
        self.assertRegex(self.copy.on_terminal("cost", "a", "b", goes_on_at=later).decode(), later)


if __name__ == "__main__":
    unittest.main()
