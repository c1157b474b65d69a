"""What `cophy-pg` writes: whole or not at all, for its owner alone, and never one file over another."""
from __future__ import annotations

import os
import signal
import stat
import subprocess
import tempfile
import threading
import time
import unittest
from pathlib import Path

from example_tables import ADVICE, CATALOGUE
from fixtures import NO_PARSER, TOOL, InFolder
from patience import LONG

MARKER = "marker"


@unittest.skipIf(NO_PARSER, NO_PARSER)
class Written(InFolder):
    def setUp(self) -> None:
        super().setUp()
        (self.folder / "c.toml").write_text(CATALOGUE)
        (self.folder / "q.sql").write_text("SELECT a FROM t WHERE a = 5;\n")

    def run_tool(self, *words: str, **more: object) -> subprocess.CompletedProcess[str]:
        how = {"cwd": self.folder, "capture_output": True, "text": True, "check": False, "timeout": 120, **more}
        ran = subprocess.run([str(TOOL), *words], **how)  # type: ignore[call-overload]
        self.assertNotIn("Traceback", str(ran.stderr))
        return ran  # type: ignore[no-any-return]

    def rewrite(self, workload: str, *more: str, **how: object) -> subprocess.CompletedProcess[str]:
        return self.run_tool("rewrite", "c.toml", "q.sql", workload, *more, **how)

    def names(self) -> list[str]:
        return sorted(it.name for it in self.folder.iterdir())

    def refused(self, said: str, *words: str) -> None:
        """The call is refused with these words, and no file is made, changed or left behind."""
        before = {it: (self.folder / it).read_bytes() for it in self.names() if (self.folder / it).is_file()}
        ran = self.run_tool(*words)
        self.assertEqual((ran.returncode, ran.stdout), (1, ""), ran.stderr)
        self.assertIn(said, ran.stderr)
        after = {it: (self.folder / it).read_bytes() for it in self.names() if (self.folder / it).is_file()}
        self.assertEqual(after, before)

    def test_files_are_for_their_owner_alone(self) -> None:
        self.assertEqual(self.rewrite("w.sql", "--report", "r.txt", umask=0).returncode, 0)
        for name in ("w.sql", "r.txt"):
            self.assertEqual(stat.S_IMODE((self.folder / name).stat().st_mode), 0o600)
        self.assertEqual(self.names(), ["c.toml", "q.sql", "r.txt", "w.sql"])

    def test_a_file_that_was_open_to_others_is_replaced_by_one_that_is_not(self) -> None:
        old = self.folder / "w.sql"
        old.write_text(MARKER)
        old.chmod(0o666)
        reader = old.open()
        self.addCleanup(reader.close)
        self.assertEqual(self.rewrite("w.sql").returncode, 0)
        self.assertEqual(stat.S_IMODE(old.stat().st_mode), 0o600)
        self.assertEqual(reader.read(), MARKER)

    def test_nothing_is_written_through_a_link(self) -> None:
        target = self.folder / "target"
        target.write_text(MARKER)
        for name, where in (("link", "target"), ("dangling", "nowhere"), ("loop", "loop")):
            (self.folder / name).symlink_to(where)
            with self.subTest(name=name):
                said = f"{name} is a symbolic link, and nothing is written through one"
                self.refused(said, "rewrite", "c.toml", "q.sql", name)
                self.refused(said, "rewrite", "c.toml", "q.sql", "w.sql", "--report", name)
        self.assertEqual(target.read_text(), MARKER)
        self.assertFalse((self.folder / "nowhere").exists())

    def test_two_outputs_are_never_one_file(self) -> None:
        (self.folder / "old").write_text(MARKER)
        os.link(self.folder / "old", self.folder / "same")
        (self.folder / "inside").mkdir()
        (self.folder / "way").symlink_to(".")
        for one, other in (
            ("w", "w"),
            ("w", "./w"),
            ("w", "inside/../w"),
            ("w", "way/w"),
            ("old", "same"),
            ("-", "/dev/stdout"),
        ):
            with self.subTest(one=one, other=other):
                self.refused("it is the same file", "rewrite", "c.toml", "q.sql", one, "--report", other)

    def test_no_output_goes_over_an_input(self) -> None:
        os.link(self.folder / "q.sql", self.folder / "same")
        for name in ("q.sql", "c.toml", "same", "./q.sql"):
            with self.subTest(name=name):
                self.refused("is read, and it is the same file", "rewrite", "c.toml", "q.sql", name)

    def test_what_cannot_be_written_is_told_with_its_name_and_cause(self) -> None:
        (self.folder / "inside").mkdir()
        for name, said in (
            ("no/w.sql", "no/w.sql can't be written: there is no folder no"),
            ("q.sql/w.sql", "q.sql/w.sql: a part of its path is no folder"),
            ("inside", "inside is a folder"),
            ("x" * 300, "its name is too long"),
            ("/dev/full", "/dev/full: the disk is full"),
            ("/proc/w.sql", "/proc/w.sql"),
        ):
            with self.subTest(name=name[:20]):
                self.refused(said, "rewrite", "c.toml", "q.sql", name)

    def test_what_cannot_be_read_is_told_with_its_name_and_cause(self) -> None:
        for words, said in (
            (("rewrite", "gone.toml", "q.sql", "w.sql"), "gone.toml: it isn't there"),
            (("rewrite", "c.toml", "gone.sql", "w.sql"), "gone.sql: it isn't there"),
            (("rewrite", "c.toml", ".", "w.sql"), ".: it is a folder"),
            (("ddl", "c.toml", "gone"), "gone: it isn't there"),
        ):
            with self.subTest(words=words):
                self.refused(said, *words)

    @unittest.skipIf(os.geteuid() == 0 and not Path("/usr/bin/setpriv").exists(), "root may write everywhere")
    def test_a_folder_that_may_not_be_written_to_is_told(self) -> None:
        (self.folder / "shut").mkdir(mode=0o555)
        self.folder.chmod(0o755)
        words = [str(TOOL), "rewrite", "c.toml", "q.sql", "shut/w.sql"]
        if os.geteuid() == 0:
            words = ["/usr/bin/setpriv", "--reuid=65534", "--regid=65534", "--clear-groups", *words]
        ran = subprocess.run(words, cwd=self.folder, capture_output=True, text=True, check=False, timeout=LONG)
        self.assertEqual(ran.returncode, 1)
        self.assertIn("shut may not be written to", ran.stderr)

    def test_the_standard_output_and_devices_are_written_to_as_they_are(self) -> None:
        for name in ("-", "/dev/stdout"):
            with self.subTest(name=name):
                self.assertIn("SELECT a\nFROM t\nWHERE a = 5;", self.rewrite(name).stdout)
        ran = self.rewrite("/dev/null", "--report", "/dev/null")
        self.assertEqual((ran.returncode, ran.stdout), (0, ""))
        self.assertTrue(stat.S_ISCHR(os.stat("/dev/null").st_mode))
        self.assertEqual(self.names(), ["c.toml", "q.sql"])

    def test_a_pipe_is_written_to(self) -> None:
        os.mkfifo(self.folder / "pipe")
        found: list[str] = []
        reader = threading.Thread(target=lambda: found.append((self.folder / "pipe").read_text()))
        reader.start()
        self.assertEqual(self.rewrite("pipe").returncode, 0)
        reader.join(300)
        self.assertIn("WHERE a = 5", found[0])

    def test_who_reads_may_stop(self) -> None:
        (self.folder / "advice").write_text(ADVICE)
        for word in ("ddl c.toml advice | true", "rewrite c.toml q.sql - | true"):
            ran = subprocess.run(
                ["/bin/sh", "-c", f"sleep 1 | {TOOL} {word}"],
                cwd=self.folder,
                capture_output=True,
                text=True,
                check=False,
                timeout=LONG,
            )
            self.assertNotIn("Traceback", ran.stderr)
            self.assertNotIn("BrokenPipe", ran.stderr)

    def test_a_full_output_is_told(self) -> None:
        (self.folder / "advice").write_text(ADVICE)
        with open("/dev/full", "wb") as full:
            ran = subprocess.run(
                [TOOL, "ddl", "c.toml", "advice"],
                cwd=self.folder,
                stdout=full,
                stderr=subprocess.PIPE,
                text=True,
                check=False,
                timeout=LONG,
            )
        self.assertEqual((ran.returncode, ran.stderr), (1, "cophy-pg: the standard output: No space left on device\n"))

    def test_an_interrupt_leaves_the_old_file_or_the_new_one(self) -> None:
        old = "-- an old workload\n"
        many = "".join(f"SELECT a FROM t WHERE a = {it} ORDER BY a;\n" for it in range(900))
        (self.folder / "q.sql").write_text(many)
        for number in (signal.SIGINT, signal.SIGTERM, signal.SIGHUP):
            for wait in (0.2, 0.6, 1.0, 1.4):
                with self.subTest(number=number.name, wait=wait):
                    (self.folder / "w.sql").write_text(old)
                    words = [str(TOOL), "rewrite", "c.toml", "q.sql", "w.sql"]
                    process = subprocess.Popen(
                        words, cwd=self.folder, stdout=subprocess.PIPE, stderr=subprocess.PIPE, text=True
                    )
                    time.sleep(wait)
                    process.send_signal(number)
                    _, said = process.communicate(timeout=LONG)
                    text = (self.folder / "w.sql").read_text()
                    self.assertTrue(text == old or text.count("SELECT a\n") == 900, text[:100])
                    self.assertEqual(self.names(), ["c.toml", "q.sql", "w.sql"])
                    # What the interpreter says before it has begun with the script isn't ours.
                    self.assertNotIn("cophy_pg", said)


@unittest.skipIf(NO_PARSER, NO_PARSER)
class Module(unittest.TestCase):
    def test_of_several_files_all_are_put_in_place_or_none(self) -> None:
        from cophy_text import files

        with tempfile.TemporaryDirectory() as name:
            one, other = Path(name) / "one", Path(name) / "other"
            one.write_text(MARKER)
            listed = [files.File(str(one), b"new"), files.File(str(other), b"x" * 100)]
            before, files._beside = files._beside, self._full_at(2, files._beside)  # type: ignore[assignment]
            try:
                self.assertRaisesRegex(files.NoFile, "the disk is full", files.write, listed)
            finally:
                files._beside = before
            self.assertEqual(one.read_text(), MARKER)
            self.assertEqual([it.name for it in Path(name).iterdir()], ["one"])
            files.write(listed)
            self.assertEqual((one.read_text(), len(other.read_text())), ("new", 100))

    @staticmethod
    def _full_at(number: int, beside: object) -> object:
        """A writer whose disk is full at the file of this number."""
        from cophy_text import files

        calls: list[str] = []

        def write(file: files.File) -> str:
            calls.append(file.name)
            if len(calls) == number:
                raise files.NoFile(f"{file.name}: the disk is full")
            return str(beside(file))  # type: ignore[operator]

        return write


if __name__ == "__main__":
    unittest.main()
