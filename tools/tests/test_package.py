"""`tools/package`: what its packages hold, installed under another root and run there without the checkout."""
from __future__ import annotations

import gzip
import importlib.util
import os
import re
import shlex
import shutil
import subprocess
import unittest
from email import message_from_string
from pathlib import Path

from cophy_text import VERSION
from script_copy import OverCopy
from fixtures import ADVISOR, COPHY, ROOT
from patience import LONG

HAS_DPKG = all(map(shutil.which, ("dpkg-deb", "dpkg")))
LACKS = next((it for it in ("psycopg", "pglast", "rich", "jinja2") if importlib.util.find_spec(it) is None), "")
FILES = ("tools/package", "CHANGELOG.md", "LICENSE-MIT")
DOCUMENTS = ("FORMATS", "MYSQL", "POSTGRES", "SECURITY")
MODULES = ("tools/pg/cophy_pg", "tools/lint/cophy_lint", "tools/common/cophy_text")
COMMANDS = ("tools/pg/cophy-pg", "tools/lint/cophy-lint")
RETUNE = "examples/systemd/cophy-retune"
NEEDED = "python3 (>= 3.11), python3-psycopg, python3-pglast, python3-rich, python3-jinja2"


@unittest.skipUnless(HAS_DPKG, "dpkg isn't installed")
class OverPackages(OverCopy):
    """Tests that make the packages from a copy of what is packed, and install them."""

    def setUp(self) -> None:
        super().setUp()
        (self.copy.root / "docs").mkdir()
        for it in (*FILES, *(f"docs/{it}.md" for it in DOCUMENTS)):
            shutil.copy(ROOT / it, self.copy.root / it)
        for it in ("tools/pg", "tools/lint"):
            shutil.copytree(ROOT / it, self.copy.root / it)

    def package(self, *words: str, status: int = 0) -> subprocess.CompletedProcess[str]:
        ran = subprocess.run(
            [str(self.copy.root / "tools" / "package"), "--output", str(self.copy.folder), *words],
            cwd="/",
            capture_output=True,
            text=True,
            check=False,
            timeout=600,
            umask=0o077,
        )
        self.assertEqual(ran.returncode, status, ran.stderr)
        return ran

    def dpkg(self, there: Path, *words: str) -> str:
        """A call of dpkg that knows of nothing but what is under that root."""
        how = ("--force-not-root", "--force-depends", "--force-script-chrootless", "--path-include=/*")
        log = f"--log={self.copy.folder / 'log'}"
        ran = subprocess.run(
            ["dpkg", f"--root={there}", *how, log, *words], capture_output=True, text=True, check=True, timeout=600
        )
        return ran.stdout

    def installed(self, *words: str) -> Path:
        """The root under which both packages are installed."""
        self.debs = self.package(*words).stdout.splitlines()
        there = self.copy.folder / "there"
        (there / "var/lib/dpkg").mkdir(parents=True)
        (there / "var/lib/dpkg/status").touch()
        self.said = self.dpkg(there, "--install", *self.debs)
        for it in ("cophy", "cophy-pg"):
            self.assertIn("\nStatus: install ok installed\n", self.dpkg(there, "--status", it))
        return there

    def about(self, deb: str, what: str, *more: str) -> str:
        """What dpkg-deb says of a package."""
        how = ["dpkg-deb", what, deb, *more]
        return subprocess.run(how, capture_output=True, text=True, check=True, timeout=600).stdout

    def run_there(
        self, there: Path, *words: str, command: str = "usr/bin/cophy", **more: str
    ) -> subprocess.CompletedProcess[str]:
        """Runs a command where nothing of the checkout and no kit is on the path."""
        return subprocess.run(
            [str(there / command), *words],
            cwd=there / "usr/share/doc/cophy",
            env={"PATH": "/usr/bin:/bin", **more},
            capture_output=True,
            text=True,
            check=False,
            timeout=LONG,
        )


class Program(OverPackages):
    """The package of the program."""

    def test_it_packs_the_built_program_alone(self) -> None:
        self.assertIn("the program isn't built from these sources", self.package(status=1).stderr)
        self.copy.build()
        there = self.installed()
        built = self.copy.root / "crates" / "cophy_cli" / "out" / "cophy_cli"
        self.assertEqual((there / "usr/lib/cophy/cophy").read_bytes(), built.read_bytes())
        (self.copy.root / "crates" / "adv_base" / "src" / "lib.rt").write_text("")
        self.assertIn("the program isn't built from these sources", self.package(status=1).stderr)

    def test_faulty_words_are_told(self) -> None:
        for words in (("--program",), ("--nothing", "x"), ("x",)):
            with self.subTest(words=words):
                self.assertIn("the words are faulty", self.package(*words, status=2).stderr)
        self.assertIn("is no program", self.package("--program", "/nowhere/cophy", status=1).stderr)

    def test_help_and_manual_are_those_of_an_installed_program(self) -> None:
        self.copy.build()
        there = self.installed()
        self.assertEqual({oct(it.stat().st_mode & 0o7022) for it in (there / "usr").rglob("*")}, {"0o0"})
        manual = gzip.decompress((there / "usr/share/man/man1/cophy.1.gz").read_bytes()).decode()
        told = self.run_there(there, "--help")
        self.assertEqual((told.returncode, told.stderr), (0, ""))
        for text in (manual, told.stdout):
            self.assertIn("explain", text)
            for it in ("unproved", "checkout", "COPHY_", "build"):
                self.assertNotIn(it, text)
        self.assertRegex(
            self.run_there(there, "--version").stdout,
            r"\Acophy 1\.0\.0, .*; catalogue versions 1 and 2, certificate versions 1 and 2\n\Z",
        )
        self.assertEqual(self.run_there(there, "cost", "--help").stdout, told.stdout)
        self.assertEqual(self.run_there(there).stderr, told.stdout)
        completion = there / "usr/share/bash-completion/completions/cophy"
        subprocess.run(["bash", "-euc", f"source {completion}; complete -p cophy"], check=True, capture_output=True)

    def test_what_it_needs(self) -> None:
        self.copy.build()
        self.installed()
        fields = message_from_string(self.about(self.debs[0], "--field"))
        self.assertEqual(fields["Package"], "cophy")
        self.assertRegex(fields["Version"], rf"\A{re.escape(VERSION)}(~\S+)?\Z")
        self.assertRegex(fields["Depends"], r"\Alibc6\b")

    @unittest.skipUnless(os.access(COPHY, os.X_OK), "the program isn't built")
    def test_the_program_runs_under_another_root(self) -> None:
        there = self.installed("--program", str(COPHY.resolve()))
        self.assertEqual((there / "usr/lib/cophy/cophy").read_bytes(), COPHY.read_bytes())
        ran = self.run_there(there, "cost", "examples/single.toml", "examples/single.sql")
        self.assertEqual((ran.returncode, ran.stdout), (0, "statement 1 weight 1 cost 80000\ntotal 80000\n"))
        ran = self.run_there(there, "retune", *(f"examples/two.{it}" for it in ("toml", "sql", "edits")), "4")
        self.assertEqual((ran.returncode, ran.stdout.count("advice ")), (0, 3))
        self.assertEqual(self.run_there(there).returncode, 2)
        self.assertEqual(self.run_there(there, "cost", "no.toml", "examples/single.sql").returncode, 3)


class Tools(OverPackages):
    """The package of the tools for PostgreSQL."""

    def setUp(self) -> None:
        super().setUp()
        self.copy.build()
        (self.copy.root / MODULES[0] / "__pycache__").mkdir(exist_ok=True)
        (self.copy.root / MODULES[0] / "__pycache__" / "main.pyc").touch()
        self.there = self.installed()

    def call(self, *words: str, command: str = "usr/bin/cophy-pg") -> subprocess.CompletedProcess[str]:
        """A call where no server is."""
        here = str(self.copy.folder)
        return self.run_there(self.there, *words, command=command, HOME=here, PGHOST=here, PGDATABASE="shop")

    def test_what_it_needs(self) -> None:
        program, tools = (message_from_string(self.about(it, "--field")) for it in self.debs)
        wanted = {
            "Package": "cophy-pg",
            "Version": program["Version"],
            "Architecture": "all",
            "Depends": f"cophy (= {program['Version']}), {NEEDED}",
            "Recommends": "postgresql-15-hypopg",
            "Suggests": "python3-matplotlib",
        }
        self.assertEqual({it: tools[it] for it in wanted}, wanted)
        self.assertEqual(self.debs[1], f"{self.copy.folder}/cophy-pg_{tools['Version']}_all.deb")

    def test_files_are_those_of_the_repository_and_no_others(self) -> None:
        share = self.there / "usr/share/cophy-pg"
        found = {str(it.relative_to(share)) for it in share.rglob("*") if it.is_file()}
        of_modules = (it for part in MODULES for it in (ROOT / part).rglob("*"))
        wanted = {str(it.relative_to(ROOT)) for it in of_modules if it.is_file() and it.suffix != ".pyc"}
        scripts = {*COMMANDS, RETUNE}
        self.assertEqual(found, wanted | scripts)
        for it in found:
            self.assertEqual((share / it).read_bytes(), (ROOT / it).read_bytes(), it)
            self.assertEqual(os.access(share / it, os.X_OK), it in scripts, it)
        units = {it.name for it in (ROOT / "examples/systemd").iterdir()} - {"cophy-retune"}
        self.assertEqual({it.name for it in (self.there / "usr/lib/systemd/system").iterdir()}, units)
        documents = {it.name for it in (self.there / "usr/share/doc/cophy-pg").iterdir()}
        self.assertEqual(documents, {"copyright", "changelog.gz", "POSTGRES.md.gz", "SECURITY.md.gz"})

    def test_links_of_documents_lead_to_what_is_there(self) -> None:
        links = set[str]()
        for it in DOCUMENTS:
            (packed,) = (self.there / "usr/share/doc").glob(f"*/{it}.md.gz")
            text = gzip.decompress(packed.read_bytes()).decode()
            links |= {*re.findall(r"\]\(([^)\s]*)\)", text)}
        named = {it.partition("#")[0] for it in links if "://" not in it} - {""}
        self.assertIn("/usr/share/cophy-pg/tools/pg/cophy_pg/effect.schema.json", named)
        self.assertIn("/usr/share/doc/cophy/FORMATS.md.gz", named)
        for it in named:
            self.assertTrue(it.startswith("/usr/") and Path(f"{self.there}{it}").is_file(), it)

    def test_all_is_of_root_and_readable(self) -> None:
        kinds = {"drwxr-xr-x", "-rw-r--r--", "-rwxr-xr-x", "lrwxrwxrwx"}
        for deb in self.debs:
            for line in self.about(deb, "--contents").splitlines():
                mode, owner = line.split()[:2]
                self.assertIn(mode, kinds, line)
                self.assertEqual(owner, "root/root", line)
        links = {it.name: os.readlink(it) for it in (self.there / "usr/bin").iterdir() if it.is_symlink()}
        self.assertEqual(links, {Path(it).name: f"../share/cophy-pg/{it}" for it in COMMANDS})

    def test_lint_runs_and_purging_leaves_nothing(self) -> None:
        ran = self.call("--version", command="usr/bin/cophy-lint")
        self.assertEqual((ran.returncode, ran.stdout), (0, f"cophy-lint {VERSION}\n"))
        self.dpkg(self.there, "--purge", "cophy-pg", "cophy")
        self.assertFalse((self.there / "usr").exists())

    def test_the_installation_ends_with_where_to_begin(self) -> None:
        told = "cophy-pg: to begin: cophy-pg setup DATABASE\n"
        self.assertTrue(self.said.endswith(told), self.said)
        self.copy.lay_script("postinst", self.about(self.debs[1], "--info", "postinst"))
        for word, wanted in (("configure", told), ("abort-upgrade", "")):
            ran = subprocess.run(
                [str(self.copy.folder / "postinst"), word], capture_output=True, text=True, check=True, timeout=LONG
            )
            self.assertEqual((ran.stdout, ran.stderr), (wanted, ""))

    @unittest.skipIf(LACKS, f"python3-{LACKS} isn't installed")
    def test_without_a_command_it_says_where_to_begin(self) -> None:
        ran = self.call()
        self.assertEqual((ran.returncode, ran.stderr), (2, ""))
        self.assertTrue(ran.stdout.startswith("cophy-pg setup DATABASE makes a role that only reads "), ran.stdout)
        self.assertLessEqual(len(ran.stdout.split()), 45)
        manual = ran.stdout.split()[-1]
        self.assertTrue(manual.startswith("/usr/share/doc/"), manual)
        self.assertTrue(Path(f"{self.there}{manual}").is_file())

    @unittest.skipIf(LACKS, f"python3-{LACKS} isn't installed")
    def test_it_runs_and_writes_nothing_beside_itself(self) -> None:
        before = {*self.there.rglob("*")}
        self.assertEqual(self.call("--version").stdout, f"cophy-pg {VERSION}\n")
        for command in ("", "setup", "advise", "daily"):
            ran = self.call(*command.split(), "--help")
            self.assertEqual((ran.returncode, ran.stderr), (0, ""))
            self.assertIn("usage: cophy-pg", ran.stdout)
        self.assertEqual({*self.there.rglob("*")}, before)

    @unittest.skipIf(LACKS, f"python3-{LACKS} isn't installed")
    def test_setup_hands_its_script_to_psql(self) -> None:
        got = self.copy.folder / "got.sql"
        self.copy.lay_script("psql", f"#!/bin/sh\ncat >>{shlex.quote(str(got))}\n")
        ran = self.call("setup", "shop", "--psql", str(self.copy.folder / "psql"))
        self.assertNotIn("Traceback", ran.stderr)
        self.assertEqual(ran.returncode, 1)
        self.assertTrue(got.read_text().startswith(ADVISOR.read_text()), ran.stderr)
        got.unlink()
        self.call("setup", "--undo", "shop", "--psql", str(self.copy.folder / "psql"))
        self.assertEqual(got.read_text(), ADVISOR.with_name("undo_role.sql").read_text())

    @unittest.skipIf(LACKS, f"python3-{LACKS} isn't installed")
    def test_units_call_what_is_there(self) -> None:
        named = set[str]()
        for unit in (self.there / "usr/lib/systemd/system").glob("*.service"):
            named |= {*re.findall(r"^(?:ExecStart|Environment=COPHY_PROGRAM)=(\S+)", unit.read_text(), re.MULTILINE)}
        self.assertEqual(named, {"/usr/bin/cophy", "/usr/bin/cophy-pg", f"/usr/share/cophy-pg/{RETUNE}"})
        for it in named:
            self.assertTrue(os.access(f"{self.there}{it}", os.X_OK), it)
        ran = self.call(str(self.copy.folder), "2GB", command=f"usr/share/cophy-pg/{RETUNE}")
        self.assertRegex(ran.stderr, r"\A(cophy-pg: .*\n)+\Z")


if __name__ == "__main__":
    unittest.main()
