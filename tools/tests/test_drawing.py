"""The drawing of the crates is that of `crates.txt`, and has each of them."""
from __future__ import annotations

import subprocess
import sys
import unittest
from importlib.machinery import SourceFileLoader
from importlib.util import module_from_spec, spec_from_loader
from types import ModuleType
from xml.etree import ElementTree

from fixtures import ROOT
from patience import LONG

SCRIPT = ROOT / "tools" / "docs" / "crates_drawing"
PICTURE = ROOT / "docs" / "pictures" / "crates.svg"


def script() -> ModuleType:
    """The script as a module."""
    spec = spec_from_loader("crates_drawing", SourceFileLoader("crates_drawing", str(SCRIPT)))
    assert spec is not None and spec.loader is not None
    module = sys.modules[spec.name] = module_from_spec(spec)
    spec.loader.exec_module(module)
    return module


class Pictures(unittest.TestCase):
    def test_each_picture_is_small_and_shown_by_a_document(self) -> None:
        texts = "\n".join(it.read_text() for it in (*ROOT.glob("*.md"), *(ROOT / "docs").glob("*.md")))
        listed = [*PICTURE.parent.iterdir()]
        self.assertIn(PICTURE, listed)
        for it in listed:
            with self.subTest(picture=it.name):
                self.assertIn(f"pictures/{it.name})", texts)
                self.assertLess(it.stat().st_size, 150 * 1000)
                begin = b"<svg" if it.suffix == ".svg" else b"\x89PNG"
                self.assertTrue(it.read_bytes().startswith(begin))


class Drawing(unittest.TestCase):
    def test_the_picture_is_current(self) -> None:
        ran = subprocess.run([str(SCRIPT)], capture_output=True, text=True, check=True, timeout=LONG)
        told = "run tools/docs/crates_drawing > docs/pictures/crates.svg"
        self.assertEqual(ran.stdout, PICTURE.read_text(), told)

    def test_each_crate_is_in_it(self) -> None:
        lines = (ROOT / "crates.txt").read_text().splitlines()
        crates = {it.split(":")[0] for it in lines if ":" in it and not it.startswith("#")}
        self.assertEqual(crates, {it.name for it in (ROOT / "crates").iterdir() if (it / "src").is_dir()})
        texts = [it.text or "" for it in ElementTree.parse(PICTURE).iter("{http://www.w3.org/2000/svg}text")]
        self.assertEqual(crates - set(texts), {it for it in crates if it.endswith("_tests")})
        for it in crates - set(texts):
            self.assertIn(it, texts[-1])

    def test_a_line_that_another_way_has_is_left_out(self) -> None:
        crates = script().listed("# a: b\na: other\nb: a\nc: b a\nd: c a\n")
        self.assertEqual(crates, {"a": [], "b": ["a"], "c": ["b", "a"], "d": ["c", "a"]})
        self.assertEqual(script().reduced(crates), {"a": [], "b": ["a"], "c": ["b"], "d": ["c"]})


if __name__ == "__main__":
    unittest.main()
