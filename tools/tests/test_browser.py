"""The page of `cophy-pg report` in a browser, on screens and printed."""
from __future__ import annotations

import html
import json
import os
import re
import shutil
import subprocess
import unittest
import zlib
from pathlib import Path

from fixtures import InFolder
from patience import LONG
from test_page import MISSING, document, plans

BROWSER = shutil.which("chromium") or shutil.which("google-chrome")
LACKING = MISSING or ("" if BROWSER else "chromium isn't installed")


@unittest.skipIf(LACKING, LACKING)
class Browser(InFolder):
    def setUp(self) -> None:
        super().setUp()
        points = [{"budget": at, "size": at, "cost": 90 - at, "bound": 80 - at, "picks": []} for at in (0, 50)]
        for name, content in (("advice", document(str(self.folder))), ("plans", plans()), ("curve", points)):
            (self.folder / f"{name}.json").write_text(json.dumps(content))
        self.tool("report", str(self.folder))
        self.text = (self.folder / "report.html").read_text()

    def test_a_browser_shows_it_without_errors_at_any_width(self) -> None:
        said = self.browse(self.folder / "report.html", 1280, "--dump-dom")
        self.assertIn("Statements before and after", said.stdout)
        self.assertNotIn("CONSOLE", said.stderr)
        # A window has a least width, so a copy is measured in a frame. All is opened there.
        inner = re.sub(r"<meta http-equiv=.*>\n", "", self.text).replace("<details ", "<details open ")
        script = """function measure(frame) {
            const root = frame.contentDocument.documentElement;
            document.title = [frame.contentWindow.innerWidth, root.scrollWidth, getComputedStyle(root.lastChild).fontSize];
        }"""
        for width in (1280, 400):
            with self.subTest(width=width):
                style = f"width: {width}px; height: 900px; border: 0"
                frame = f'<iframe style="{style}" onload="measure(this)" srcdoc="{html.escape(inner)}"></iframe>'
                (self.folder / "measured.html").write_text(f"<script>{script}</script>{frame}")
                said = self.browse(self.folder / "measured.html", 1400, "--dump-dom")
                found = re.search(r"<title>(\d+),(\d+),(\d+)px</title>", said.stdout)
                self.assertIsNotNone(found, said.stdout[-300:])
                shown, needed, size = map(int, found.groups() if found else ())
                self.assertEqual(shown, width)
                self.assertLessEqual(needed, shown)
                self.assertGreaterEqual(size, 15)
        self.assertEqual(*self.colours("--blink-settings=preferredColorScheme=1"))
        self.assertNotEqual(*self.colours("--blink-settings=preferredColorScheme=0"))

    def test_what_stands_in_closed_details_is_printed_as_where_all_are_open(self) -> None:
        (self.folder / "opened.html").write_text(self.text.replace("<details ", "<details open "))
        closed, opened = self.printed("report.html"), self.printed("opened.html")
        self.assertGreater(closed, 100)
        self.assertEqual(closed, opened)

    def printed(self, name: str) -> int:
        """How many pieces of text a printed page has."""
        file = self.folder / "printed.pdf"
        self.browse(self.folder / name, 1280, f"--print-to-pdf={file}", "--no-pdf-header-footer")
        content = file.read_bytes()
        self.assertEqual(content[:5], b"%PDF-")
        found = 0
        for it in re.finditer(rb"FlateDecode.*?stream\r?\n(.*?)endstream", content, re.DOTALL):
            found += len(re.findall(rb"\bT[jJ]\b", zlib.decompressobj().decompress(it[1])))
        return found

    def colours(self, scheme: str) -> tuple[str, str]:
        """The colour of the page in a scheme, and white."""
        script = "<script>document.title = getComputedStyle(document.body).backgroundColor</script>"
        text = re.sub(r"<meta http-equiv=.*>\n", "", self.text) + script
        (self.folder / "scheme.html").write_text(text)
        found = re.search(
            r"<title>(rgb.*)</title>", self.browse(self.folder / "scheme.html", 1280, "--dump-dom", scheme).stdout
        )
        return found[1] if found else "none", "rgb(255, 255, 255)"

    def browse(self, file: Path, width: int, *more: str) -> subprocess.CompletedProcess[str]:
        words = (
            f"--headless=new --disable-gpu --disable-dev-shm-usage --hide-scrollbars --window-size={width},900".split()
        )
        words += ["--no-sandbox"] * (os.geteuid() == 0) + [
            "--enable-logging=stderr",
            f"--user-data-dir={self.folder / 'user'}",
        ]
        kept = {**os.environ, "HOME": str(self.folder)}
        return subprocess.run(
            [str(BROWSER), *words, *more, file.as_uri()],
            capture_output=True,
            text=True,
            check=True,
            timeout=LONG,
            env=kept,
        )


if __name__ == "__main__":
    unittest.main()
