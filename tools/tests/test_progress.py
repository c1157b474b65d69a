"""What is told while a command works: how far it is."""
from __future__ import annotations

import importlib.util
import io
import unittest
from unittest import mock

from cophy_pg.steps import Steps


class Progress(unittest.TestCase):
    def told(self, steps: Steps, text: str, seconds: float = 31) -> str:
        """The line that is written so many seconds after the last one, if there is one."""
        steps.told -= seconds
        with mock.patch("cophy_pg.progress.say") as said:
            steps(text)
        if said.called:
            return str(said.call_args[0][0])
        steps.told += seconds
        return ""

    def test_lines_begin_with_the_round(self) -> None:
        steps, text = Steps(), "asking the server about statement 14 of 27 with new indexes"
        self.assertEqual(self.told(steps, text), f"{text}, 0 s so far")
        steps.begin("round 2 of at most 4")
        self.assertEqual(self.told(steps, text), f"round 2 of at most 4, {text}, 0 s so far")
        steps.begin("")
        self.assertEqual(self.told(steps, text), f"{text}, 0 s so far")

    def test_a_step_has_a_line_and_then_one_every_half_minute(self) -> None:
        steps, told = Steps(), list[str]()
        for name, seconds in (("a", (2, 29, 31)), ("b", (0, 2, 2)), ("a", (2, 29, 31))):
            with steps.step(name, "it begins"):
                told += [f"{name}{it}" for it in seconds if self.told(steps, "it goes on", it)]
        self.assertEqual(told, ["a2", "a31", "b2", "a31"])

    @unittest.skipUnless(importlib.util.find_spec("rich"), "python3-rich isn't installed")
    def test_bars_are_as_many_of_the_last_ones_as_fit(self) -> None:
        from cophy_pg.bars import Bars
        from rich.console import Console

        for width, height in ((80, 24), (200, 50), (60, 3)):
            for count in (1, height - 1, 60):
                console = Console(
                    file=io.StringIO(), force_terminal=True, width=width, height=height, color_system=None
                )
                bars = Bars(console)
                for at in range(count):
                    text = f"{at}: filling space that is left, round 2 of at most 3, asking the server's planner"
                    task = bars.add_task(text, total=1234)
                    bars.update(task, completed=1200 + at)
                with console.capture() as captured:
                    console.print(bars.get_renderable())
                lines = captured.get().splitlines()
                with self.subTest(width=width, height=height, count=count):
                    self.assertEqual(len(lines), min(count, height - 1))
                    for at, line in enumerate(lines, count - len(lines)):
                        self.assertTrue(line.startswith(f"{at}: filling space that is "), line)
                        self.assertIn(f" {1200 + at}/1234 ", line)
                        self.assertRegex(line, r" (-:--:--|0:00:0\d) *$")


if __name__ == "__main__":
    unittest.main()
