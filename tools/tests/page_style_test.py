"""The style of the page: its colours, and that it fetches nothing."""

import itertools
import re
import unittest

from heap_tools.page import templates, treemap_picture

#: The text of the page, and its ground, in pairs of the style's colours that need a contrast of 4.5.
TEXTS = [(text, ground) for text in ("ink", "soft", "calm", "accent") for ground in ("paper", "ground")] + [
    ("soft", "faint"),
    ("ink", "faint"),
    ("accent", "accent-faint"),
    ("ink", "accent-faint"),
    *(("ink", f"line-{number}") for number in range(treemap_picture.LINE_COLOURS)),
    *(("ink", f"own-{number}") for number in range(treemap_picture.OWN_COLOURS)),
    *(("ink", f"jdk-{number}") for number in range(treemap_picture.JDK_COLOURS)),
    ("ink", "rest"),
]
#: The colours of the lines of the chart.
MARKS = ["of-reachable", "of-held", "of-unreachable"]


class StyleTest(unittest.TestCase):
    """The style sheet."""

    def test_fetches_nothing(self) -> None:
        """No rule fetches or runs something, or ends the element that it is in."""
        style = (templates.FOLDER / "page.css").read_text(encoding="utf-8")
        self.assertEqual(re.findall(r"url\(|@import|<|\$|expression", style), [])

    def test_colours(self) -> None:
        """The contrast of each text and each graphic with its ground, light and dark."""
        style = (templates.FOLDER / "page.css").read_text(encoding="utf-8")
        blocks = re.findall(r":root {(.*?)}", style, re.S)
        light, dark = (dict(re.findall(r"--([\w-]+): (#\w{6});", block)) for block in blocks)
        self.assertEqual(light.keys(), dark.keys())
        for colours in light, dark:
            for text, ground in TEXTS:
                with self.subTest(f"{text} on {ground}"):
                    self.assertGreaterEqual(contrast(colours[text], colours[ground]), 4.5)
            for graphic in "accent", "calm", "before", *MARKS:
                with self.subTest(graphic):
                    self.assertGreaterEqual(contrast(colours[graphic], colours["paper"]), 3)

    def test_lines_differ_in_grey(self) -> None:
        """The lines of the chart, and the parts of the bar of one heap, differ in how light they are: in print without
        colours, and for those who see no red or green."""
        style = (templates.FOLDER / "page.css").read_text(encoding="utf-8")
        for block in re.findall(r":root {(.*?)}", style, re.S):
            colours = dict(re.findall(r"--([\w-]+): (#\w{6});", block))
            for one, other in itertools.combinations(MARKS, 2):
                with self.subTest(f"{one} and {other}"):
                    self.assertGreaterEqual(contrast(colours[one], colours[other]), 1.45)
        widths = re.findall(r"^g\.line\.?(\w*) polyline {[^}]*?stroke-width: (\d)px", style, re.M)
        self.assertEqual(dict(widths), {"": "2", "held": "3"})


def contrast(*colours: str) -> float:
    """Returns the contrast of two colours, by the rule of WCAG 2."""
    lights = []
    for colour in colours:
        parts = [int(colour[at : at + 2], 16) / 255 for at in (1, 3, 5)]
        parts = [part / 12.92 if part <= 0.04045 else ((part + 0.055) / 1.055) ** 2.4 for part in parts]
        lights.append(0.2126 * parts[0] + 0.7152 * parts[1] + 0.0722 * parts[2])
    return float((max(lights) + 0.05) / (min(lights) + 0.05))


if __name__ == "__main__":
    unittest.main()
