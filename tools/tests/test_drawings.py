"""The drawings of the pages: they are what tools/drawings writes, and each stands in one page."""

import glob
import os
import re
import subprocess
import sys
import unittest
import xml.etree.ElementTree as ElementTree

from tests.support import TOOLS, TOP, InFolder, text_of
from tests.test_pages import PAGES, page

GUIDE = os.path.join(TOP, "docs", "guide")
SVG = "{http://www.w3.org/2000/svg}"


class Drawings(InFolder):
    def test_stored_drawings_are_those_of_their_script(self) -> None:
        subprocess.run([sys.executable, os.path.join(TOOLS, "drawings"), self.folder], check=True)
        names = sorted(os.listdir(self.folder))
        self.assertEqual(names, sorted(glob.glob("*.svg", root_dir=GUIDE)))
        self.assertEqual(len(names), 3)
        for name in names:
            self.assertEqual(text_of(self.path(name)), text_of(os.path.join(GUIDE, name)), name)

    def test_each_stands_in_one_page_under_its_title(self) -> None:
        shown = [it for name in PAGES for it in re.findall(r"^!\[(.*)\]\((\w+\.svg)\)$", page(name), re.MULTILINE)]
        titles = [(ElementTree.parse(os.path.join(GUIDE, name)).getroot().findtext(f"{SVG}title"), name)
                  for name in glob.glob("*.svg", root_dir=GUIDE)]
        self.assertEqual(sorted(shown), sorted(titles))

    def test_texts_lie_inside_at_eight_pixels_a_letter(self) -> None:
        for name in glob.glob("*.svg", root_dir=GUIDE):
            root = ElementTree.parse(os.path.join(GUIDE, name)).getroot()
            width, height = int(root.attrib["width"]), int(root.attrib["height"])
            texts = root.findall(f"{SVG}text")
            self.assertGreaterEqual(len(texts), 10)
            for text in texts:
                kinds, x, length = text.get("class", "").split(), int(text.attrib["x"]), 8 * len(text.text or "")
                first = x if "start" in kinds else x - length if "end" in kinds else x - length // 2
                self.assertTrue(0 <= first and first + length <= width and 0 < int(text.attrib["y"]) < height, f"{name}: {text.text}")


if __name__ == "__main__":
    unittest.main()
