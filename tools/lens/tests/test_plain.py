"""Tests of the plain attributes of pictures: a viewer that knows no style sheet sees what a browser sees in light."""

import re
import unittest

from lens.plain import INK, PAPER, RED, SOFT, with_plain
from lens.svg import COLOURS, STYLE


class Plain(unittest.TestCase):
    def seen(self, drawn):
        return with_plain(drawn, COLOURS)

    def test_text_is_ink_and_its_class_says_more(self):
        self.assertEqual(self.seen('<text x="1">a</text>'), f'<text x="1" fill="{INK}">a</text>')
        self.assertIn(f'fill="{SOFT}"', self.seen('<text x="1" class="soft">a</text>'))
        self.assertIn(f'fill="{COLOURS[0][1]}"', self.seen('<text class="i0 label">0</text>'))

    def test_a_unit_has_its_blocks_colour_and_a_rim(self):
        said = self.seen('<g class="u"><title>t</title><rect x="1" class="c1 body block"/></g><rect class="band"/>')
        self.assertIn(f'class="c1 body block" stroke="{INK}" stroke-width="1.5" fill="{COLOURS[1][0]}"/>', said)
        self.assertNotIn("stroke", said.rpartition("<rect")[2])

    def test_a_ring_and_a_tag_stand_over_their_group(self):
        said = self.seen('<g class="u"><rect class="ring"/><g><rect class="none box"/></g></g>')
        self.assertIn(f'class="ring" stroke="{RED}"', said)
        self.assertIn('class="none box" stroke="#1b1f24" fill="none"', said)

    def test_what_is_refused_has_a_red_rim(self):
        said = self.seen('<g class="apart"><rect class="refused"/></g>')
        self.assertIn(f'fill="{PAPER}" stroke="{RED}"', said)

    def test_the_plain_colours_are_those_of_the_style_in_light(self):
        light = STYLE.partition("@media")[0]
        for name, value in re.findall(r"--(paper|ink|soft|red):(#\w+)", light):
            self.assertEqual(value, {"paper": PAPER, "ink": INK, "soft": SOFT, "red": RED}[name])


if __name__ == "__main__":
    unittest.main()
