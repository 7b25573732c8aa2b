"""The picture of the README is the one that the sample gives, and pictures have what the replies say."""
import pathlib
import subprocess
import sys
import unittest
import xml.etree.ElementTree

import draw_diagram

HERE = pathlib.Path(__file__).resolve().parent
SAMPLE = HERE / "samples" / "replacement.replies"
PICTURE = HERE.parent / "docs" / "replacement.svg"
SVG = "{http://www.w3.org/2000/svg}"


def ran(*words, text=""):
    return subprocess.run([sys.executable, HERE / "draw_diagram.py", *words], input=text, capture_output=True, text=True)


def drawn(points):
    lines = [f"point {size} {fee}\n" for size, fee in points] + ["end\n"]
    return xml.etree.ElementTree.fromstring(draw_diagram.svg(draw_diagram.read(lines), [], "a title"))


class Pictures(unittest.TestCase):
    def test_the_readme_has_the_picture_of_the_sample(self):
        title = "A small mempool before and after a replacement"
        self.assertEqual(ran("--title", title, SAMPLE).stdout, PICTURE.read_text())

    def test_other_lines_are_passed_over(self):
        lines = ["ok\n", "chunk 1 1 1\n", "end\n", "point 0 0\n", "point 10 -5\n", "end\n", "better\n"]
        self.assertEqual(draw_diagram.read(lines), [[(0, 0), (10, -5)]])

    def test_each_point_has_a_place_and_heights_follow_fees(self):
        for points in ([(0, 0)], [(0, 0), (10, 5)], [(0, 0), (300, 9000), (700, 9100), (800, -100)], [(0, 0), (5, -7)]):
            with self.subTest(points):
                dots = [(float(dot.get("cx")), float(dot.get("cy"))) for dot in drawn(points).iter(SVG + "circle")]
                self.assertEqual(len(dots), len(points))
                for (size, fee), (x, y) in zip(points, dots):
                    self.assertTrue(draw_diagram.LEFT <= x <= draw_diagram.WIDTH - draw_diagram.RIGHT)
                    self.assertTrue(draw_diagram.TOP <= y <= draw_diagram.HEIGHT - draw_diagram.BOTTOM)
                for (a, b) in zip(range(len(points)), range(1, len(points))):
                    self.assertEqual(points[a][1] < points[b][1], dots[a][1] > dots[b][1])
                    self.assertLess(dots[a][0], dots[b][0])

    def test_a_long_diagram_has_a_line_and_no_dots(self):
        picture = drawn([(i, 3 * i - i * i // 1000) for i in range(1000)])
        self.assertEqual(len(list(picture.iter(SVG + "circle"))), 0)
        self.assertEqual(len(next(picture.iter(SVG + "polyline")).get("points").split()), 1000)

    def test_long_numbers_are_told_in_thousands_and_more(self):
        self.assertEqual(draw_diagram.unit_of([0, 200, 400]), (1, ""))
        self.assertEqual(draw_diagram.unit_of([0, 500_000, 1_000_000]), (1_000, "thousand "))
        self.assertEqual(draw_diagram.unit_of([-10**21, 0, 10**21]), (10**15, "quadrillion "))

    def test_the_shorter_of_two_goes_on_flat(self):
        picture = ran("--labels", "a < b", "c", SAMPLE).stdout
        self.assertEqual(picture.count("stroke-dasharray"), 1)
        self.assertIn("a &lt; b", picture)
        xml.etree.ElementTree.fromstring(picture)

    def test_no_diagram_or_three_are_refused(self):
        for text in ("", "ok\n", "end\n", "point 0 0\nend\n" * 3, "point 0 0\n", "point 0\nend\n", "point a b\nend\n"):
            with self.subTest(text):
                done = ran(text=text)
                self.assertEqual((done.returncode, done.stdout), (1, ""))
        self.assertEqual(ran(text="point 0 0\nend\n" * 2).returncode, 0)

    def test_help_and_status(self):
        self.assertIn("feerate diagrams", ran("--help").stdout)
        self.assertEqual((ran(HERE / "no such file").returncode, ran("--unknown").returncode), (1, 2))


if __name__ == "__main__":
    unittest.main()
