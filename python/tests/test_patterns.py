"""What patterns answer."""
import gzip
import pathlib
import struct
import tempfile
import unittest

import lifebatch

from .samples import BLINKER, EMPTY, EXAMPLES, GLIDER, GROWING, STANDING


class Answers(unittest.TestCase):
    def test_r_pentomino(self):
        with lifebatch.open(EXAMPLES / "r-pentomino.rle", workers=2) as pattern:
            self.assertEqual(pattern.advance(1103), 1103)
            self.assertEqual((pattern.generation, pattern.population), (1103, 116))
            self.assertEqual(pattern.bounds, (-240, -258, 260, 266))
            self.assertEqual(pattern.rule, "B3/S23")

    def test_glider_moves(self):
        with lifebatch.parse(GLIDER) as pattern:
            pattern.advance(4)
            self.assertEqual(pattern.window(0, 0, 4, 4), ["....", "..*.", "...*", ".***"])
            self.assertEqual(pattern.runs(), [(2, 1, 1), (3, 2, 1), (1, 3, 3)])
            self.assertEqual(list(pattern.cells()), [(2, 1), (3, 2), (1, 3), (2, 3), (3, 3)])

    def test_very_large_numbers(self):
        with lifebatch.parse(GLIDER) as pattern:
            pattern.advance(2**60)
            self.assertEqual(pattern.bounds, (2**58, 2**58, 2**58 + 2, 2**58 + 2))
            self.assertEqual(next(pattern.cells()), (2**58 + 1, 2**58))

    def test_empty(self):
        with lifebatch.parse(EMPTY) as pattern:
            self.assertIsNone(pattern.bounds)
            self.assertEqual((pattern.population, pattern.runs(), list(pattern.cells())), (0, [], []))
            self.assertEqual(pattern.period(), lifebatch.Period(1, 0, 0))
            self.assertEqual(pattern.same_as(EMPTY), (0, 0))

    def test_population_beyond_64_bits(self):
        # A square of 2^40 by 2^40 live cells, each level four times the one below.
        lines = ["[M2]", "#R B3/S012345678", "********$" * 8]
        lines += [f"{level} {level - 3} {level - 3} {level - 3} {level - 3}" for level in range(4, 41)]
        with lifebatch.parse("\n".join(lines) + "\n") as pattern:
            self.assertEqual(pattern.population, 2**80)

    def test_rule_in_place_of_that_of_the_file(self):
        with lifebatch.parse(GLIDER, "23/3V ") as pattern:
            self.assertEqual(pattern.rule, "B3/S23V")

    def test_array_calls_need_numpy_alone(self):
        try:
            import numpy
        except ImportError:
            self.skipTest("numpy is not there")
        with lifebatch.open(EXAMPLES / "r-pentomino.rle") as pattern:
            pattern.advance(200)
            self.assertTrue(numpy.array_equal(pattern.cell_array(), list(pattern.cells())))
            self.assertTrue(numpy.array_equal(pattern.run_array(), pattern.runs()))
        with lifebatch.parse(EMPTY) as pattern:
            self.assertEqual((pattern.cell_array().shape, pattern.run_array().shape), ((0, 2), (0, 3)))


class Periods(unittest.TestCase):
    def test_period_leaves_the_pattern(self):
        with lifebatch.parse(GLIDER) as pattern:
            pattern.advance(3)
            self.assertEqual(pattern.period(100), lifebatch.Period(generations=4, dx=1, dy=1))
            self.assertEqual(pattern.period(multiple=2**40), lifebatch.Period(4, 1, 1))
            self.assertEqual(pattern.generation, 3)

    def test_no_period(self):
        with lifebatch.parse(GLIDER) as pattern:
            self.assertIsNone(pattern.period(3))
            self.assertIsNone(pattern.period(multiple=27))

    def test_search_in_place(self):
        with lifebatch.parse(GLIDER) as pattern:
            self.assertEqual(pattern.period(100, advance=True), (4, 1, 1))
            self.assertEqual(pattern.generation, 4)
            self.assertIsNone(pattern.period(3, advance=True))
            self.assertEqual(pattern.generation, 7)


class Files(unittest.TestCase):
    def test_texts(self):
        with lifebatch.parse("#C by hand\n" + BLINKER) as pattern:
            pattern.advance()
            self.assertEqual(pattern.rle(), "#CXRLE Pos=1,-1 Gen=1\n#C by hand\nx = 1, y = 3, rule = B3/S23\no$o$o!\n")
            self.assertTrue(pattern.macrocell().startswith("[M2] (lifebatch 1)\n#R B3/S23\n#G 1\n#C by hand\n"))

    def test_comment_of_any_encoding(self):
        with lifebatch.parse(b"#C \xff\xe9\n" + BLINKER.encode()) as pattern:
            self.assertIn(b"#C \xff\xe9\n", pattern.rle().encode("utf-8", "surrogateescape"))
            self.assertIsNotNone(lifebatch.parse(pattern.rle()).same_as(pattern))

    def test_saved_files_are_read_back(self):
        with tempfile.TemporaryDirectory() as folder, lifebatch.parse(GLIDER) as pattern:
            pattern.advance(5)
            for name in ("a.rle", "a.mc", "a.rle.gz", "a.mc.gz"):
                path = pathlib.Path(folder) / name
                pattern.save(path)
                self.assertEqual(path.read_bytes()[:2] == b"\x1f\x8b", name.endswith(".gz"))
                with lifebatch.open(str(path)) as again:
                    self.assertEqual((again.generation, again.same_as(pattern)), (5, (0, 0)))
            with self.assertRaises(ValueError):
                pattern.save(pathlib.Path(folder) / "a.txt")
            packed = pathlib.Path(folder) / "b.rle"
            packed.write_bytes(gzip.compress(GLIDER.encode()))
            with lifebatch.open(packed) as again:
                self.assertEqual(again.population, 5)

    def test_damaged_gzip_files(self):
        packed = gzip.compress(GLIDER.encode())
        with tempfile.TemporaryDirectory() as folder:
            path = pathlib.Path(folder) / "a.rle.gz"
            for data in (packed[:20], packed[:12] + b"\xff" + packed[13:], packed[:-1] + b"\1"):
                path.write_bytes(data)
                with self.assertRaises(gzip.BadGzipFile):
                    lifebatch.open(path)

    def test_refused_save_writes_nothing(self):
        with tempfile.TemporaryDirectory() as folder, lifebatch.parse(GLIDER + "") as pattern:
            with lifebatch.parse("#CXRLE Pos=0,0\nx = 1, y = 1\no3000000000bo!\n") as wide:
                path = pathlib.Path(folder) / "wide.rle"
                with self.assertRaises(lifebatch.Refused) as refused:
                    wide.save(path)
                self.assertEqual(
                    (refused.exception.number, refused.exception.name, refused.exception.place),
                    (15, "BoxTooLarge", None),
                )
                self.assertFalse(path.exists())
            self.assertEqual(pattern.population, 5)

    def test_pictures(self):
        with lifebatch.parse(GLIDER) as pattern:
            for picture, sides in (
                (pattern.png(64), (48, 48)),
                (pattern.png(64, (0, 0, 4, 2)), (64, 32)),
                (pattern._repr_png_(), (48, 48)),
            ):
                self.assertEqual(picture[:8], b"\x89PNG\r\n\x1a\n")
                self.assertEqual(struct.unpack(">II", picture[16:24]), sides)


class Others(unittest.TestCase):
    def test_same(self):
        with lifebatch.parse(BLINKER) as pattern, lifebatch.parse(STANDING) as other:
            self.assertIsNone(pattern.same_as(other))
            self.assertIsNone(pattern.same_as(GLIDER))
            pattern.advance(1)
            self.assertEqual(pattern.same_as(other), lifebatch.Move(1, -1))
            self.assertEqual(pattern.same_as(STANDING.encode()), (1, -1))

    def test_copy_goes_its_own_way(self):
        with lifebatch.parse(GLIDER, "B36/S23") as pattern:
            pattern.advance(4)
            with pattern.copy() as other:
                other.advance(4)
                self.assertEqual((other.generation, other.rule), (8, "B36/S23"))
                self.assertEqual(other.same_as(pattern), (1, 1))
            self.assertFalse(other.is_open)
            self.assertEqual(pattern.generation, 4)


class Loads(unittest.TestCase):
    def test_another_pattern_in_the_same_process(self):
        with lifebatch.parse(GLIDER, "B36/S23") as pattern:
            pattern.advance(4)
            pattern.load(BLINKER)
            self.assertEqual((pattern.generation, pattern.population, pattern.rule), (0, 3, "B3/S23"))
            with self.assertRaises(lifebatch.Refused):
                pattern.load("nothing")
            with self.assertRaises(lifebatch.Bad) as bad:
                pattern.population
            self.assertEqual(bad.exception.word, "closed")
            pattern.load(GLIDER)
            self.assertEqual(pattern.population, 5)


class Errors(unittest.TestCase):
    def test_refused_at_a_place(self):
        with self.assertRaises(lifebatch.Refused) as refused:
            lifebatch.parse("x = 1, y = 1\nq!\n")
        self.assertEqual(
            (refused.exception.number, refused.exception.name, refused.exception.place), (6, "MoreStates", 13)
        )
        self.assertEqual(str(refused.exception), "refused 6 at 13: MoreStates")

    def test_refused_rules(self):
        for rule, name in (
            ("B0/S", "BirthOnZero"),
            ("life", "BadRule"),
            ("", "BadRule"),
            ("B3 S23", "BadRule"),
            ("B3/S23\n", "BadRule"),
        ):
            with self.subTest(rule), self.assertRaises(lifebatch.Refused) as refused:
                lifebatch.parse(GLIDER, rule)
            self.assertEqual(refused.exception.name, name)

    def test_too_far_leaves_the_pattern(self):
        with lifebatch.parse(GLIDER) as pattern:
            with self.assertRaises(lifebatch.Refused) as refused:
                pattern.advance(2**63)
            self.assertEqual(refused.exception.number, 14)
            self.assertEqual(pattern.generation, 0)

    def test_full_tables(self):
        with lifebatch.parse(GROWING, nodes=1024) as pattern:
            with self.assertRaises(lifebatch.Refused) as refused:
                pattern.advance(10000)
            self.assertEqual((refused.exception.number, refused.exception.name), (17, "NodesFull"))
            self.assertLess(pattern.generation, 10000)
            self.assertGreater(pattern.population, 0)

    def test_bad_numbers(self):
        with lifebatch.parse(GLIDER) as pattern:
            for call in (
                lambda: pattern.advance(-1),
                lambda: pattern.period(0),
                lambda: pattern.png(5),
                lambda: pattern.window(0, 0, -1, 1),
            ):
                with self.assertRaises(lifebatch.Bad) as bad:
                    call()
                self.assertEqual(bad.exception.word, "number")
            with self.assertRaises(lifebatch.Refused):
                pattern.window(0, 0, 0, 1)
            with self.assertRaises(TypeError):
                pattern.advance(1.5)
            self.assertEqual(pattern.population, 5)


if __name__ == "__main__":
    unittest.main()
