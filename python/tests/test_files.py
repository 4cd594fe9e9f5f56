"""The calls over files: what they return, as paths and as bytes, and what they raise."""
import os
import pathlib
import tempfile
import threading
import unittest

from here import example, needs_library, read
import buckfleet
from buckfleet import _library

APT, JOURNAL = example("morning.apt"), example("morning.jrn")
STMS = [example(f"morning_{number}.stm") for number in (1, 2, 3)]


class Rows(unittest.TestCase):
    """How a table is read. No library is needed."""

    def test_cells(self):
        rows = buckfleet.Table(b'name,kind,degree,"degree_0 a ""b"", c"\n"x, ""y""",cut,-12,\n"12",,0,7\n')
        self.assertEqual(rows.columns, ("name", "kind", "degree", 'degree_0 a "b", c'))
        first = {"name": 'x, "y"', "kind": "cut", "degree": -12, 'degree_0 a "b", c': None}
        second = {"name": "12", "kind": None, "degree": 0, 'degree_0 a "b", c': 7}
        self.assertEqual(rows, [first, second])

    def test_no_rows(self):
        rows = buckfleet.Table(b"assortment,name\n")
        self.assertEqual((rows.columns, rows), (("assortment", "name"), []))

    def test_bytes_of_names(self):
        text = b'assortment,name\n0,"\xff\xc2\x85 \xc3\xa4"\n'
        self.assertEqual(buckfleet.Table(text)[0]["name"], "\udcff\x85 \xe4")


class Numbers(unittest.TestCase):
    """What is tested before a call. No library is needed."""

    def test_numbers(self):
        kind = _library.c_uint8
        self.assertEqual([_library.number(kind, value, "species") for value in (0, 255, True)], [0, 255, 1])
        for error, values in ((ValueError, (256, -1)), (TypeError, (1.5, "1", None))):
            for value in values:
                self.assertRaises(error, _library.number, kind, value, "species")


@needs_library
class Files(unittest.TestCase):
    def test_texts(self):
        self.assertEqual(buckfleet.buck(example("pine.apt"), example("pine.stm")), read(example("pine.out")))
        self.assertEqual(buckfleet.check(APT, JOURNAL), b"LAWFUL 90\n")
        self.assertEqual(buckfleet.report(APT, JOURNAL), read(example("morning.out")))

    def test_paths_and_bytes(self):
        wanted = buckfleet.check(APT, JOURNAL)
        for kind in (pathlib.Path, read, lambda path: bytearray(read(path)), lambda path: memoryview(read(path))):
            self.assertEqual(buckfleet.check(kind(APT), kind(JOURNAL)), wanted)
        with self.assertRaises(FileNotFoundError):
            buckfleet.check(APT, example("no.jrn"))
        with self.assertRaises(TypeError):
            buckfleet.check(0, JOURNAL)

    def test_refused(self):
        for call, files, status, line in (
            (buckfleet.buck, (example("pine.stm"), b""), buckfleet.REFUSED, "apt fault 2"),
            (buckfleet.buck, (APT, b"1 2 STM~951 1 1~952 1 1~"), buckfleet.REFUSED, "stm 1 fault 3 953 1"),
            (buckfleet.check, (APT, b"1 2 JRN~"), buckfleet.UNLAWFUL, "replay fault 1 0"),
            (buckfleet.report, (APT, b""), buckfleet.REFUSED, "journal fault 2"),
            (buckfleet.table, (APT, b"1 2 JRN~", "logs"), buckfleet.UNLAWFUL, "replay fault 1 0"),
            (buckfleet.view, (APT, b"1 2 APT~"), buckfleet.REFUSED, "journal fault 2"),
            (buckfleet.in_turn, (APT, []), buckfleet.SEATS, "seats"),
            (buckfleet.in_turn, (APT, [b"1 2 STM~", b"1 2 APT~"]), buckfleet.REFUSED, "stm 2 fault 2"),
            (buckfleet.check_with, (APT, JOURNAL, STMS[::-1]), buckfleet.UNLAWFUL, "check fault 1 1 1"),
            (buckfleet.check_with, (APT, JOURNAL, [], "root"), buckfleet.UNLAWFUL, "check fault 4 1 0 533 416"),
            (buckfleet.appraise, (APT, [JOURNAL, JOURNAL, b""], APT), buckfleet.REFUSED, "journal 3 fault 2"),
            (buckfleet.appraise, (APT, [JOURNAL], JOURNAL), buckfleet.REFUSED, "own fault 2"),
            (buckfleet.compare, (APT, JOURNAL, b"1 2 JRN~"), buckfleet.UNLAWFUL, "replay 2 fault 1 0"),
            (buckfleet.sweep, (APT, []), buckfleet.SEATS, "seats"),
            (buckfleet.wishes, (APT, STMS, "step", None, None, b""), buckfleet.REFUSED, "targets fault 1"),
            (buckfleet.tune, (APT, STMS, "step", None, None, JOURNAL), buckfleet.REFUSED, "targets fault 1"),
        ):
            with self.subTest(line), self.assertRaises(buckfleet.Refused) as caught:
                call(*files)
            found = caught.exception
            self.assertEqual((found.status, found.line, str(found)), (status, line, line))

    def test_words(self):
        with self.assertRaises(ValueError):
            buckfleet.table(APT, JOURNAL, "none")
        with self.assertRaises(ValueError):
            buckfleet.in_turn(APT, STMS, "none")
        with self.assertRaises(TypeError):
            buckfleet.in_turn(APT, STMS[0])
        for call in (buckfleet.sweep, buckfleet.tune):
            self.assertRaises(TypeError, call, APT, STMS[0])
        self.assertRaises(TypeError, buckfleet.appraise, APT, JOURNAL, APT)
        self.assertRaises(ValueError, buckfleet.wishes, APT, STMS, "none")
        self.assertRaises(ValueError, buckfleet.tune, APT, STMS, "step", 2**32 - 1)
        self.assertRaises(ValueError, buckfleet.sweep, APT, STMS, draws=65_536)
        self.assertRaises(ValueError, buckfleet.compare, APT, JOURNAL, JOURNAL, (None,))

    def test_tables(self):
        for what in buckfleet.TABLES:
            text, rows = buckfleet.table_text(APT, JOURNAL, what), buckfleet.table(APT, JOURNAL, what)
            self.assertEqual(",".join(rows.columns).encode(), text.split(b"\n")[0])
            self.assertEqual(len(rows), text.count(b"\n") - 1)
            self.assertTrue(all(tuple(row) == rows.columns for row in rows))
        saw = buckfleet.table(APT, JOURNAL, "assortments")[0]
        self.assertEqual((saw["name"], saw["degree"], saw["unsteered_degree"]), ("pine saw log", 9118, 6984))

    def test_pages(self):
        page = read(example("morning.html"))
        self.assertEqual(buckfleet.view(APT, JOURNAL, ("morning.apt", "morning.jrn")), page)
        self.assertIn(b"instruction", buckfleet.view(read(APT), read(JOURNAL)))
        self.assertIn(b"replay fault 1 0", buckfleet.view(APT, b"1 2 JRN~"))
        self.assertIn(b"<bdi>b\nc</bdi>", buckfleet.view(APT, JOURNAL, ("a", "b\nc")))
        for names in (("a\nb", "c"), ("a",)):
            self.assertRaises(ValueError, buckfleet.view, APT, JOURNAL, names)
        with tempfile.TemporaryDirectory() as folder:
            path = os.path.join(os.fsencode(folder), b"\xff.jrn")
            with open(path, "wb") as file:
                file.write(b"1 2 JRN~")
            self.assertIn(b"&#255;.jrn", buckfleet.view(APT, os.fsdecode(path)))

    def test_turns(self):
        turns = buckfleet.in_turn(APT, STMS, "linear")
        self.assertEqual(turns.report, read(example("morning-in-turn.report")))
        self.assertEqual(buckfleet.report(APT, turns.journal), turns.report)
        self.assertNotEqual(buckfleet.in_turn(APT, STMS, "step").journal, turns.journal)
        self.assertEqual(buckfleet.in_turn(APT, STMS), buckfleet.in_turn(APT, STMS, "steady"))

    def test_ties(self):
        journal = buckfleet.in_turn(APT, STMS, "linear").journal
        self.assertEqual(buckfleet.check_with(APT, JOURNAL), b"LAWFUL 90\n")
        self.assertEqual(buckfleet.check_with(APT, journal, STMS, "linear"), b"LAWFUL 90\n")
        for numbers, status in (((0,), buckfleet.MISUSED), ((None, 1001), buckfleet.MISUSED), ((7,), buckfleet.UNLAWFUL)):
            with self.assertRaises(buckfleet.Refused) as caught:
                buckfleet.check_with(APT, journal, [], None, *numbers)
            self.assertEqual(caught.exception.status, status)
            self.assertNotEqual(str(caught.exception), "")

    def test_worths(self):
        rows = buckfleet.appraise(APT, [JOURNAL], APT)
        self.assertEqual((rows[-1]["line"], rows[-1]["worth_millionths"], rows[-1]["loss_millionths"]),
                         ("total", 21993797640, 613000170))
        rows = buckfleet.compare(APT, JOURNAL, buckfleet.in_turn(APT, STMS, "linear").journal)
        worth = next(row for row in rows if row["figure"] == "base_worth_millionths")
        self.assertEqual((worth["first"], worth["second"], worth["difference"]), (21993797640, 22023118800, 29321160))

    def test_harvests(self):
        rows = buckfleet.sweep(APT, STMS, rules=("step",), periods=(1, 5))
        self.assertEqual([row["cost_ten_thousandths"] for row in rows], [398, 346])
        self.assertEqual(rows.text.count(b"\n"), 3)
        self.assertEqual(buckfleet.sweep(APT, STMS, rules=("step",), periods=(1, 5), targets=APT).text, rows.text)
        drawn = buckfleet.sweep(APT, STMS, rules=("step",), draws=3, seed=2**64 - 1)
        self.assertEqual(drawn.columns[: len(rows.columns)], rows.columns)
        self.assertLessEqual(drawn[0]["cost_min"], drawn[0]["cost_max"])
        wishes = buckfleet.wishes(APT, STMS, "linear")
        self.assertEqual((len(wishes.columns), wishes[1]["gain_millionths"]), (19, 52180890))
        tuned = buckfleet.tune(example("mill.apt"), [example("bank.stm")], period=1, limit=80)
        self.assertEqual(tuned.split(b"\n")[13], b"3375 3671 3757 3981 3998 4292 4326 4159 4468 4479")

    def test_threads(self):
        found = []
        asked = [threading.Thread(target=lambda: found.append(buckfleet.check(APT, JOURNAL))) for _ in range(8)]
        for thread in asked:
            thread.start()
        for thread in asked:
            thread.join()
        self.assertEqual(found, [b"LAWFUL 90\n"] * 8)


if __name__ == "__main__":
    unittest.main()
