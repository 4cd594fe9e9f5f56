"""A book: what it cuts, what it refuses, and that its journals are those of harvesters that take turns."""
import threading
import unittest

from here import example, needs_library, read
import buckfleet

APT = read(example("morning.apt"))


def file_of(stems):
    """The bytes of a stem file."""
    text = "1 2 STM~\n"
    for stem in stems:
        zones = "".join(f" {start} {grade}" for start, grade in stem.zones)
        samples = " ".join(map(str, stem.samples))
        text += f"951 1 {stem.number}~952 1 {stem.species}~953 1 {samples}~954 1{zones}~\n"
    return text.encode()


def in_thread(call, *given):
    """Makes a call in a thread of its own, and waits for it."""
    thread = threading.Thread(target=call, args=given)
    thread.start()
    thread.join()


@needs_library
class Books(unittest.TestCase):
    def setUp(self):
        self.stem = buckfleet.Stem(7, 1, [300] * 60, [(2000, 3)])

    def refused(self, status, call, *given):
        with self.assertRaises(buckfleet.Refused) as caught:
            call(*given)
        self.assertEqual(caught.exception.status, status)
        return caught.exception.line

    def test_cut(self):
        with buckfleet.Book(APT, "linear") as book:
            self.assertEqual((tuple(book.standing()), book.degree(1)), ((0, 1_000_000, 0, 4, 57), None))
            cutting = book.cut(3, self.stem)
            log = buckfleet.Log(start=0, length=5000, assortment=1, row=0, column=4, top=300, price=270, worth=95426100)
            self.assertEqual(cutting, buckfleet.Cutting((log,), 95426100, position=0, number=1, version=0))
            self.assertEqual((book.standing().postings, sum(book.counts()), book.degree(1)), (1, 1, 4000))
            self.assertEqual(buckfleet.check(APT, book.journal()), b"LAWFUL 1\n")

    def test_targets(self):
        with buckfleet.Book(APT, "step") as book:
            wanted = [target + 1 for target in book.targets()]
            book.retarget(64, wanted)
            self.assertEqual((book.targets(), book.standing().version), (wanted, 1))
            self.assertIn("one for each class", self.refused(buckfleet.REFUSED, book.retarget, 1, wanted[1:]))
            self.refused(buckfleet.REFUSED, book.retarget, 1, [1_000_001, *wanted[1:]])
            self.assertIn(b"DEMAND 0 64 1 0\n", buckfleet.report(APT, book.journal()))

    def test_refused(self):
        line = self.refused(buckfleet.REFUSED, buckfleet.Book, b"1 2 STM~")
        self.assertEqual(line, "apt fault 2")
        self.refused(buckfleet.MISUSED, buckfleet.Book, APT, "linear", 0)
        with buckfleet.Book(APT, capacity=1) as book:
            for harvester in (0, 65):
                self.refused(buckfleet.MISUSED, book.cut, harvester, self.stem)
            for wrong in (buckfleet.Stem(1, 0, [300]), buckfleet.Stem(1, 1, []), buckfleet.Stem(1, 1, [1501])):
                self.assertIn("the stem", self.refused(buckfleet.REFUSED, book.cut, 1, wrong))
            self.refused(buckfleet.MISUSED, book.degree, 4)
            self.assertEqual(book.standing().postings, 0)
            book.cut(1, self.stem)
            self.refused(buckfleet.FULL, book.cut, 1, self.stem)

    def test_look_first(self):
        """The cut is what its preview showed, whose logs are worth as much; a log that can't be cut is named."""
        with buckfleet.Book(APT) as book:
            shown = book.preview(1, self.stem)
            self.assertEqual(book.standing().postings, 0)
            logs = [(log.start, log.length, log.assortment) for log in shown.logs]
            told = book.price_of(1, self.stem, logs)
            self.assertEqual((told.worth, told.best, told.log, told.reason), (shown.worth, shown.worth, None, None))
            told = book.price_of(1, self.stem, [logs[0], logs[0]])
            self.assertEqual((told.worth, told.log, told.reason), (0, 1, "order"))
            self.assertEqual(book.price_of(1, self.stem, []).worth, 0)
            self.assertEqual(book.cut(1, self.stem), shown)

    def test_closed(self):
        book = buckfleet.Book(APT)
        book.close()
        book.close()
        for call in (book.standing, book.prices, book.journal, lambda: book.cut(1, self.stem), lambda: book.degree(0)):
            self.refused(buckfleet.CLOSED, call)
        with self.assertRaises(KeyError), buckfleet.Book(APT) as book:
            raise KeyError
        self.refused(buckfleet.CLOSED, book.standing)

    def test_numbers(self):
        """A number that a type can't hold is refused before the call, and the book is as it was."""
        stem = {"number": 1, "species": 1, "samples": [250] * 60, "zones": [(0, 1)]}
        for capacity in (2**32 + 1, -1):
            self.assertRaises(ValueError, buckfleet.Book, APT, "linear", capacity)
        self.assertRaises(ValueError, buckfleet.Book, APT, "none")
        with buckfleet.Book(APT) as book:
            for name, wrong in (
                ("species", 257),
                ("species", -1),
                ("number", 2**32),
                ("samples", [250] * 59 + [65786]),
                ("samples", [-1]),
                ("zones", [(2**32, 1)]),
                ("zones", [(0, 257)]),
            ):
                self.assertRaises(ValueError, book.cut, 1, buckfleet.Stem(**{**stem, name: wrong}))
            self.assertRaises(ValueError, book.cut, 2**32 + 1, buckfleet.Stem(**stem))
            self.assertRaises(TypeError, book.cut, 1, buckfleet.Stem(1, 1, [250.5]))
            self.assertRaises(ValueError, book.retarget, 2**32 + 1, book.targets())
            self.assertRaises(ValueError, book.retarget, 1, [2**32, *book.targets()[1:]])
            self.assertRaises(ValueError, book.degree, 256)
            self.assertEqual(book.standing().postings, 0)

    def test_another_thread(self):
        elsewhere = []

        def ask(call):
            try:
                call()
            except RuntimeError:
                elsewhere.append(call)

        with buckfleet.Book(APT) as book:
            calls = [book.standing, book.prices, book.journal, book.close, lambda: book.cut(1, self.stem)]
            for call in calls:
                in_thread(ask, call)
            self.assertEqual(elsewhere, calls)
            self.assertEqual(book.standing().postings, 0)
        # The next thread may have the number of the one that has ended.
        ended = []
        in_thread(lambda: ended.append(buckfleet.Book(APT)))
        in_thread(ask, ended[0].standing)
        self.assertEqual(elsewhere[-1], ended[0].standing)

    def test_many_classes(self):
        """The room for prices grows."""
        rows, lengths = " ".join(map(str, range(32))), " ".join(str(500 + 10 * place) for place in range(32))
        prices = " ".join(map(str, range(1024)))
        one = f"911 1 a~912 1 1~913 1 1~914 1 1~915 1 {rows}~915 2 99~916 1 {lengths}~917 1 {prices}~918 1 {prices}~"
        with buckfleet.Book(f"1 2 APT~901 1 10~902 1 1~903 1 0~910 1 2~{one}{one}".encode()) as book:
            self.assertEqual(book.prices(), list(range(1024)) * 2)
            self.assertEqual(book.counts(), [0] * 2048)

    def test_in_turn(self):
        """A book that is cut in turn has the journal and the report of harvesters that take turns."""
        stems = [
            buckfleet.Stem(number, 1 + number % 2, range(200 + 9 * number, 60, -2), [(500 * number, 2)])
            for number in range(20)
        ]
        for rule in buckfleet.RULES:
            with buckfleet.Book(APT, rule) as book:
                for place, stem in enumerate(stems):
                    book.cut(1 + place % 2, stem)
                journal = book.journal()
            turns = buckfleet.in_turn(APT, [file_of(stems[::2]), file_of(stems[1::2])], rule)
            self.assertEqual((journal, buckfleet.report(APT, journal)), turns, rule)


if __name__ == "__main__":
    unittest.main()
