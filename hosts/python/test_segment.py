"""The Python module on the grammar of words and tags, and its names beside those of Rust and C."""

import os
import re
import struct
import threading
import unittest

import segment

HERE = os.path.dirname(os.path.abspath(__file__))


def read(name, mode="r"):
    with open(os.path.join(HERE, "..", name), mode) as file:
        return file.read()


WORDS = read("../grammars/words.table", "rb")
LENGTHS = read("../grammars/lengths.table", "rb")


class Words(unittest.TestCase):
    def refused(self, number, count, call, *arguments):
        with self.assertRaises(segment.Refusal) as caught:
            call(*arguments)
        self.assertEqual((caught.exception.number, caught.exception.count), (number, count))
        return caught.exception

    def test_values(self):
        run = segment.Table(WORDS).run()
        self.assertEqual(run.feed([0, 1]), 11)
        self.assertEqual(run.feed(b""), 11)
        self.assertEqual((run.registers, run.places), ([None, None, 0, None, 0, None, 1], [32768, 0, 257, 513]))
        self.assertEqual([run.register(k) for k in range(9)], [None, 1, None, 0, None, 0, None, None, None])
        run.feed(bytes([0, 2]))
        self.assertEqual((run.finish(), run.value, run.tokens, run.moves, run.is_open), (2, 2, 4, 32, False))
        self.assertEqual([run.evaluate([0] * n) for n in range(4)], [0, 1, 2, 3])

    def test_refusals(self):
        run = segment.Table(WORDS).run()
        self.refused(22, 3, run.evaluate, [1, 1, 1, 1])
        self.assertEqual(self.refused(21, 1, run.evaluate, [0, 2]).kind, segment.Kind.UNEXPECTED_TOKEN)
        closed = self.refused(33, 0, run.finish)
        self.assertEqual((str(closed), closed.tokens, closed.offset), ("refused 33: the run is closed", None, None))
        cut = self.refused(2, 97, segment.check, WORDS[:100])
        self.assertEqual(str(cut), "refused 2 at byte 97: a field is cut short")
        self.refused(3, 0, segment.Table, b"")
        self.refused(14, 0, segment.stretch, WORDS, 4)
        self.refused(31, 0, segment.Table(WORDS).run, 0, 3)
        self.refused(32, 1022, run.evaluate, [0] * 1022)

    def test_tokens_with_values(self):
        run = segment.Table(LENGTHS).run()
        self.assertEqual((run.feed([0, 1], [4, 99]), run.registers), (12, [None, None, 0, 4, None, 0, None, 1]))
        unequal = self.refused(38, 0, run.feed, [0], [])
        self.assertEqual((unequal.kind, unequal.tokens, run.is_open), (segment.Kind.LISTS_UNEQUAL, None, True))
        run.feed([0, 2], [7, -1])
        self.assertEqual((run.finish(), run.evaluate([]), run.evaluate([0], (40,))), (11, 0, 40))
        self.refused(22, 1, run.evaluate, [0])
        self.refused(22, 2, run.evaluate, [0, 0], [1, 41])
        self.assertRaises(OverflowError, run.evaluate, [0], [2**31])

    def test_in_place(self):
        one, other = segment.Table(LENGTHS).run(), segment.Table(LENGTHS).run()
        in_place = lambda kinds, values: other._called("segment_feed_in_place", *segment._bytes(kinds), *segment._values(values))
        for kinds, values, number in ((b"\0\1", [4, 99], 0), (b"\0", [], 38), (b"\2\2", [0, 0], 21), (b"", [], 33)):
            for feed in (one.feed, in_place):
                self.refused(number, 3 if number == 21 else 0, feed, kinds, values) if number else feed(kinds, values)
            self.assertEqual((bytes(one.record), one.registers, one.places), (bytes(other.record), other.registers, other.places))

    def test_inner_run(self):
        words, lengths = segment.Table(WORDS), segment.Table(LENGTHS)
        run = words.run()
        run.feed([0, 1])
        before = (run.registers, run.places, run.moves)
        note = run.open_inner(lengths)
        self.assertEqual((run.is_waiting, run.is_open, note.is_open, note.registers, note.places), (True, True, True, [None], [32768]))
        self.assertEqual(repr(run), "Run(waiting, 2 tokens, 11 moves, Table(136 bytes, sum d30e9953d2057f43))")
        waiting = self.refused(40, 0, run.feed, [0])
        self.assertEqual((waiting.kind, waiting.tokens), (segment.Kind.RUN_WAITING, None))
        self.refused(40, 0, run.finish)
        self.refused(40, 0, run.open_inner, words)
        self.assertEqual((note.feed([0, 1], [4, 99]), note.registers), (12, [None, None, 0, 4, None, 0, None, 1]))
        self.refused(38, 0, note.feed, [0], [])
        note.feed([0, 2], [7, 0])
        self.assertEqual((note.finish(), note.value, note.tokens, note.is_open, note.registers), (11, 11, 4, False, []))
        self.refused(33, 0, note.finish)
        self.assertEqual((run.registers, run.places, run.moves, run.is_waiting), (*before, False))
        self.refused(21, 0, run.open_inner(words).feed, [2])
        with run.open_inner(words) as left:
            left.feed([0])
        self.assertEqual((left.is_open, left.tokens, left.moves, left.value, run.is_waiting), (False, 1, 7, None, False))
        self.assertEqual(run.open_inner(words).give_up(), 0)
        run.feed([0, 2])
        self.assertEqual((run.finish(), run.moves), (2, 32))
        self.refused(33, 0, run.open_inner, words)

    def test_inner_room_and_budget(self):
        words = segment.Table(WORDS)
        run = words.run(8, 6, budget=20)
        run.feed([0, 1])
        note = run.open_inner(words)
        self.refused(31, 0, note.finish)
        self.assertEqual((note.moves, note.is_open, run.is_open, run.is_waiting), (1, False, True, False))
        self.refused(31, 0, words.run(1, 9).open_inner, words)
        self.refused(32, 0, words.run(9, 1).open_inner, words)
        run.open()
        self.refused(35, 1, words.run(budget=8).open_inner(words).feed, [0, 0])
        note = run.open_inner(words)
        run.open()
        self.refused(34, 0, note.finish)

    def test_budget(self):
        run = segment.Table(WORDS).run(budget=31)
        self.refused(35, 4, run.evaluate, [0, 1, 0, 2])
        self.assertEqual((run.moves, run.budget), (31, 31))
        self.assertEqual((run.with_budget(32).evaluate([0, 1, 0, 2]), run.moves), (2, 32))

    def test_tables(self):
        self.assertEqual(b"".join(segment.stretch(WORDS, p) for p in range(4)), WORDS[17:])
        self.assertEqual(segment.listing(WORDS), read("../crates/listing/stdout"))
        self.assertEqual(repr(segment.Table(WORDS)), "Table(136 bytes, sum d30e9953d2057f43)")

    def test_house_order(self):
        twice = WORDS[:121] + WORDS[107:]
        house = segment.house_order(WORDS)
        self.assertEqual((segment.house_order(twice), segment.house_order(house), len(house)), (house, house, len(WORDS)))
        self.assertEqual((house[:17], house == WORDS), (WORDS[:17], False))
        self.assertEqual(segment.Table(twice).house_order().run().evaluate([0, 1, 0, 2]), 2)
        self.refused(2, 97, segment.house_order, WORDS[:100])
        self.refused(3, 0, segment.house_order, b"")

    def test_previews(self):
        run = segment.Table(WORDS).run(20, 9)
        self.assertEqual(run.may_follow(), [0, 1])
        run.feed([0, 1])
        before = (run.registers, run.places, bytes(run.record))
        self.assertEqual([run.preview(k) for k in (0, 2)], [(None, 3, 15, 9, 5, True), (None, 3, 17, 8, 4, True)])
        unknown = run.preview(3)
        self.assertEqual((unknown.refusal.number, unknown.refusal.tokens, unknown.is_open), (20, 2, False))
        self.assertEqual((run.may_follow(), run.registers, run.places, bytes(run.record)), ([0, 1, 2], *before))
        with run.open_inner(segment.Table(WORDS)):
            self.refused(40, 0, run.may_follow)
            self.assertEqual(run.preview(0).refusal.kind, segment.Kind.RUN_WAITING)
        self.assertEqual(run.may_follow(), [0, 1, 2])
        run.feed([0, 2])
        run.finish()
        self.refused(33, 0, run.may_follow)
        self.assertEqual((run.preview(0).refusal.number, run.preview(0).tokens), (33, 4))
        lengths = segment.Table(LENGTHS).run()
        self.assertEqual((lengths.may_follow(), lengths.may_follow(40), lengths.may_follow(41)), ([1], [0, 1], [1]))
        self.assertEqual((lengths.preview(0, 40).moves, lengths.preview(0).refusal.number), (8, 22))
        budget = segment.Table(WORDS).run(budget=7)
        self.assertEqual((budget.preview(0).moves, budget.preview(1).refusal, budget.with_budget(6).may_follow()), (7, None, []))

    def test_ranking(self):
        ranking = segment.Table(WORDS).rank([[0], [0, 2], [0, 1, 0, 2], [], [0, 0], [1]])
        refused = [(1, None, segment.Kind.UNEXPECTED_TOKEN), (5, None, segment.Kind.SEGMENT_OVER)]
        order = [(2, 2, None), (4, 2, None), (0, 1, None), (3, 0, None), *refused]
        self.assertEqual((ranking.entries, ranking.valued, ranking.total), (order, 4, 5))
        lengths = segment.Table(LENGTHS)
        ranking = lengths.rank([[0, 0], [0], b""], [[4, 7], [41], []])
        order = [(0, 11, None), (2, 0, None), (1, None, segment.Kind.CONDITION_FALSE)]
        self.assertEqual([tuple(entry) for entry in ranking.entries], order)
        self.assertEqual(segment.Table(WORDS).rank([]), ([], 0, 0))
        self.assertEqual(segment.Table(WORDS).rank([[]] * 512).valued, 512)
        unfit = self.refused(37, 0, segment.Table(WORDS).rank, [[]] * 513)
        self.assertEqual((unfit.kind, unfit.tokens), (segment.Kind.CANDIDATES_UNFIT, None))
        self.refused(38, 0, lengths.rank, [[0], [0]], [[1, 2], []])
        self.refused(2, 97, segment.rank, WORDS[:100], [[0]])

    def test_sheets(self):
        def sheet(*records):
            return b"".join(struct.pack(f">III{len(r) - 3}q", *r) for r in records)

        table = segment.Table(WORDS)
        right = sheet((0, 0, 4, 2), (1, 0, 4, 0, 2), (2, 1, 3, 0, 1), (1, 2, 1, 1, 1), (3, 3, 0, 1, 0), (3, 4, 0, 0, 0))
        self.assertEqual(table.judge(right, [0, 1, 0, 2]), 2)
        self.assertEqual(table.sheet([0, 1, 0, 2]), (right, 2, 32))
        for i in range(len(right)):
            changed = bytearray(right)
            changed[i] ^= 1
            self.refused(43, 0, table.judge, changed, [0, 1, 0, 2])
        wrong = self.refused(43, 0, table.judge, b"", [0])
        self.assertEqual((wrong.kind, wrong.tokens), (segment.Kind.SHEET_WRONG, None))
        lengths, right = segment.Table(LENGTHS), sheet((0, 0, 1, 4), (1, 0, 1, 0, 4), (3, 1, 0, 0, 0))
        self.assertEqual(lengths.judge(right, [0], [4]), 4)
        self.assertEqual(lengths.sheet([0], [4])[:2], (right, 4))
        self.refused(22, 1, lengths.sheet, [0], [41])
        self.refused(38, 0, lengths.sheet, [0], [])
        self.refused(31, 0, segment.sheet, WORDS, [0], None, 0, 0)
        self.refused(43, 0, lengths.judge, right, [0], [5])
        self.refused(38, 0, lengths.judge, right, [0], [4, 4])
        self.refused(2, 97, segment.judge, WORDS[:100], right, [0])
        n = 1021
        deepest = sheet((0, 0, n, n), *((1, i, n - i, 0, n - i) for i in range(n)), (3, n, 0, 0, 0))
        self.assertEqual(table.judge(deepest, [0] * n), n)
        self.assertEqual(table.sheet([0] * n)[:2], (deepest, n))
        self.refused(32, n + 1, table.sheet, [0] * (n + 1))

    def test_names(self):
        text = '{"table": {"sum": "%s"}, "tokens": ["word", "open", "close"], "parts": []}'
        names = segment.Names(text % "d30e9953d2057f43")
        run = segment.Table(WORDS, names).run()
        self.assertEqual(run.evaluate(names.numbers("word open word close".split())), 2)
        self.assertEqual(names.lists("word=4 open word=-7 close".split()), (bytes([0, 1, 0, 2]), [4, 0, -7, 0]))
        self.assertRaises(ValueError, names.numbers, ["wrod"])
        self.assertRaises(ValueError, segment.Table, WORDS, segment.Names(text % "0"))

    def test_window(self):
        run, window = segment.Table(WORDS).run(), segment.Window(2)
        self.assertEqual((window.total, window.largest, window.values), (0, None, []))
        self.assertEqual([window.bring(run.evaluate([0] * n)) for n in (3, 1, 2)], [(3, 3), (4, 3), (3, 2)])
        refused = self.refused(21, 0, run.evaluate, [2])
        self.assertEqual((window.bring(refused), window.values, window.cells), ((3, 2), [1, 2], [2, 2, 1, 3, 1, 2, 1, 0, 0]))
        self.assertEqual(repr(window), "Window(size 2, total 3, largest 2)")
        for value in (10**12 + 1, -(10**12) - 1, 2**64, -(2**64)):
            unfit = self.refused(42, 0, window.bring, value)
        self.assertEqual(str(unfit), "refused 42: the window's size, buffer or value does not fit")
        for size in (0, 65, -1, 2**64 + 1):
            self.assertIsNone(self.refused(42, 0, segment.Window, size).tokens)

    def test_threads(self):
        table, found = segment.Table(WORDS), {}

        def work(n):
            found[n] = table.run().evaluate([0] * n)

        threads = [threading.Thread(target=work, args=(n,)) for n in range(8)]
        [thread.start() for thread in threads]
        [thread.join() for thread in threads]
        self.assertEqual(found, {n: n for n in range(8)})


class Names(unittest.TestCase):
    """One list of numbers, names and words: in Rust, in C, here and on the page."""

    def setUp(self):
        kinds = re.findall(r'^    (\w+) = (\d+), "(.*)";$', read("rust/src/refusal.rs"), re.M)
        upper = lambda name: re.sub(r"(?<!^)([A-Z])", r"_\1", name).upper()
        self.kinds = [(upper(name), int(number), words) for name, number, words in kinds]
        self.assertEqual(len(self.kinds), 33)

    def test_python(self):
        self.assertEqual([(k.name, k.value, segment.REASONS[k]) for k in segment.Kind], self.kinds)

    def test_c(self):
        header = read("c/segment.h")
        numbers = re.findall(r"^    SEGMENT_(\w+) = (\d+),?$", header, re.M)[1:]
        words = re.findall(r'^    case SEGMENT_(\w+):\n        return "(.*)";$', header, re.M)[1:]
        self.assertEqual([(name, int(n)) for name, n in numbers], [(name, n) for name, n, _ in self.kinds])
        self.assertEqual(words, [(name, words) for name, _, words in self.kinds])

    def test_the_page(self):
        rows = re.findall(r"^\| (\d+) \| `(\w+)` \| (.*) \|$", read("../docs/REFUSALS.md"), re.M)
        self.assertEqual([(name, int(n), words) for n, name, words in rows], self.kinds)


if __name__ == "__main__":
    unittest.main()
