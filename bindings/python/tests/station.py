"""The example station through the module: every call, refusals, eight threads.

    PYTHONPATH=bindings/python python3 bindings/python/tests/station.py
"""
import concurrent.futures
import copy
import pathlib
import pickle
import unittest

import zamiathen
from zamiathen import Book, Edit, Number, Outcome, Refused, Sheet, Store, Witness, WitnessKind

examples = pathlib.Path(__file__).resolve().parents[3] / "examples"
CROWDED = Witness(WitnessKind.NODE, 12, 0, 1 << 12)


def file(name):
    return (examples / "station" / name).read_bytes()


class Station(unittest.TestCase):
    def setUp(self):
        self.sheet = Sheet(file("sheet.bin"))
        self.book = Book(file("book.bin"))
        self.names = file("station.names").decode()

    def refused(self, number, place, call, *arguments):
        """The refusal of a call, with this number and place."""
        with self.assertRaises(Refused) as caught:
            call(*arguments)
        self.assertEqual((caught.exception.number, caught.exception.place), (number, place))
        self.assertEqual(caught.exception.text, zamiathen.text(number))
        return caught.exception

    def test_enter(self):
        self.assertEqual(bytes(self.sheet.enter(self.book, file("move.bin"))), file("sheet_after.bin"))
        self.assertEqual(bytes(self.sheet), file("sheet.bin"))
        refusal = self.refused(41, 2, self.sheet.enter, self.book, file("crowd.bin"))
        self.assertEqual(refusal.witness, CROWDED)
        self.assertEqual(refusal.witness.nodes, (12,))
        self.assertEqual(str(refusal), "41 00002: A rule is broken.")
        self.assertIsNone(self.refused(23, 0, self.sheet.enter, self.book, self.book).witness)
        self.refused(12, 9, self.sheet.enter, bytes(self.book)[:9], b"\x30")

    def test_judge(self):
        self.sheet.judge(self.book)
        clash = Sheet(file("clash.bin"))
        refusal = self.refused(Number.RULE_BROKEN, 2, clash.judge, self.book)
        self.assertEqual(refusal.start, self.book.rule_start(2))
        self.assertEqual(refusal.start + refusal.length, self.book.rule_start(3, 60))
        rule = bytes(self.book)[refusal.start:]
        self.assertEqual(zamiathen.first_rule(rule), refusal.length)
        self.assertEqual(refusal.witness, clash.witness(rule))
        self.assertEqual(self.sheet.witness(rule).kind, WitnessKind.HOLDS)
        self.assertEqual(bytes(self.book.carry_back(file("move.bin"))), file("carried.bin"))
        self.assertEqual(self.book.rewrite(), self.book)

    def test_sheet_faults(self):
        damaged = bytearray(file("sheet.bin"))
        damaged[512 * 3 + 7] ^= 1
        self.refused(2, 3, Sheet(damaged).check)
        self.refused(1, 0, Sheet(b"").check)
        self.refused(5, 0, Sheet.blank, 61)
        self.refused(7, 0, self.sheet.has_label, 48, 0)
        self.refused(7, 0, self.sheet.has_label, 2**64 - 1, 0)
        for number in (-1, 2**64):
            with self.assertRaises(OverflowError):
                self.sheet.has_label(number, 0)
        self.assertEqual(zamiathen.text(6), "This version has no such number.")

    def test_reading(self):
        self.sheet.check()
        self.assertEqual(self.sheet.nodes(), (60, 2**59 - 1))
        self.assertEqual(self.sheet.label_set(8).nodes, (54, 55, 56, 57))
        self.assertEqual(self.sheet.row_set(0, 34), (1, 1 << 10))
        self.assertIs(self.sheet.has_label(8, 54), True)
        self.assertIs(self.sheet.has_arrow(0, 34, 11), False)
        page, labels = self.sheet.print_arrow(0), self.sheet.print_labels()
        self.assertEqual(page, file("stands_at.page"))
        self.assertEqual(self.sheet.type_page(page).type_page(labels), self.sheet)
        self.refused(51, 0, self.sheet.type_page, b"")

    def test_cards_and_nodes(self):
        for card in (Sheet.from_card_255(file("card_255.bin")), Sheet.from_card_257(file("card_257.bin"))):
            closed = card.close(self.book, 59)
            self.assertEqual(closed, self.sheet)
            self.assertEqual(closed.open(self.book, 59), card)
        self.refused(54, 3, self.sheet.close, self.book, 3)
        self.refused(58, 120, self.sheet.join, self.sheet)
        self.assertEqual(Sheet.blank(2).join(Sheet.blank(3)), Sheet.blank(5))

    def test_plans(self):
        after = self.sheet.apply(file("move.bin"))
        store = Store.blank().keep(self.sheet, 7).keep(file("clash.bin"), 1)
        self.assertEqual(store.returned(after, 7, self.book), self.sheet)
        refusal = self.refused(41, 2, store.returned, after, 1, self.book)
        self.assertEqual(refusal.witness.kind, WitnessKind.NODE)
        self.assertEqual(store.drop(1).drop(7), Store.blank())
        self.refused(55, 0, Store(b"").keep, self.sheet, 1)
        self.refused(56, 0, store.keep, self.sheet, 8)
        self.refused(57, 0, store.drop, 2)

    def test_edits(self):
        there, back = Edit(file("move.bin")), Edit(file("move_back.bin"))
        self.assertEqual(self.sheet.apply(there.join(back)), self.sheet)
        self.assertEqual(there.log(), file("week.bin")[:512])
        self.refused(22, 0, self.sheet.apply, b"")

    def test_words(self):
        zamiathen.check_names(self.names)
        self.refused(63, 6, zamiathen.check_names, "label 48 x")
        self.assertEqual(Book.from_words(file("book.words"), self.names), self.book)
        words = self.book.to_words(self.names)
        self.assertEqual(Book.from_words(words, self.names), self.book)
        rule = zamiathen.rule_to_words(self.book, self.names)
        self.assertTrue(words.startswith(rule))
        self.assertEqual(zamiathen.rule_in_words(words, 1, self.names), len(rule))
        edit = Edit(file("move.bin"))
        self.assertEqual(Edit.from_words(edit.to_words(self.names), self.names), edit)
        self.refused(64, 10, Edit.from_words, "mark(train", self.names)
        self.refused(65, 1, Edit.from_words, " marks")

    def test_names_of_any_bytes(self):
        for name in ("Züge".encode(), b"\xff\xfe"):
            edit = Edit.from_words(b"mark(" + name + b", all)", b"label 3 " + name)
            self.assertEqual(bytes(edit), bytes([0x31, 3, 1, 0x30]))
            words = edit.to_words(b"label 3 " + name)
            self.assertEqual(words.encode("utf-8", "surrogateescape"), b"mark(" + name + b", all)\n")
            self.assertEqual(Edit.from_words(words, b"label 3 " + name), edit)

    def test_steps_and_counts(self):
        zamiathen.check_steps(b"\x27\x27\x21\1\1", b"\0\0\7", b"\x21\1\1")
        self.refused(60, 2, zamiathen.check_steps, b"\x27\x27\x21\1\1", b"\0\0\7", b"\x21\1\2")
        small = [(examples / "small" / name).read_bytes() for name in ("book.bin", "edit.bin")]
        self.assertEqual(zamiathen.count(3, *small), (38, 33, 602, 3423))
        self.refused(61, 0, zamiathen.count, 4, *small)

    def test_games(self):
        sheet, goal = Sheet.blank(1), Book.from_words("each(all, label:0)")
        nothing, label = Edit(b"\x30"), Edit.from_words("mark(label:0, all)")
        self.assertEqual(sheet.play(b"", goal, [nothing, label], [], 1), (Outcome.EDIT, 1))
        self.assertEqual(sheet.play(b"", goal, [nothing], [], 1).outcome, Outcome.CANNOT)
        self.assertEqual(self.refused(23, 0, sheet.play, b"", goal, [nothing], [b"\x29"], 2).edit, 1)
        self.refused(62, 0, sheet.play, b"", goal, [], [], 1)

    def test_bytes_are_copied(self):
        lent = bytearray(file("sheet.bin"))
        sheet = Sheet(memoryview(lent))
        lent[0] = 77
        self.assertEqual(sheet, self.sheet)
        sheet.enter(self.book, file("move.bin"))
        self.assertEqual(bytes(sheet), file("sheet.bin"))
        with self.assertRaises(AttributeError):
            sheet._data = b""
        with self.assertRaises(TypeError):
            Sheet(8704)
        with self.assertRaises(TypeError):
            Edit("mark(label:0, all)")

    def test_held_bytes_are_values(self):
        self.assertEqual(pickle.loads(pickle.dumps(self.sheet)), self.sheet)
        self.assertEqual(copy.deepcopy(self.sheet), self.sheet)
        self.assertEqual(len({self.sheet, Sheet(bytes(self.sheet))}), 1)
        self.assertNotEqual(Book(b"\x30"), Edit(b"\x30"))
        self.assertEqual(repr(Edit(b"\x30")), "<Edit 30>")
        self.assertEqual(len(self.sheet), zamiathen.SHEET_BYTES)

    def test_eight_threads(self):
        def calls():
            for _ in range(100):
                entered = self.sheet.enter(self.book, file("move.bin"))
                refusal = self.refused(41, 2, self.sheet.enter, self.book, file("crowd.bin"))
                if bytes(entered) != file("sheet_after.bin") or refusal.witness != CROWDED:
                    return False
            return True

        with concurrent.futures.ThreadPoolExecutor(8) as threads:
            running = [threads.submit(calls) for _ in range(8)]
            self.assertTrue(all(thread.result() for thread in running))


if __name__ == "__main__":
    unittest.main()
