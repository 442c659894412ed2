"""The tables: each whole text is accepted, and each changed one is another text."""
import unittest

from checks.fuzz import program, tables

from .worked import told


class Tables(unittest.TestCase):
    def test_whole(self):
        for name in tables.TABLES:
            for text in tables.Table(name).texts:
                words, files = text.case(len(text.whole))
                self.assertEqual(files[text.changed], text.whole)
                if len(words) - 1 in program.COUNTS[words[0]]:
                    status, line, out, written = told(" ".join(words), **files)
                    # (the longest disturbances are read, and no face bears them)
                    self.assertIn((status, line), [(0, ""), (17, "error 17 no-stay 1 2147483647\n")], (name, words))
                    self.assertTrue(status or out or written)

    def test_changed(self):
        table = tables.Table("cuts")
        found = [table.case(number)[1]["l"] for number in range(table.count)]
        first = [b"", b"1", b"1,", b"1,0", b"1,0\n", *(b"1,0\n"[:at] + bytes([other]) + b"1,0\n"[at + 1 :] for at in range(4) for other in b" -09")]
        self.assertEqual(found[: len(first)], first)
        self.assertEqual(found[len(first)], b"")
        self.assertEqual(found[-1][-1:], b"9")

    def test_served_states(self):
        (text, _) = tables.cells()
        self.assertEqual(text.case(len(text.whole))[1]["s"], b"0\n0\n1\n1\n")
        self.assertEqual(text.case(1)[1]["s"], b"0\n1\n")


if __name__ == "__main__":
    unittest.main()
