"""Accumulator listings: worked rows, the text both ways, and that a controller's listing plays what the controller runs."""
import random
import unittest

from checks.fuzz import cases, control, listing, model
from checks.fuzz.machines import LISTED
from checks.rows.texts import sub

from .worked import CONTROLLER, DESIGN, told

TEXT = told("list c l", c=CONTROLLER)[3]["l"].encode()
SECOND = sub(CONTROLLER, (b"mpc-controller 1", b"mpc-controller 2"), (b"words 6\n", b"words 6\nexps 1 1 0\n"))


def first_fault(data):
    try:
        listing.read_listing(data)
    except model.Refused as refused:
        return refused.args
    return None


def listing_like(body, word=8, words=3, repeat=1, lo=-9, hi=9):
    return listing.Listing(word, 1, 0, [lo], [hi], words, 1, 1, 7, repeat, body)


def trap_of(body, state=1, **numbers):
    l = listing_like(body, **numbers)
    try:
        return listing.played(listing.read_listing(listing.text_of(l)), [state])
    except listing.Trapped as trapped:
        return trapped.args


class Texts(unittest.TestCase):
    def test_worked(self):
        lines = TEXT.decode().split("\n")
        self.assertEqual(lines[:9], ["mpc-listing 1", "word 26", "input 1 10", "lo 0", "hi 1", "words 6", "output 5 1 4096", "repeat 4 38", "count 152"])
        self.assertEqual(lines[9:19], ["clear", "mac 0 512 0", "con 0 10", "shl 1", "mac 1 256 0", "mac 2 -256 0", "mac 3 256 0", "shr 11", "neg", "store 4"])
        self.assertEqual(lines[19:27], ["clear", "mac 4 1024 0", "con -1024 10", "shr 10", "addm 1", "low", "cap 32768", "store 1"])
        self.assertEqual(lines[35:44], ["clear", "mac 4 1024 0", "mac 0 1024 0", "con -256 10", "shr 10", "addm 3", "low", "cap 32768", "store 3"])
        self.assertEqual(lines[44:], ["load 5", "addm 4", "store 5", "end", ""])

    def test_exponents(self):
        lines = told("list c l", c=SECOND)[3]["l"].split("\n")
        self.assertEqual(lines[13:17], ["mac 1 256 0", "mac 2 -256 0", "mac 3 256 1", "shr 11"])
        self.assertEqual(lines[42], "cap 16384")

    def test_both_ways(self):
        self.assertEqual(listing.text_of(listing.read_listing(TEXT)), TEXT)

    def test_refused(self):
        self.assertEqual(told("play l s", l=TEXT.removesuffix(b"end\n"), s=b"1")[:3], (20, "error 20 listing 1 48\n", ""))
        for i in range(len(TEXT)):
            self.assertEqual(first_fault(TEXT[:i]), (20, 1 + TEXT[:i].count(b"\n")))
        for line, old, new in ((49, b"end\n", b"end\nx"), (2, b"word 26", b"word 129"), (2, b"word 26", b"word 1"), (3, b"input 1 10", b"input 7 10"), (3, b"input 1 10", b"input 1 49"),
                               (5, b"hi 1\n", b"hi -1\n"), (6, b"words 6", b"words 0"), (6, b"words 6", b"words 1001"), (7, b"output 5 1", b"output 5 2"), (7, b"output 5 1", b"output 5 0"),
                               (7, b"output 5 1 4096", b"output 5 1 0"), (8, b"repeat 4 38", b"repeat 0 38"), (8, b"repeat 4 38", b"repeat 4 100001"), (9, b"count 152", b"count 151"),
                               (11, b"mac 0 512 0", b"mac 6 512 0"), (11, b"mac 0 512 0", b"mac 0 512 127"), (12, b"con 0 10", b"con -0 10"), (47, b"store 5", b"store 5 "),
                               (48, b"repeat 4 38\ncount 152", b"repeat 4 39\ncount 156"), (47, b"repeat 4 38\ncount 152", b"repeat 4 37\ncount 148")):
            self.assertEqual(first_fault(sub(TEXT, (old, new))), (20, line), new)
        for new in (b"mac 0 512 126", b"mac 0 %d 0" % (2**127 - 1), b"mac 0 %d 0" % -(2**127), b"mac 0 0 0", b"clear"):
            self.assertIsNone(first_fault(sub(TEXT, (b"mac 0 512 0", new))))
        for new in (b"mac 0 %d 0" % 2**127, b"mac 0 %d 0" % (-(2**127) - 1), b"clear 0", b"CLEAR", b"mac 0 512", b"halt"):
            self.assertEqual(first_fault(sub(TEXT, (b"mac 0 512 0", new))), (20, 11), new)

    def test_controllers(self):
        self.assertEqual(told("list c l", c=sub(CONTROLLER, (b"steps 4", b"steps 04")))[1], "error 11 controller 1 line 4\n")
        self.assertEqual(told("list c c", c=CONTROLLER)[1], "error 2 usage\n")


class Machine(unittest.TestCase):
    def test_worked(self):
        self.assertEqual(told("play l s", l=TEXT, s=b"1\n0\n")[:3], (0, "", "4096 -2224\n4096 0\n"))
        self.assertEqual(told("play l s", l=told("list c l", c=SECOND)[3]["l"].encode(), s=b"1")[:3], (0, "", "4096 -2372\n"))
        self.assertEqual(told("play l s", l=sub(TEXT, (b"word 26", b"word 21")), s=b"0\n1\n0\n")[:3], (21, "error 21 trap 2 1 4\n", "4096 0\n"))
        self.assertEqual(told("play l s", l=sub(TEXT, (b"word 26", b"word 20")), s=b"1\n")[:3], (21, "error 21 trap 1 1 2\n", ""))
        # all states are tested before the first is played
        self.assertEqual(told("play l s", l=sub(TEXT, (b"word 26", b"word 20")), s=b"1\n2\n")[:3], (12, "error 12 outside-box 2 0 1\n", ""))

    def test_instructions(self):
        store = ("store", 1)
        for body, wanted in (
            ([("con", 5, 2), store], 20), ([("con", -5, 4), ("shr", 5), store], -3), ([("con", -1, 0), ("shr", 126), store], -1), ([("con", -5, 0), ("low",), store], 0),
            ([("con", 5, 0), ("low",), store], 5), ([("con", 5, 0), ("cap", 4), store], 4), ([("con", -5, 0), ("cap", 4), store], -5), ([("con", 5, 0), ("neg",), store], -5),
            ([("load", 0), ("shl", 3), store], 8), ([("mac", 0, -3, 2), store], -12), ([("load", 0), ("addm", 0), ("addm", 0), store], 3), ([("con", 5, 0), ("clear",), store], 0),
            ([("con", 1, 0), ("cap", 2**127 - 1), store], 1), ([("mac", 2, 2**127 - 1, 126), store], 0), ([("con", 0, 126), ("shl", 126), store], 0),
        ):
            self.assertEqual(trap_of(body)[1], wanted, body)
        # the accumulator goes on from one repetition to the next
        self.assertEqual(trap_of([("addm", 0), store], repeat=5)[1], 5)

    def test_traps(self):
        for body, word, wanted in (
            ([("con", 1, 7)], 8, (1, 1)), ([("con", -1, 7)], 8, [1, 0, 0]), ([("con", -1, 7), ("neg",)], 8, (1, 2)), ([("con", -1, 7), ("con", -1, 0)], 8, (1, 2)),
            ([("load", 0), ("shl", 6)], 8, [1, 0, 0]), ([("load", 0), ("shl", 7)], 8, (1, 2)), ([("mac", 0, 1, 7)], 8, (1, 1)), ([("mac", 0, -1, 7)], 8, (1, 1)),
            ([("mac", 0, -2, 6)], 8, [1, 0, 0]), ([("con", 100, 0), ("mac", 0, 1, 5)], 8, (1, 2)), ([("con", 5, 0), ("cap", -129)], 8, (1, 2)), ([("con", 5, 0), ("cap", -128)], 8, [1, 0, 0]),
            ([("con", 1, 126)], 127, (1, 1)), ([("con", 1, 126)], 128, [1, 0, 0]), ([("con", 3, 126)], 128, (1, 1)), ([("con", 2**127 - 1, 0)], 128, [1, 0, 0]),
            ([("clear",), ("con", 100, 0), ("addm", 1), ("store", 1)], 8, (2, 3)), ([("con", 100, 0)], 8, (2, 1)),
        ):
            self.assertEqual(trap_of(body, word=word, repeat=2 if wanted[0] == 2 else 1), wanted, body)
        # an input that doesn't fit
        self.assertEqual(trap_of([("clear",)], state=8, word=4), (0, 0))
        self.assertEqual(trap_of([("clear",)], state=-8, word=4), [-8, 0, 0])

    def test_plays_the_controller(self):
        """The words of a controller's listing are those of its run, and it has the instructions that the sizes say."""
        pick, tried = random.Random(3), 0
        while tried < 150:
            c = cases.random_controller(pick, versions=LISTED)[1]
            try:
                control.read_controller(control.text_of(c))
            except model.Refused:
                continue
            tried += 1
            l = listing.read_listing(listing.text_of(listing.listing_of(c)))
            zeros = sum(not v for matrix in (c.p_mat, c.w_mat, c.g_mat, c.e_mat) for row in matrix for v in row)
            self.assertEqual(len(l.body) + zeros, c.nu * (c.n + 2 * c.m + 9) + c.m * (c.n + 7))
            for state in (c.lo, c.hi, [pick.randrange(low, high + 1) for low, high in zip(c.lo, c.hi)]):
                self.assertEqual(listing.play_line(l, listing.played(l, state)), control.plan_line(c, state))

    def test_design(self):
        self.assertEqual(told("play l s", l=DESIGN, s=b"1")[1], "error 20 listing 1 1\n")


if __name__ == "__main__":
    unittest.main()
