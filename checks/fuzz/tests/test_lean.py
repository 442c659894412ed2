"""The model of `lean` against worked rows, whose numbers another program computed in exact whole numbers."""
import os
import unittest

from checks.fuzz import control, excess, forms, model, program
from checks.rows.lean_rows import LEAN as WORDS
from checks.rows.worked_texts import DESIGN, LEAN_CONTROLLER, LEAN_JSON, LEAN_REPORT, POLICY, REFERENCE

from .test_staying import FACES, HELD
from .worked import told

TIGHT = DESIGN.replace("den = 1\nviolation = 16\ngap = 1\n", "den = 10\nviolation = 1\ngap = 10\n")
SECOND = DESIGN.replace("version = 1", "version = 2").replace("violation = 16", "violation = 1")
# over two stages, with denominators that make its numbers enclosures
FINE = (
    DESIGN.replace("stages = 1", "stages = 2")
    .replace("den = 1\na = [[1]]\nb = [[1]]", "den = 1048576\na = [[1048576]]\nb = [[1048576]]")
    .replace("den = 4\nstage = [[0, 4, 4], [0, -4, 4]]\nfinal = [[4, 1]]", "den = 131072\nstage = [[0, 131072, 131072], [0, -131072, 131072]]\nfinal = [[131072, 32768]]")
)
FINE_POLICY, FINE_REFERENCE = "1,0,0\n8,-7,0\n", "1,0,0\n5,-3,-1\n"
# a state that stays 0, and an input of at least 3.9
PUSHED = (
    DESIGN.replace("a = [[1]]\nb = [[1]]", "a = [[0]]\nb = [[0]]").replace("stage = [[1, 0, 1]]", "stage = []").replace("hi = [1]", "hi = [0]")
    .replace("den = 4\nstage = [[0, 4, 4], [0, -4, 4]]\nfinal = [[4, 1]]", "den = 10\nstage = [[0, -10, -39]]\nfinal = []")
)


def answer(design, policy, reference, words=WORDS):
    files = {"d": design.encode(), "p": policy.encode(), "q": reference.encode()}
    return program.answer(words, files.get, lambda name: True, model.exact_gains)


def choice(design, policy, reference):
    d = model.read_design(design.encode())
    plans, references = (model.read_policy(text.encode(), d) for text in (policy, reference))
    return d, model.choose(d, plans, references), references


def example(name):
    texts = []
    for place in ("design.toml", "policy.csv"):
        with open(os.path.join(os.path.dirname(__file__), "..", "..", "..", "examples", name, place), encoding="utf-8") as file:
            texts.append(file.read())
    return texts


class Rows(unittest.TestCase):
    def told(self, design, policy, reference, **wanted):
        """Compares numbers of a report, and gives the controller."""
        said = answer(design, policy, reference)
        self.assertEqual((said.status, said.line), (0, b""))
        report = [line.split() for line in said.written["r"].decode().splitlines()]
        found = {row[0]: int(row[1]) for row in report[:-1]}
        self.assertEqual({key: found[key] for key in wanted}, wanted)
        return said

    def refused(self, design, policy, reference, status, line, words=WORDS):
        said = answer(design, policy, reference, words)
        self.assertEqual((said.status, said.line.decode(), said.written), (status, f"error {status} {line}\n", {}))

    def plans(self, said, states):
        c = control.read_controller(said.written["c"])
        return [control.plan_line(c, state).decode().strip() for state in states]

    def test_base(self):
        said = self.told(DESIGN, POLICY, REFERENCE)
        self.assertEqual((said.written["c"].decode(), said.written["r"].decode()), (LEAN_CONTROLLER, LEAN_REPORT))
        self.assertEqual(self.plans(said, [[1], [0]]), ["64 -32", "64 0"])
        d, chosen, references = choice(DESIGN, POLICY, REFERENCE)
        self.assertEqual([model.target_of(d, units) for units in (2**40, 15 * 2**36, 2**36, 2**16)], [17592186044416, 16492674416640, 1099511627776, 1048576])
        self.assertEqual(excess.excess(d, model.form_of(d), model.read_policy(POLICY.encode(), d), references), (18432, 680020773533228910772224))
        self.assertEqual((chosen.errors.epsilon(6), chosen.clamp), (569083166720, 256))

    def test_json(self):
        said = answer(DESIGN, POLICY, REFERENCE, [*WORDS[:-1], "r.json"])
        self.assertEqual(said.written["r.json"].decode(), LEAN_JSON)

    def test_tight(self):
        said = self.told(TIGHT, POLICY, REFERENCE, excess=18432, multiplier=2, steps=86, bits=13, width=30, violation=107726302604, gap=6442582016, undercut=219902325554)
        self.assertEqual(self.plans(said, [[1]]), ["704512 -512000"])
        d, chosen, _ = choice(TIGHT, POLICY, REFERENCE)
        self.assertEqual([model.target_of(d, units) for units in (2**40, 15 * 2**36, 2**36, 2**16)], [109951162777, 103079215104, 6871947673, 6553])
        self.assertEqual((chosen.errors.epsilon(13), chosen.clamp), (10477371392, 65536))

    def test_bad_references(self):
        self.told(TIGHT, POLICY, "1,0\n1,-1\n", excess=51200, multiplier=4, steps=171, bits=14, width=33, violation=107522022222, gap=8858402816, undercut=439804651108)
        self.told(TIGHT, POLICY, "1,0\n4,-3\n", excess=26624, multiplier=2, steps=86, bits=13, width=30, violation=107726302604, gap=6442582016, undercut=219902325554)
        self.told(TIGHT, POLICY, "1,5\n1,-7\n", excess=5556224, multiplier=377, steps=16086, bits=21, width=54, violation=106961319180, gap=337992744962)

    def test_refusals(self):
        self.refused(DESIGN, POLICY, "1,0\n1,-999999999999999\n", 10, "too-wide excess")
        self.refused(DESIGN, POLICY, "1,0\n", 5, "text 3 count 1")
        self.refused(DESIGN, POLICY, "1,0\n0,1\n", 5, "text 3 number 2 1")
        for reference in (REFERENCE, "1,0\n1,-999999999999999\n"):
            self.refused(DESIGN, "1,0\n131072,-131071\n", reference, 6, "no-margin 2 2 4 524288")
        for words in (["lean", "d", "p", "q", "c", "c"], ["lean", "d", "p", "q", "q", "r"], ["lean", "d", "p", "c", "r"]):
            self.refused(DESIGN, POLICY, REFERENCE, 2, "usage", words)

    def test_fine(self):
        self.told(FINE, FINE_POLICY, FINE_REFERENCE, margin=8192, excess=12903, multiplier=1, steps=1, bits=8, width=20, words=10, violation=11111684374528, gap=233136193536,
                  undercut=17592186044416)
        _, chosen, _ = choice(FINE, FINE_POLICY, FINE_REFERENCE)
        self.assertEqual((chosen.errors.epsilon(8), chosen.clamp), (1035422662656, 1024))
        rounded = FINE.replace("a = [[1048576]]\nb = [[1048576]]", "a = [[1048577]]\nb = [[1048573]]")
        self.told(rounded, FINE_POLICY, FINE_REFERENCE, margin=8191, excess=12904, violation=11108815470593, gap=227398385665)
        self.assertEqual(choice(rounded, FINE_POLICY, FINE_REFERENCE)[1].errors.epsilon(8), 1035422662657)

    def test_second_version(self):
        said = self.told(SECOND, POLICY, REFERENCE, multiplier=1, steps=5, bits=9, width=22, gap=38688260096, undercut=1099511627776)
        self.assertEqual([line for line in said.written["r"].decode().splitlines() if line.startswith("violation")], [
            "violation 1 789002269492 1099511627776", "violation 2 1008904595047 1099511627776", "violation 3 1008904595047 1099511627776"])
        self.assertIn(b"\nexps 0 1 1\n", said.written["c"])
        self.assertIn(b"\nclamp 2048\n", said.written["c"])
        self.assertEqual(self.plans(said, [[1]]), ["2560 -1421"])

    def test_threshold(self):
        """The plan 0 breaks the row by 3.9, which a bound without the half of the target, 2.53, would not hold; and the best feasible plan costs 15.21 more."""
        said = self.told(PUSHED, "100,391\n" * 2, "1,0\n" * 2, margin=655, excess=1001921, multiplier=1, step=0, steps=1, bits=3, width=10, words=4, violation=10187662426112,
                         gap=584115552256, undercut=17592186044416)
        self.assertIn(b"\nclamp 16\n", said.written["c"])
        self.assertEqual(self.plans(said, [[0]]), ["8 0"])

    def test_motor(self):
        design, policy = example("motor")
        self.near(design, policy, "1,16,10,5,1\n1,-4,2,3,1\n1,4,-2,-3,-1\n1,-16,-10,-5,-1\n", {"violation": 1063102425967, "gap": 290079334764},
                  excess=12303145, multiplier=38, steps=82, bits=19, width=46)
        own = "128,1791,1402,650,166\n128,-469,261,329,125\n128,469,-261,-329,-125\n128,-1791,-1402,-650,-166\n"
        self.near(design, own, "4,64,39,18,5\n1,-4,2,3,1\n1,4,-2,-3,-1\n4,-64,-39,-18,-5\n", {"violation": 1040692588278, "gap": 18119518576},
                  margin=256, excess=253167, multiplier=4, steps=9, bits=18, width=42, undercut=4398046511104)

    def near(self, design, policy, reference, bounds, **wanted):
        """And bounds that rest on what the gains leave, which other good gains than these were found for."""
        said = self.told(design, policy, reference, **wanted)
        found = {row[0]: int(row[1]) for row in map(str.split, said.written["r"].decode().splitlines()[:-1])}
        for key, value in bounds.items():
            self.assertAlmostEqual(found[key] / value, 1, delta=1e-4)


class Faces(unittest.TestCase):
    """Lean controllers of boxes that no loop leaves, by what the lean bounds say of a row before its gains are known."""

    def asked(self, words="lean d p q c r f", **files):
        return told(words, **{"d": HELD, "p": POLICY.encode(), "q": REFERENCE.encode(), "f": FACES} | files)

    def test_stated_violations(self):
        d = model.read_design(HELD)
        plans, references = (model.read_policy(text.encode(), d) for text in (POLICY, REFERENCE))
        chosen = model.choose(d, plans, references)
        target, k, f, s = 109951162777, *(chosen.report[key] for key in ("steps", "bits", "step"))
        wanted = min(target, -(-target // 2) + -(-(2 ** (s + 41)) // k) + -(-chosen.errors.epsilon(f) // 4))
        self.assertEqual((chosen.report["multiplier"], chosen.stated_violations), (2, [wanted] * 4))
        self.assertLess(wanted, target)
        self.assertLessEqual(chosen.printed(model.exact_gains(chosen), 2**f)["violation"], wanted)

    def test_faces_that_hold(self):
        self.assertEqual(self.asked()[0], 0)
        self.assertEqual(self.asked()[3], self.asked("lean d p q c r")[3])
        self.assertEqual(self.asked("lean d p q c r f w", w=b"0\n1\n")[0], 0)

    def test_refused(self):
        for faces, line in ((b"4,0,0,1,0\n4,0,1,0,0\n", "17 no-stay 2 -1"), (b"3,0,0,1,0\n4,0,0,0,1\n", "16 unequal 1 1 4 3"), (b"", "5 text 6 count 0")):
            self.assertEqual(self.asked(f=faces), (int(line.split()[0]), f"error {line}\n", "", {}))
        self.assertEqual(self.asked("lean d p q c r f w", w=b"-1\n0\n")[1], "error 17 no-stay 2 -1\n")
        self.assertEqual(self.asked("lean d p q c r f w", w=b"0\n")[1], "error 5 text 7 count 1\n")
        self.assertEqual(self.asked(q=b"1,0\n1,-999999999999999\n", f=b"3,0,0,1,0\n4,0,0,0,1\n")[1], "error 10 too-wide excess\n")


class Gains(unittest.TestCase):
    def test_refined_ones_are_good(self):
        for name in ("motor", "wheel"):
            design, policy = example(name)
            d = model.read_design(design.encode())
            chosen = model.choose(d, model.read_policy(policy.encode(), d))
            refined = model.refined_gains(chosen)
            self.assertIsNone(model.why_no_gains(chosen, refined))
            self.assertLessEqual(max(abs(v - w) for x, y in zip(refined, model.exact_gains(chosen)) for v, w in zip(x, y)), 2)


class Excess(unittest.TestCase):
    def test_at_least_what_the_plans_cost_more(self):
        for design, policy, reference in ((DESIGN, POLICY, REFERENCE), (DESIGN, POLICY, "1,5\n1,-7\n"), (FINE, FINE_POLICY, FINE_REFERENCE), (PUSHED, "100,391\n" * 2, "1,0\n" * 2)):
            d = model.read_design(design.encode())
            plans, references = (model.read_policy(text.encode(), d) for text in (policy, reference))
            self.assertIsNone(excess.fault(d, plans, references))

    def test_best_reference_shows_the_excess_itself(self):
        d = model.read_design(DESIGN.encode())
        at = lambda reference: excess.excess(d, model.form_of(d), model.read_policy(POLICY.encode(), d), model.read_policy(reference.encode(), d))[0]
        self.assertEqual(at(REFERENCE), 65536 * 18 // 64)
        # a policy that is its own reference leaves what the gradient says
        self.assertEqual(at(POLICY), 36864)

    def test_both_classes_of_a_form_show_nearly_the_same(self):
        d = model.read_design(DESIGN.encode())
        plans, references = (model.read_policy(text.encode(), d) for text in (POLICY, "1,0\n7,-3\n"))
        exact, fine = (excess.excess(d, form(d), plans, references)[0] for form in (forms.exact_form, forms.fine_form))
        self.assertTrue(0 <= fine - exact <= 1)


if __name__ == "__main__":
    unittest.main()
