"""The documents name what the repository has: the modules of the theorem with their lines, and the crates with what they stand on. Their links lead somewhere, and they are short."""
import pathlib
import re
import unittest

TOP = pathlib.Path(__file__).resolve().parents[2]
# The most ways down from one crate, and from all together (`ways_down`).
MOST_WAYS = 20_500
ALL_WAYS = 110_000
# The most words of the first page, and of all pages that are read before something is designed or changed.
README_WORDS = 700
ALL_WORDS = 28_000
WORDS = {"fifteen": 15, "sixteen": 16, "seventeen": 17, "eighteen": 18, "nineteen": 19}


def text_of(name: str) -> str:
    return (TOP / name).read_text(encoding="utf-8")


def joined(text: str) -> str:
    """The words with one space between two, wherever the lines end."""
    return " ".join(text.split())


def names_in(text: str) -> list[str]:
    return re.findall(r"`(\w+)`", text)


def rows_of(text: str, heading: str) -> list[list[str]]:
    """The cells of the table's rows below a heading."""
    part = re.split(r"\n## ", text.split(f"## {heading}\n", 1)[1], maxsplit=1)[0]
    return [[cell.strip() for cell in line.strip("|").split(" | ")] for line in part.splitlines() if line.startswith("| `")]


# ---- the definitions
def module_path(module: str) -> pathlib.Path:
    """The file of a module as `Rattle.qp_model.specs.problem.Design`, also where a crate passes on another's."""
    crate, *parts = module.split(".")[1:]
    path = TOP.joinpath("crates", crate, *parts).with_suffix(".antt")
    lib = TOP / "crates" / crate / parts[0] / "Lib.antt"
    if not path.exists() and lib.exists():
        passed = re.search(rf"^pub use (Rattle\.[\w.]+\.{re.escape(parts[-1])})$", lib.read_text(encoding="utf-8"), re.MULTILINE)
        return module_path(passed[1]) if passed else path
    return path


def cited_by(modules: list[str]) -> set[str]:
    """These modules of definitions and all that they cite, also through others. Those that the compiler makes of the code have no file."""
    cited: set[str] = set()
    while modules:
        module = modules.pop()
        if module in cited or not module_path(module).exists():
            continue
        cited.add(module)
        modules += re.findall(r"^use (Rattle\.\w+\.specs\.[\w.]*\w)", module_path(module).read_text(encoding="utf-8"), re.MULTILINE)
    return cited


def short(module: str) -> tuple[str, str]:
    """The crate and the name of a module."""
    parts = module.split(".")
    return parts[1], parts[-1]


def lines_in(module: str) -> int:
    """The lines of a module that are neither an import, a comment nor empty."""
    lines = [line.strip() for line in module_path(module).read_text(encoding="utf-8").splitlines()]
    return sum(1 for line in lines if line and not line.startswith(("--", "use ")))


class Theorem(unittest.TestCase):
    page = text_of("docs/THEOREM.md")
    promise = cited_by(["Rattle.qp_model.specs.bounds.Certified"])

    def test_modules(self):
        """The modules in reading order are those of the promise."""
        heading = re.search(r"## (The (\w+) modules, in reading order)", self.page)
        named = [(names_in(crate)[0], name) for crate, names in (row[0].split(": ") for row in rows_of(self.page, heading[1])) for name in names_in(names)]
        self.assertEqual(sorted(named), sorted(map(short, self.promise)))
        self.assertEqual(len(named), WORDS[heading[2]])

    def test_lines(self):
        count = sum(map(lines_in, self.promise))
        self.assertEqual(re.findall(r"They are (\d+) lines together", self.page), [str(count)])
        self.assertEqual(re.findall(r"the (\d+) lines that say what is promised", text_of("README.md")), [str(count)])

    def test_clauses(self):
        """Each clause that the page quotes stands in `run` word for word, and each that it names is one of `run`'s."""
        contract = joined(text_of("crates/command_run/src/command.rt").split("pub fn run<", 1)[1])
        quoted = [joined(clause) for clause in re.findall(r"^    (ensures .*(?:\n     .*)*)", self.page, re.MULTILINE)]
        self.assertNotEqual(quoted, [])
        for clause in [*quoted, *(f"ensures {name} {{" for name in re.findall(r"\bclause\s+`(\w+)`", self.page))]:
            with self.subTest(clause=clause):
                self.assertIn(clause, contract)

    def test_what_else_is_cited(self):
        """Each module that what is built cites is named, beside its crate."""
        built = cited_by(["Rattle.design_engine.specs.Built", "Rattle.design_engine.specs.Targets"]) - self.promise
        named = set()
        for row in rows_of(self.page, "From the files to the promise"):
            for module in built:
                crate, name = short(module)
                if f"`{crate}`" in " ".join(row) and f"`{name}`" in " ".join(row):
                    named.add(module)
        self.assertEqual(built - named, set())


# ---- words and links
def slug(heading: str) -> str:
    """The anchor of a heading, as a page's reader makes it."""
    return re.sub(r"[^\w\- ]", "", heading.strip().lower()).replace(" ", "-")


def anchors_of(text: str) -> set[str]:
    return {slug(heading) for heading in re.findall(r"^#+ (.*)$", re.sub(r"^```.*?^```", "", text, flags=re.MULTILINE | re.DOTALL), re.MULTILINE)}


class Pages(unittest.TestCase):
    read = ["README.md", "CONTRIBUTING.md", *(str(path.relative_to(TOP)) for path in sorted((TOP / "docs").iterdir()))]
    linked = [*(name for name in read if name.endswith(".md")), "CHANGELOG.md"]
    linked += [str(path.relative_to(TOP)) for folder in ("examples", "bench", "checks") for path in sorted((TOP / folder).rglob("*.md"))]

    def test_words(self):
        words = {name: len(text_of(name).split()) for name in self.read}
        self.assertLessEqual(words["README.md"], README_WORDS)
        self.assertLessEqual(sum(words.values()), ALL_WORDS, words)

    def test_examples_of_the_first_page(self):
        """The table of the first page has the figures that the examples' pages print."""
        form = r"^\| \[\w+\]\((examples/\w+)/README\.md\) \| (\d)/(\d)/(\d+) \| ([\d.]+) (m?s) "
        form += r"\| (\d+) \| ([\d,]+) \| ([\d.]+) \| ([\d.]+) (\S+) \| ([\d.]+) \| ([\d,]+) \|$"
        rows = re.findall(form, text_of("README.md"), re.MULTILINE)
        self.assertEqual(len(rows), 7)
        for example, states, inputs, stages, time, unit, iterations, cycles, flash, promised, measure, measured, peer in rows:
            measure = measure.replace("²", "^2")
            page, design = text_of(f"{example}/README.md"), text_of(f"{example}/design.toml")
            seconds = float(time) / (1000 if unit == "ms" else 1)
            with self.subTest(example=example):
                for told in (f"states = {states}\n", f"inputs = {inputs}\n", f"stages = {stages}\n"):
                    self.assertIn(told, design)
                self.assertIn(f"every run takes K = {iterations} steps", page)
                self.assertRegex(page, rf"about {cycles} cycles a run, .* of a stage of {seconds:g} s; about {int(float(flash) * 1000):,} bytes of flash")
                self.assertIn(f"is exceeded by at most {promised} {measure}", page)
                self.assertIn(f"that is {measured} {measure}", page)
                self.assertRegex(text_of("docs/SPEED.md"), rf"\n\| {example.split('/')[1]} \|.* {peer}; \d+ \|\n")

    def test_links(self):
        """Each link names a file of the repository and, where it has one, a heading of it."""
        for name in self.linked:
            for link in re.findall(r"\]\((?!https?:)([^)\s]*)\)", text_of(name)):
                path, _, anchor = link.partition("#")
                target = (TOP / name).parent / path if path else TOP / name
                with self.subTest(page=name, link=link):
                    self.assertTrue(target.exists(), "no such file")
                    if anchor:
                        self.assertIn(anchor, anchors_of(target.read_text(encoding="utf-8")))

    def test_pages_that_scripts_name(self):
        """Each page that a script's words point to is there, with the heading that is named beside it."""
        for path in [TOP / "mpc", TOP / "docs" / "help.txt", *sorted((TOP / "scripts").glob("*.py")), *sorted((TOP / "scripts" / "common").glob("*.py"))]:
            for page, heading in re.findall(r'docs/([A-Z]+\.md)(?:, \\?"([^"\\]+)\\?")?', path.read_text(encoding="utf-8")):
                with self.subTest(script=path.name, page=page, heading=heading):
                    self.assertTrue((TOP / "docs" / page).exists())
                    if heading:
                        self.assertIn(slug(heading), anchors_of(text_of(f"docs/{page}")))


# ---- the crates
def crates_of(text: str) -> dict[str, set[str]]:
    """The crates of crates.txt, each with those of the repository that its line names."""
    lines = [line.split("#")[0].split(":") for line in text.splitlines() if ":" in line.split("#")[0]]
    crates = {name.split()[0]: set(used.split()) for name, used in lines}
    return {name: used & crates.keys() for name, used in crates.items()}


def below(crates: dict[str, set[str]], names: set[str]) -> set[str]:
    """These crates and all that they stand on."""
    reached: set[str] = set()
    left = list(names)
    while left:
        name = left.pop()
        if name not in reached:
            reached.add(name)
            left += crates[name]
    return reached


def listed(text: str, heading: str) -> list[str]:
    """The lines of the list below a heading, each before its words: crates, and what they stand on."""
    part = re.split(r"\n## ", text.split(f"## {heading}\n", 1)[1], maxsplit=1)[0]
    return [line[2:].split(": ")[0] for line in part.splitlines() if line.startswith("- `")]


def named_in(lines: list[str]) -> list[tuple[str, set[str]]]:
    """The crates of the list in its order, each with what is named behind `on`. A line of several has the parts of each, and what all have behind `; and`."""
    named = []
    for line in lines:
        crates, _, stands = line.partition(" on ")
        names = names_in(crates)
        own, _, shared = stands.partition("; and ")
        parts = own.split(";") if ";" in own else [own] * len(names)
        named += [(name, set(names_in(part)) | set(names_in(shared))) for name, part in zip(names, parts, strict=True)]
    return named


def ways_down(crates: dict[str, set[str]]) -> dict[str, int]:
    """How many ways lead down from each crate, itself among them. The kit sums up a crate's files once for each of those that end at it."""
    ways: dict[str, int] = {}

    def count(name: str) -> int:
        if name not in ways:
            ways[name] = 1 + sum(count(used) for used in crates[name])
        return ways[name]

    for name in crates:
        count(name)
    return ways


def texts_of_crate(name: str) -> str:
    """The code, the specs and the proofs of a crate."""
    parts = [TOP / "crates" / name / part for part in ("src", "specs", "proofs")]
    files = [file for part in parts for file in sorted(part.rglob("*")) if file.suffix in (".rt", ".antt")]
    return "\n".join(file.read_text(encoding="utf-8") for file in files)


class CratesFile(unittest.TestCase):
    crates = crates_of(text_of("crates.txt"))

    def test_each_crate_that_a_line_names_is_used(self):
        for name, used in self.crates.items():
            text = texts_of_crate(name)
            for other in sorted(used):
                with self.subTest(crate=name, other=other):
                    self.assertIsNotNone(re.search(rf"\b{other}::|\bRattle\.{other}\.", text), "named, and not used")

    def test_ways_down(self):
        ways = ways_down(self.crates)
        self.assertLessEqual(max(ways.values()), MOST_WAYS, max(ways, key=lambda name: ways[name]))
        self.assertLessEqual(sum(ways.values()), ALL_WAYS)


class FilesOfTheGate(unittest.TestCase):
    """The gate runs `mpc_generate` over files of its own crate, which are the first example's; what it must print is the worked report."""

    def test_first_example(self):
        for name in ("design.toml", "policy.csv"):
            self.assertEqual(text_of(f"crates/mpc_generate/data/{name}"), text_of(f"examples/first/{name}"))

    def test_report(self):
        self.assertIn(f'pub const REPORT: &str = "{text_of("crates/mpc_generate/stdout")}";', text_of("crates/trials_worked/src/texts.rt"))


class Architecture(unittest.TestCase):
    crates = crates_of(text_of("crates.txt"))
    named = named_in(listed(text_of("docs/ARCHITECTURE.md"), "The crates, from the bottom up"))

    def test_each_crate_stands_once(self):
        self.assertEqual(sorted(name for name, _ in self.named), sorted(self.crates))

    def test_what_it_stands_on_is_named(self):
        for name, used in self.named:
            with self.subTest(crate=name):
                self.assertEqual(used - self.crates[name], set(), "named, and not used")
                self.assertEqual(self.crates[name] - below(self.crates, used), set(), "used, and neither named nor below one that is")

    def test_from_the_bottom_up(self):
        seen: set[str] = set()
        for name, _ in self.named:
            with self.subTest(crate=name):
                self.assertEqual(self.crates[name] - seen, set(), "stands below its line")
            seen.add(name)


if __name__ == "__main__":
    unittest.main()
