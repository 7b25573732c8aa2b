"""The documents: no dead link, no long line, none longer than it may be, and no clause named that doesn't stand in the code."""
import functools
import pathlib
import re
import unittest

ROOT = pathlib.Path(__file__).resolve().parent.parent
DOCUMENTS = sorted([*ROOT.glob("*.md"), *ROOT.glob("docs/*.md"), *ROOT.glob("contrib/*.md")])
MOST_LINES = {"README.md": 150, "docs/ARCHITECTURE.md": 120, "docs/DECISIONS.md": 159}


def anchors(path):
    """The anchors of a document's headings."""
    heads = re.findall(r"^#+ (.*)$", path.read_text(), re.M)
    return {re.sub(r"[^\w\- ]", "", head.lower()).replace(" ", "-") for head in heads}


def links(text):
    """Where the links of a text lead: those in place, and those by a label."""
    labels = dict(re.findall(r"^\[([^\]]+)\]: (\S+)$", text, re.M))
    unknown = [label for label in re.findall(r"\]\[([^\]]+)\]", text) if label not in labels]
    return re.findall(r"\]\(([^)\s]+)\)", text) + list(labels.values()) + unknown


@functools.lru_cache(maxsize=None)
def clauses(crate):
    """The functions of a crate, each with the named clauses that it ensures, and all words of its source."""
    text = "\n".join(path.read_text() for path in (ROOT / "crates" / crate / "src").rglob("*.rt"))
    found, function = {}, None
    for line in text.splitlines():
        if name := re.match(r"\s*(?:pub(?:\(crate\))? )?(?:final )?(?:const )?(?:unsafe )?fn (\w+)", line):
            function = found.setdefault(name[1], set())
        elif (clause := re.match(r"\s*ensures\*? (\w+) \{", line)) and function is not None:
            function.add(clause[1])
    return found, set(re.findall(r"\w+", text))


def claims():
    """The claims of docs/PROVED.md: the crates that each speaks of, and its text."""
    text = re.sub(r"\n  +", " ", (ROOT / "docs" / "PROVED.md").read_text())
    crates = []
    for line in text.splitlines():
        if line.startswith("## "):
            crates = []
        elif line.startswith("### "):
            crates = re.findall(r"`(\w+)`", line)
        elif line.startswith("- "):
            own = re.match(r"- `(\w+)`: ", line)
            if own and (ROOT / "crates" / own[1]).is_dir():
                yield [own[1]], line[own.end() :]
            elif crates:
                yield crates, line


def layers():
    """The crates in the order of ARCHITECTURE's table."""
    table = (ROOT / "docs" / "ARCHITECTURE.md").read_text().split("## The crates, by layer")[1].split("\n## ")[0]
    return re.findall(r"`(\w+)`", " ".join(re.findall(r"^\|([^|]*)\|", table, re.M)))


class Documents(unittest.TestCase):
    def test_links_lead_somewhere(self):
        for path in DOCUMENTS:
            for link in links(path.read_text()):
                file, _, anchor = link.partition("#")
                target = (path.parent / file) if file else path
                with self.subTest(f"{path.name}: {link}"):
                    self.assertTrue(link.startswith("http") or target.exists())
                    self.assertTrue(not anchor or anchor in anchors(target))

    def test_lines_and_documents_are_short(self):
        for path in DOCUMENTS:
            lines = path.read_text().splitlines()
            with self.subTest(path.name):
                self.assertEqual([i for i, line in enumerate(lines, 1) if len(line) > 160], [])
                self.assertLessEqual(len(lines), MOST_LINES.get(str(path.relative_to(ROOT)), len(lines)))

    def test_crates_are_listed_by_layer_and_stand_on_earlier_ones(self):
        lines = [line.split() for line in (ROOT / "crates.txt").read_text().splitlines() if line and not line.startswith("#")]
        order = [words[0].rstrip(":") for words in lines]
        self.assertEqual(order, layers())
        for i, words in enumerate(lines):
            with self.subTest(order[i]):
                self.assertLessEqual({word for word in words[1:] if word in order}, set(order[:i]))

    def test_each_clause_that_is_named_stands_in_the_code(self):
        group = re.compile(r"((?:`\w+`(?: of `\w+`)?(?:, )?)+): ((?:`\w+`(?:, )?)+)")
        for crates, text in claims():
            code = [clauses(crate) for crate in crates]
            for functions, names in group.findall(text):
                functions = re.findall(r"`(\w+)`", re.sub(r" of `\w+`", "", functions))
                for name in re.findall(r"`(\w+)`", names):
                    for function in functions:
                        with self.subTest(f"{crates}: {function}: {name}"):
                            self.assertTrue(any(name in found.get(function, ()) for found, _ in code))
            for law in re.findall(r"`(\w+_\w+)`", text):
                with self.subTest(f"{crates}: {law}"):
                    self.assertTrue(any(law in words for _, words in code))


if __name__ == "__main__":
    unittest.main()
