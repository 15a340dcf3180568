"""What stands in several documents is the same in each: refusals in the code, the header and the page on the bytes; places of language forms; the stack.
And docs/contracts.py leaves out no contract."""

import re
import sys
import unittest
from pathlib import Path

ROOT = Path(__file__).parent.parent
sys.path.append(str(ROOT / "docs"))

import contracts  # noqa: E402 (docs/contracts.py)


def text_of(name):
    return (ROOT / name).read_text()


def header_refusals():
    enum = re.search(r"enum openlr_refusal \{(.*?)\n\};", text_of("include/openlr.h"), re.DOTALL)[1]
    return {int(number): name for name, number in re.findall(r"(OPENLR_\w+) = (\d+)", enum)}


def header_constant(name):
    return int(re.search(rf"#define {name} (\d+)", text_of("include/openlr.h"))[1])


class Refusals(unittest.TestCase):
    def test_header_has_the_names_of_the_code(self):
        rows = re.findall(r"Refusal::(\w+)(?:\(place\))? => Row\((\d+),", text_of("crates/model/src/lib.rt"))
        names = {int(number): "OPENLR_" + re.sub(r"(?<!^)([A-Z])", r"_\1", name).upper() for name, number in rows}
        self.assertEqual(header_refusals(), names)

    def test_header_has_a_sentence_for_each(self):
        self.assertEqual(set(re.findall(r"case (OPENLR_\w+): return", text_of("include/openlr.h"))), set(header_refusals().values()))

    def test_page_has_each(self):
        rows = re.findall(r"^\| (\d+) \| `(\w+)` \|", text_of("docs/FORMAT.md"), re.MULTILINE)
        self.assertEqual({int(number): name for number, name in rows}, header_refusals())


class LanguageForms(unittest.TestCase):
    def test_each_stands_where_the_page_says(self):
        page = text_of("docs/DECISIONS.md")
        section = page[page.index("## Language forms"):page.index("## Definitions")]
        rows = [row.split(" | ") for row in section.splitlines() if row.startswith('| "')]
        self.assertEqual(len(rows), 9)
        for _, _, places in rows:
            for place in places.split("; "):
                file_name, *names = re.findall(r"`([^`]+)`", place)
                for name in names:
                    with self.subTest(f"{name} in {file_name}"):
                        self.assertIn(name.split("::")[-1], text_of(file_name))


class Sizes(unittest.TestCase):
    def test_stack(self):
        kilobytes, rest = divmod(header_constant("OPENLR_LEAST_STACK"), 1_024)
        self.assertEqual(rest, 0)
        for name in ("README.md", "docs/DECISIONS.md"):
            self.assertIn(f"{kilobytes} KiB", text_of(name))


class Version(unittest.TestCase):
    def test_page_on_the_bytes_is_of_the_header_s_version(self):
        self.assertIn(f"the format of version {header_constant('OPENLR_VERSION')}", " ".join(text_of("docs/FORMAT.md").split()))


class Contracts(unittest.TestCase):
    def test_every_function_and_every_clause_is_listed(self):
        code = [path.read_text() for path in ROOT.glob("crates/*/src/**/*.rt")]
        rows = list(contracts.contracts(None, False))
        clauses = [row for row in rows if re.search(r": (requires|ensures) (\w+ )?\{ .* \}$", row)]
        self.assertEqual(len(clauses), sum(len(re.findall(r"\b(?:requires|ensures) (?:\w+ )?\{", text)) for text in code))
        # What a type or a trait's law says in the place of a clause.
        facts = [row for row in rows if re.search(r": \w+ \{ .* \}$", row) and row not in clauses]
        self.assertEqual(len(facts), sum(len(re.findall(r"\bghost \w+(?::| =) \{", text)) for text in code))
        self.assertGreater(len(facts), 2)
        self.assertEqual(len(rows) - len(clauses) - len(facts), sum(len(re.findall(r"^[^/\n]*\bfn \w", text, re.MULTILINE)) for text in code))


class LineLengths(unittest.TestCase):
    def test_no_line_is_over_160_characters(self):
        # Not all of bench: what is built there may change meanwhile.
        patterns = ("include/*.h", "tests/*", "examples/*.[ch]", "oracle/*.py", "docs/*.py", "bench/*.*", "bench/src/**/*.rs", "bench/tests/*.rs",
                    "Makefile", ".ci/run")
        paths = [path for pattern in patterns for path in ROOT.glob(pattern)]
        self.assertGreater(len(paths), 60)
        for path in paths:
            for number, line in enumerate(path.read_text().splitlines(), 1):
                with self.subTest(f"{path.relative_to(ROOT)}:{number}"):
                    self.assertLessEqual(len(line), 160)


if __name__ == "__main__":
    unittest.main()
