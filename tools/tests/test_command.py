"""The command line: what it writes, its statuses and its errors."""
import tempfile
import unittest
from pathlib import Path

from support import SMALL, converted_text, run_tool

from linkparser.errors import MISSING, UNREADABLE, Fault


class Statuses(unittest.TestCase):
    def test_all_is_written(self) -> None:
        with tempfile.TemporaryDirectory() as out:
            run = run_tool(str(SMALL), f"{out}/new")
            self.assertEqual((run.returncode, run.stderr), (0, ""))
            names = {str(path.relative_to(f"{out}/new")) for path in Path(f"{out}/new").rglob("*") if path.is_file()}
            self.assertEqual(names, {"small.dict", "small.know", "report.txt", "words/animals", "words/quotes-60"})

    def test_the_report_has_kinds_and_lines(self) -> None:
        with tempfile.TemporaryDirectory() as out:
            run_tool(str(SMALL), out)
            report = Path(f"{out}/report.txt").read_text().splitlines()
            self.assertIn("  4.0.dict:9: <never-named>", report)
            self.assertIn("a macro that no formula names: left out (1)", report)

    def test_help(self) -> None:
        run = run_tool("--help")
        self.assertEqual(run.returncode, 0)
        self.assertIn("OUT/report.txt", run.stdout)

    def test_usage(self) -> None:
        self.assertEqual(run_tool().returncode, 2)
        self.assertEqual(run_tool(str(SMALL), "out", "--cost-limit", "much").returncode, 2)

    def test_a_directory_without_a_dictionary(self) -> None:
        with tempfile.TemporaryDirectory() as out:
            run = run_tool(f"{out}/none", out)
            self.assertEqual(run.returncode, MISSING)
            self.assertEqual(run.stderr, f"from-link-parser: cannot read {out}/none/4.0.dict: No such file or directory\n")

    def test_an_output_that_cannot_be_written(self) -> None:
        run = run_tool(str(SMALL), "/dev/null/out")
        self.assertEqual(run.returncode, MISSING)
        self.assertIn("cannot write", run.stderr)


class Errors(unittest.TestCase):
    def refused(self, message: str, text: str, **files: str) -> None:
        with self.assertRaises(Fault) as caught:
            converted_text(text, **files)
        self.assertTrue(str(caught.exception).endswith(message), caught.exception)
        self.assertEqual(caught.exception.status, UNREADABLE)

    def test_signs(self) -> None:
        self.refused("4.0.dict: line 2: ; wanted, y found", "x: A+\ny: B+;")
        self.refused("4.0.dict: line 1: ; wanted, the end found", "x: A+")
        self.refused("4.0.dict: line 1: ) wanted, ; found", "x: (A+;")
        self.refused("4.0.dict: line 1: a word or : wanted, ; found", "x;")
        self.refused("4.0.dict: line 1: a formula wanted, ; found", "x: ;")

    def test_operators(self) -> None:
        self.refused("4.0.dict: line 1: different operators without brackets", "x: A+ & B+ or C+;")

    def test_names(self) -> None:
        self.refused("4.0.dict: line 2: neither a connector nor a word of an earlier entry: <m>", "\nx: <m>;")
        self.refused("4.0.dict: line 1: a digit in a connector has no counterpart: Aa1+", "x: Aa1+;")
        self.refused("4.0.dict: line 1: a cost wanted, 1x found", "x: [A+]1x;")

    def test_quotes(self) -> None:
        self.refused("4.0.dict: line 2: a quote that is not closed", '\n"x: A+;')

    def test_includes(self) -> None:
        self.refused("4.0.dict: line 1: 4.0.dict includes itself", '#include "4.0.dict";')

    def test_dialects(self) -> None:
        self.refused("4.0.dialect: line 2: neither a section nor a name: x y", "x: A+;", dialect="[default]\nx y\n")

    def test_expressions(self) -> None:
        self.refused("4.0.regex: line 1: NAME: /EXPRESSION/ wanted", "x: A+;", regex="NAME: s$\n")

    def test_knowledge(self) -> None:
        self.refused("4.0.knowledge: line 1: a section wanted, A found", "x: A+;", knowledge="A B\n")
        self.refused("4.0.knowledge: line 2: no section before this line is named B", "x: A+;", knowledge="A:\n@B\n")
        self.refused("4.0.knowledge: line 1: a kind of domain wanted after A", "x: A+;", knowledge="STARTING_LINK_TYPE_TABLE: A\n")
        self.refused("4.0.knowledge: line 1: a kind of domain is one small letter: X", "x: A+;", knowledge="STARTING_LINK_TYPE_TABLE: A X\n")
        self.refused("4.0.knowledge: line 1: a pattern wanted, a found", "x: A+;", knowledge="IGNORE_THESE_LINKS: a\n")
        self.refused(
            "4.0.knowledge: line 1: CONTAINS_ONE_RULES: a rule has 3 parts with commas between them", "x: A+;",
            knowledge="CONTAINS_ONE_RULES: A , B\n")


if __name__ == "__main__":
    unittest.main()
