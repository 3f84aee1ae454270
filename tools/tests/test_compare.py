"""What tools/compare-link-parser takes for sentences and how it counts."""
import importlib.machinery
import importlib.util
import sys
import tempfile
import unittest
from pathlib import Path

from support import TOOLS, run_tool


def loaded():
    """The tool as a module."""
    loader = importlib.machinery.SourceFileLoader("compare_link_parser", str(TOOLS / "compare-link-parser"))
    spec = importlib.util.spec_from_loader(loader.name, loader)
    module = importlib.util.module_from_spec(spec)
    sys.modules[loader.name] = module
    loader.exec_module(module)
    return module


class Compare(unittest.TestCase):
    def sentences(self, text: str, comments: bool) -> list[str]:
        with tempfile.TemporaryDirectory() as name:
            path = Path(name) / "sentences"
            path.write_text(text, encoding="utf-8")
            return loaded().sentences(path, comments)

    def test_lines(self) -> None:
        self.assertEqual(self.sentences("the cat ran\n% no\n*the ran\n\n!no\nthe cat ran\n", False), ["the cat ran"])

    def test_comments(self) -> None:
        text = 'x: A+; % as in "The cat sat there." or "*The cat the ran." or "the cat"\n"Not a comment at all": B+;\n'
        self.assertEqual(self.sentences(text, True), ["The cat sat there."])

    def test_shares(self) -> None:
        counts = loaded().Counts()
        for here, there in ((True, True), (True, True), (False, True), (False, False), (True, False)):
            counts.add(here, there)
        self.assertEqual(counts.text(), "accepted here too    2 of    3 ( 67 %)   refused here too    1 of    2 ( 50 %)")

    def test_answers_of_link_parser(self) -> None:
        shown = (
            "Use !help\na b\nNo complete linkages found.\nc\nNo complete linkages found.\n"
            "Found 6 linkages (2 of 6 had no P.P. violations)\nd\nFound 9 linkages (0 of 9 had no P.P. violations)\nBye.\n"
        )
        self.assertEqual(loaded().accepted_in(shown, ["a b", "c", "d"]), [False, True, False])

    def test_a_sentence_without_an_answer(self) -> None:
        for shown in ("a b\nNo complete linkages found.\n", "a b\nNo complete linkages found.\nc\n"):
            with self.assertRaises(SystemExit):
                loaded().accepted_in(shown, ["a b", "c"])

    def test_help_and_usage(self) -> None:
        self.assertEqual(run_tool("--help", tool="compare-link-parser").returncode, 0)
        self.assertEqual(run_tool(tool="compare-link-parser").returncode, 2)


if __name__ == "__main__":
    unittest.main()
