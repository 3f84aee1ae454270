"""The program reads what the tool writes; without a built program these tests are skipped."""
import subprocess
import sys
import tempfile
import unittest
from pathlib import Path

from support import SMALL, converted_text, program, run_tool


NOT_BUILT = "tests that need the program are skipped: it is not built (bin/lgparse --build), and LGPARSE names none"


def setUpModule() -> None:
    if program() is None:
        print(NOT_BUILT, file=sys.stderr)
        raise unittest.SkipTest(NOT_BUILT)


class Program(unittest.TestCase):
    def setUp(self) -> None:
        self.holder = tempfile.TemporaryDirectory()
        self.addCleanup(self.holder.cleanup)
        self.folder = Path(self.holder.name)
        run_tool(str(SMALL), str(self.folder))

    def lgparse(self, *words: str) -> str:
        """What the program writes; it must end with status 0."""
        run = subprocess.run([str(program()), *words], cwd=self.folder, capture_output=True, text=True, check=False)
        self.assertEqual((run.returncode, run.stderr), (0, ""))
        return run.stdout

    def links(self, sentence: str) -> list[str]:
        """The labels of the first linkage, which leaves no word unlinked."""
        lines = self.lgparse("one", "--want", "1", "small.dict", sentence).splitlines()
        self.assertTrue(lines[0].startswith("linkage 1 unused 0 "), lines)
        return [line.split()[3] for line in lines if line.startswith("link ")]

    def test_a_sentence_with_words_of_files_and_macros(self) -> None:
        self.assertIn("MVp", self.links("the cat sat on the snake"))

    def test_special_words(self) -> None:
        self.assertIn("Ds", self.links("the unheard-of ran"))

    def test_marks_keep_connectors_apart(self) -> None:
        text = "both: hAJ+ or dAJ+; either: hAJ-;"
        made = converted_text(text)
        (self.folder / "marks.dict").write_text(made.files["made.dict"], encoding="utf-8")
        lines = self.lgparse("one", "marks.dict", "both either").splitlines()
        self.assertEqual(sum(line.startswith("linkage ") for line in lines), 1)

    def test_the_rules_are_read(self) -> None:
        (self.folder / "s.script").write_text("parse the cat sat on the mat\n", encoding="utf-8")
        self.assertIn("page shown", self.lgparse("run", "small.dict", "small.know", "s.script"))


if __name__ == "__main__":
    unittest.main()
