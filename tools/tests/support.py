"""What the tests share: conversions of the small data directory, and the program where it is built."""
import os
import subprocess
import sys
import tempfile
from functools import cache
from pathlib import Path

sys.dont_write_bytecode = True

TESTS = Path(__file__).resolve().parent
TOOLS = TESTS.parent
SMALL = TESTS / "small"
sys.path.insert(0, str(TOOLS))

from linkparser.command import convert  # noqa: E402
from linkparser.report import Kind, Report  # noqa: E402


class Converted:
    """The files of a conversion."""

    def __init__(self, source: Path = SMALL, limit: int | None = None, exact: bool = False) -> None:
        with tempfile.TemporaryDirectory() as name:
            out = Path(name)
            self.report: Report = convert(source, out, limit, exact)
            self.files = {str(path.relative_to(out)): path.read_text(encoding="utf-8") for path in out.rglob("*") if path.is_file()}
        self.formulas = formulas(self.files[f"{source.name}.dict"])
        self.rules = self.files[f"{source.name}.know"].splitlines()

    def noted(self, kind: Kind) -> list[str]:
        """The changes of a kind, as `FILE:LINE: TEXT`."""
        return [f"{place.path.name}:{place.line}: {text}" for place, text in self.report.changes.get(kind, [])]


@cache
def small() -> Converted:
    """The small directory with its own cost limit."""
    return Converted()


def formulas(text: str) -> dict[str, str]:
    """The formula of each item of a dictionary that the tool wrote."""
    found = {}
    for entry in text.split(";\n"):
        if entry:
            items, formula = entry.split(":\n  ")
            found.update({item: formula for item in items.split()})
    return found


def converted_text(text: str, limit: int | None = None, **files: str) -> Converted:
    """The conversion of a dictionary of this text; other files are named without `4.0.`."""
    with tempfile.TemporaryDirectory() as name:
        folder = Path(name) / "made"
        folder.mkdir()
        for file, content in {"dict": text, **files}.items():
            (folder / f"4.0.{file}").write_text(content, encoding="utf-8")
        return Converted(folder, limit)


def run_tool(*words: str, tool: str = "from-link-parser") -> subprocess.CompletedProcess[str]:
    """A run of a tool by its command line."""
    return subprocess.run([str(TOOLS / tool), *words], capture_output=True, text=True, check=False)


def program() -> Path | None:
    """The built program, or nothing."""
    named = os.environ.get("LGPARSE")
    if named:
        return Path(named).resolve()
    built = TOOLS.parent / "crates/lgparse/out/lgparse"
    return TOOLS.parent / "bin/lgparse" if built.exists() else None
