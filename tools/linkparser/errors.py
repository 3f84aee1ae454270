"""Why a conversion ends early: the status and the line for standard error."""
from pathlib import Path

UNREADABLE = 1
MISSING = 3


class Fault(Exception):
    """A conversion that cannot go on; `status` is that of the command."""

    def __init__(self, status: int, message: str) -> None:
        super().__init__(message)
        self.status = status


def unreadable(path: Path, line: int, message: str) -> Fault:
    """A text that cannot be read, from a line on that counts from 1."""
    return Fault(UNREADABLE, f"{path}: line {line}: {message}")


def read_text(path: Path) -> str:
    """The text of a file in UTF-8."""
    try:
        data = path.read_bytes()
    except OSError as error:
        raise Fault(MISSING, f"cannot read {path}: {error.strerror}") from error
    try:
        return data.decode("utf-8")
    except UnicodeDecodeError as error:
        line = data.count(b"\n", 0, error.start) + 1
        raise unreadable(path, line, "not UTF-8") from error


def read_optional(path: Path) -> str:
    """The text of a file that a data directory may lack, which is then empty."""
    return read_text(path) if path.exists() else ""
