"""What goes wrong."""

from __future__ import annotations


class LgparseError(Exception):
    """Any error of this package but a wrong argument, which is a ValueError."""


class DocumentError(LgparseError):
    """What was read is no document, or not a whole one. `line` counts from 1."""

    def __init__(self, line: int, message: str) -> None:
        super().__init__(f"line {line}: {message}")
        self.line = line


class ProgramNotFound(LgparseError):
    """There is no program to run."""


class ProgramError(LgparseError):
    """The program ended with a status other than 0. `line` is what it wrote to standard error.

    A status below zero is that of a signal: -9 for a process that was killed.
    """

    def __init__(self, status: int, line: str) -> None:
        super().__init__(f"status {status}: {line}" if line else f"status {status}")
        self.status = status
        self.line = line
