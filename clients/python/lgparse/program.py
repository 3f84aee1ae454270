"""Runs the program and reads what it writes, as it comes."""

from __future__ import annotations

import contextlib
import os
import shutil
import subprocess
import tempfile
from typing import IO, Generator, Iterable, Iterator, List, Optional, Sequence, Tuple, Union

from .document import read
from .errors import DocumentError, ProgramError, ProgramNotFound
from .model import Answer, Listing

Path = Union[str, "os.PathLike[str]"]

# A run is made of so many sentences at most, or of so many bytes and one sentence.
BATCH = 200
BATCH_BYTES = 8 << 20


def parse(
    sentences: Iterable[Union[str, bytes]],
    dictionary: Path,
    knowledge: Optional[Path] = None,
    want: int = 10,
    *,
    examine: int = 1000,
    nulls: str = "first",
    diagram: bool = False,
    stats: bool = False,
    workers: int = 1,
    options: Sequence[str] = (),
    program: Optional[Path] = None,
    directory: Optional[Path] = None,
    batch: int = BATCH,
) -> Iterator[Listing]:
    """Yields the listing of each sentence, in order.

    `options` are further words of the command line, such as `["--prune", "off"]`. The program is `program`, else what the environment
    variable LGPARSE names, else `lgparse` on PATH. It runs in `directory`, from which it seeks the dictionary and its word files.

    It is run for each `batch` sentences, so that answers come while later sentences are still to be read, and one answer is held at a
    time. The places of the listings count from 1.1 in each batch. A sentence with a line feed, or bytes that are no UTF-8, is a ValueError.
    """
    words = _words(want=(want, 10), examine=(examine, 1000), nulls=(nulls, "first"), workers=(workers, 1))
    words += _words(diagram=("on" if diagram else "off", "off"), stats=("on" if stats else "off", "off"))
    words += options
    with tempfile.TemporaryDirectory(prefix="lgparse-") as folder:
        script = os.path.join(folder, "sentences.script")
        for count, text in _scripts(sentences, batch):
            with open(script, "wb") as file:
                file.write(text)
            listed = 0
            with contextlib.closing(run(dictionary, knowledge, [script], words, program=program, directory=directory)) as answers:
                for answer in answers:
                    if isinstance(answer, Listing):
                        listed += 1
                        yield answer
            if listed != count:
                raise DocumentError(1, f"{listed} listings for {count} sentences")


def run(
    dictionary: Path,
    knowledge: Optional[Path],
    scripts: Sequence[Path],
    options: Sequence[str] = (),
    *,
    program: Optional[Path] = None,
    directory: Optional[Path] = None,
) -> Generator[Answer, None, None]:
    """Yields what the commands of the scripts are answered, session by session, and then the journal."""
    command = [_found(program), "run", *options, _operand(dictionary), _operand(knowledge or os.devnull)]
    command += [_operand(script) for script in scripts]
    with tempfile.TemporaryFile() as errors:
        process = subprocess.Popen(command, cwd=directory, stdin=subprocess.DEVNULL, stdout=subprocess.PIPE, stderr=errors)
        assert process.stdout
        try:
            yield from _answers(process, process.stdout, errors)
        finally:
            process.stdout.close()
            if process.poll() is None:
                process.kill()
                process.wait()


def _answers(process: "subprocess.Popen[bytes]", output: IO[bytes], errors: IO[bytes]) -> Iterator[Answer]:
    """The answers of a run, or the error that tells best why they end."""
    try:
        yield from read(output)
    except DocumentError as cut:
        output.close()
        _check(process, errors)
        raise cut
    _check(process, errors)


def _check(process: "subprocess.Popen[bytes]", errors: IO[bytes]) -> None:
    """Waits for the end of the process, whose status must be 0."""
    status = process.wait()
    if status:
        errors.seek(0)
        lines = errors.read().decode("utf-8", "surrogateescape").splitlines()
        raise ProgramError(status, lines[-1] if lines else "")


def _words(**given: Tuple[object, object]) -> List[str]:
    """The options whose values are not those that the program has without them; each may stand once."""
    return [word for name, (value, usual) in given.items() if value != usual for word in ("--" + name, str(value))]


def _found(program: Optional[Path]) -> str:
    name = os.fspath(program or os.environ.get("LGPARSE") or "lgparse")
    found = shutil.which(name)
    if found is None:
        raise ProgramNotFound(f"{name} is no program: name it by the argument program, by LGPARSE, or put lgparse on PATH")
    return os.path.abspath(found)


def _operand(path: Path) -> str:
    """A file's name as an operand, which begins with no `-`."""
    name = os.fspath(path)
    return "./" + name if name.startswith("-") else name


def _scripts(sentences: Iterable[Union[str, bytes]], batch: int) -> Iterator[Tuple[int, bytes]]:
    """Scripts of at most so many sentences, each with their number."""
    lines: List[bytes] = []
    size = 0
    for number, sentence in enumerate(sentences, 1):
        lines.append(_command(number, sentence))
        size += len(lines[-1])
        if len(lines) >= batch or size >= BATCH_BYTES:
            yield len(lines), b"".join(lines)
            lines, size = [], 0
    if lines:
        yield len(lines), b"".join(lines)


def _command(number: int, sentence: Union[str, bytes]) -> bytes:
    data = sentence if isinstance(sentence, bytes) else sentence.encode("utf-8", "surrogateescape")
    if b"\n" in data:
        raise ValueError(f"sentence {number} has a line feed: make it a space")
    try:
        data.decode("utf-8")
    except UnicodeDecodeError as error:
        raise ValueError(f"sentence {number} is not UTF-8 at its byte {error.start}") from None
    return b"parse " + data + b"\n"
