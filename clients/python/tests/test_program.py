"""Runs of the program: that of LGPARSE, else the one that is built in this repository. Without one they are skipped."""

import io
import json
import os
import pathlib
import stat
import subprocess
import sys
import tempfile
import unittest
from unittest import mock

import lgparse
from lgparse import Bound, DocumentError, Journal, Listing, Place, ProgramError, ProgramNotFound

PACKAGE = pathlib.Path(__file__).resolve().parents[1]
TOP = PACKAGE.parents[1]
SAMPLES = TOP / "samples"
PROGRAM = os.environ.get("LGPARSE") or str(TOP / "crates/lgparse/out/lgparse")
FIRST = SAMPLES / "first.dict"
ATTACHMENT = SAMPLES / "attachment.dict"
RULES = SAMPLES / "session.know"


def texts(linkage):
    return [word.text for word in linkage.words]


def made(seed, words, sentences):
    """The dictionary and the sentences that `lgparse gen` makes."""
    shapes = ["D+", "{D-} & {@M+} & (S+ or O- or J-)", "S- & {O+} & {@M+}", "M- & J+"]
    dictionary = "".join(f"w{number}: {shapes[number % 4]};\n" for number in range(words))

    def draw(below):
        nonlocal seed
        seed = (1664525 * seed + 1013904223) % 2**32
        return seed // 65536 % below

    return dictionary, [" ".join(f"w{draw(words)}" for _ in range(2 + draw(7))) for _ in range(sentences)]


class InFolder(unittest.TestCase):
    """A test with a folder of its own."""

    def setUp(self):
        folder = tempfile.TemporaryDirectory()
        self.addCleanup(folder.cleanup)
        self.folder = pathlib.Path(folder.name)

    def script(self, name, text):
        """A program of a few lines of shell."""
        path = self.folder / name
        path.write_text("#!/bin/sh\n" + text)
        path.chmod(path.stat().st_mode | stat.S_IXUSR)
        return path


@unittest.skipUnless(os.access(PROGRAM, os.X_OK), f"{PROGRAM} is not built")
class Runs(InFolder):
    def parse(self, sentences, *given, **named):
        return list(lgparse.parse(sentences, *given, program=PROGRAM, **named))

    def test_the_answers_of_the_samples(self):
        sentences = (SAMPLES / "attachment.txt").read_text().splitlines()
        listings = self.parse(sentences, ATTACHMENT)
        self.assertEqual(len(listings), len(sentences))
        for sentence, listing in zip(sentences, listings):
            page = subprocess.run([PROGRAM, "one", str(ATTACHMENT), sentence], capture_output=True, check=True).stdout
            (wanted,) = lgparse.read(page)
            self.assertEqual(listing.items, wanted.items)
            self.assertEqual((listing.next, listing.has_ended), (wanted.next, wanted.has_ended))

    def test_batches(self):
        sentences = [f"the dog ran {number}" for number in range(25)]
        by_one, by_ten = (self.parse(sentences, ATTACHMENT, batch=batch) for batch in (1, 10))
        self.assertEqual([listing.items for listing in by_one], [listing.items for listing in by_ten])
        self.assertEqual([texts(listing.linkages[0])[3] for listing in by_ten], [str(number) for number in range(25)])
        self.assertEqual([listing.place.command for listing in by_ten], [number % 10 + 1 for number in range(25)])

    def test_it_takes_sentences_as_it_goes(self):
        taken = []

        def sentences():
            for number in range(100):
                taken.append(number)
                yield "the dog ran"

        listings = lgparse.parse(sentences(), ATTACHMENT, batch=10, program=PROGRAM)
        next(listings)
        self.assertEqual(len(taken), 10)
        listings.close()
        self.assertEqual(len(taken), 10)

    def test_odd_sentences(self):
        odd = ["", "  ", "% no comment", "the dog\r", "parse", "caf\u00e9 \u2028", b"dog", "a\x0bb"]
        wanted = [[], [], ["%", "no", "comment"], ["the", "dog"], ["parse"], ["caf\u00e9", "\u2028"], ["dog"], ["a\x0bb"]]
        self.assertEqual([texts(listing.linkages[0]) for listing in self.parse(odd, ATTACHMENT)], wanted)
        self.assertEqual(self.parse([], ATTACHMENT), [])

    def test_sentences_that_no_script_can_have(self):
        for sentence, message in (("a\nb", "line feed"), (b"\xff", "not UTF-8 at its byte 0"), ("a\udcff", "not UTF-8 at its byte 1")):
            with self.assertRaisesRegex(ValueError, "sentence 2 .*" + message):
                self.parse(["dog", sentence], ATTACHMENT)

    def test_options(self):
        sentence = "I saw the man with a telescope"
        (listing,) = self.parse([sentence], ATTACHMENT, want=1, diagram=True, stats=True)
        self.assertEqual((len(listing.linkages), listing.next, listing.has_ended), (1, 2, False))
        self.assertEqual(listing.linkages[0].diagram[-1], "I   saw the man with a   telescope")
        self.assertGreaterEqual(listing.stats.disjuncts, listing.stats.kept)
        (whole,) = self.parse([sentence], ATTACHMENT, options=["--prune", "off", "--stats", "on"], workers=2)
        self.assertEqual(whole.stats.disjuncts, whole.stats.kept)
        (short,) = self.parse([sentence], ATTACHMENT, examine=1)
        self.assertEqual(short.items, whole.items[:1])

    def test_rules(self):
        (listing,) = self.parse(["I saw the man with a telescope"], ATTACHMENT, RULES)
        self.assertEqual([failed.number for failed in listing.failed], [2])
        self.assertEqual([(failed.left, failed.right) for failed in listing.failed], [(1, 4)])
        rule = self.folder / "rule.know"
        rule.write_text("none: S { S };")
        (first,) = self.parse(["Mary ran"], FIRST, rule)
        (passing,) = self.parse(["Mary ran"], FIRST, rule, nulls="passing")
        self.assertEqual((len(first.linkages), [linkage.unused for linkage in passing.linkages]), (0, [2]))

    def test_bound(self):
        (listing,) = self.parse(["x " * 253], FIRST)
        self.assertEqual(listing.bound, Bound("words", 253))

    def test_sessions(self):
        scripts = [SAMPLES / "two.a.script", SAMPLES / "two.b.script"]
        answers = list(lgparse.run(FIRST, None, scripts, program=PROGRAM))
        self.assertEqual([answer.place for answer in answers[:-1]], [(1, 1), (1, 2), (2, 1), (2, 2)])
        self.assertEqual(sorted(answers[-1].edits), [Place(1, 1), Place(2, 1)])
        session = list(lgparse.run(ATTACHMENT, RULES, [SAMPLES / "session.script"], program=PROGRAM))
        self.assertEqual(session, list(lgparse.read((SAMPLES / "session.out").read_bytes())))

    def test_word_files_are_sought_from_the_directory(self):
        (self.folder / "names").write_text("Mary\n")
        (self.folder / "d.dict").write_text("/names: S+; ran: S-;")
        (listing,) = self.parse(["Mary ran"], "d.dict", directory=self.folder)
        self.assertEqual(listing.linkages[0].unused, 0)

    def test_sums_are_those_of_what_is_read(self):
        (sums,) = lgparse.read(subprocess.run([PROGRAM, "gen", "7", "40", "300"], capture_output=True, check=True).stdout)
        text, sentences = made(7, 40, 300)
        dictionary = self.folder / "made.dict"
        dictionary.write_text(text)
        listings = self.parse(sentences, dictionary)
        first = [listing.linkages[0] for listing in listings]
        self.assertEqual(tuple(sums), (7, 40, 300, 300,
            sum(listing.examined for listing in listings), sum(len(listing.linkages) for listing in listings),
            sum(linkage.unused for linkage in first), sum(linkage.length for linkage in first)))

    def test_a_line_feed_in_a_sentence_of_one(self):
        for sentence in ("the c\nat ran", "dog\n>\n>x the", "\n"):
            words = [PROGRAM, "one", "--diagram", "on", str(FIRST), sentence]
            (listing,) = lgparse.read(subprocess.run(words, capture_output=True, check=True).stdout)
            self.assertEqual(texts(listing.linkages[0]), sentence.split(" "))
            self.assertEqual(listing.linkages[0].diagram[-1].count("\n"), sentence.count("\n"))

    def test_refusals(self):
        def refused(status, line, *given, **named):
            with self.assertRaises(ProgramError) as caught:
                self.parse(["Mary ran"], *given, **named)
            self.assertEqual((caught.exception.status, caught.exception.line), (status, line))

        broken = self.folder / "broken.dict"
        broken.write_text("x: (A+")
        refused(1, f"lgparse: {broken}: line 1 column 7: syntax", broken)
        refused(2, "lgparse: the words are not a command of this program", FIRST, want=0)
        refused(3, "lgparse: cannot read absent.dict", "absent.dict")
        refused(3, "lgparse: cannot read ./-d", "-d")
        refused(3, "lgparse: cannot read absent.know", FIRST, "absent.know")

    def module(self, *words, given=b""):
        env = {**os.environ, "PYTHONPATH": str(PACKAGE), "LGPARSE": PROGRAM}
        return subprocess.run([sys.executable, "-m", "lgparse", *words], input=given, capture_output=True, env=env)

    def test_module(self):
        ran = self.module("parse", str(ATTACHMENT), "--want", "1", given=b"I saw the man with a telescope\nthe dog ran\n")
        lines = [json.loads(line) for line in ran.stdout.splitlines()]
        self.assertEqual([(line["sentence"], line["linkage"]) for line in lines], [(1, 1), (2, 1)])
        self.assertEqual(lines[1]["words"][1], {"position": 1, "text": "dog", "word": "dog", "left": ["D"], "right": ["S"], "cost": 0.0})
        self.assertEqual(lines[1]["links"][0], {"left": 0, "right": 1, "label": "D", "left_place": 0, "right_place": 0})
        drawn = self.module("parse", str(FIRST), "--", "--diagram", "on", given=b"Mary ran")
        self.assertEqual(json.loads(drawn.stdout)["diagram"][-1], "Mary ran")
        absent = self.module("parse", "absent.dict", given=b"x\n")
        self.assertEqual((absent.returncode, absent.stderr), (1, b"lgparse: status 3: lgparse: cannot read absent.dict\n"))


class OtherPrograms(InFolder):
    """Programs that end badly."""

    def ends(self, text):
        return lgparse.parse(["x"], "d", program=self.script("program", text))

    def test_there_is_none(self):
        with mock.patch.dict(os.environ, {"PATH": "", "LGPARSE": ""}), self.assertRaisesRegex(ProgramNotFound, "lgparse is no program"):
            next(lgparse.parse(["x"], "d"))
        with self.assertRaisesRegex(ProgramNotFound, "/absent is no program"):
            next(lgparse.parse(["x"], "d", program="/absent"))

    def test_it_is_found(self):
        self.script("lgparse", "printf '1.1 version 7\\njournal 0\\ndone\\n'")
        for found in ({"PATH": f"{self.folder}:/bin", "LGPARSE": ""}, {"PATH": "/bin", "LGPARSE": str(self.folder / "lgparse")}):
            with mock.patch.dict(os.environ, found):
                self.assertEqual(list(lgparse.run("d", None, ["s"]))[-1], Journal())

    def test_a_front_part_with_a_status(self):
        listings = self.ends("printf '1.1 parse version 0\\npage sho'\necho 'lgparse: out of memory' >&2\nexit 5")
        with self.assertRaises(ProgramError) as caught:
            list(listings)
        self.assertEqual((caught.exception.status, caught.exception.line), (5, "lgparse: out of memory"))

    def test_it_is_killed(self):
        with self.assertRaises(ProgramError) as caught:
            list(self.ends("kill -9 $$"))
        self.assertEqual(caught.exception.status, -9)

    def test_no_document_with_status_0(self):
        for text in ("", "echo hello", "printf 'journal 0\\n'"):
            with self.assertRaises(DocumentError):
                list(self.ends(text))
        with self.assertRaisesRegex(DocumentError, "0 listings for 1 sentences"):
            list(self.ends("printf 'journal 0\\ndone\\n'"))

    def test_one_that_is_left_early_ends(self):
        body = f"echo $$ >{self.folder}/pid\nprintf '1.1 parse version 0\\npage shown 0 examined 0 next 1 end\\n'\nexec sleep 100"
        listings = self.ends(body)
        self.assertIsInstance(next(listings), Listing)
        listings.close()
        with self.assertRaises(ProcessLookupError):
            os.kill(int((self.folder / "pid").read_text()), 0)


if __name__ == "__main__":
    unittest.main()
