"""Documents that are there: the samples, and some made by hand."""

import io
import json
import pathlib
import unittest
from decimal import Decimal

import lgparse
from lgparse import Bound, DocumentError, Edited, Failed, Journal, Listing, NothingHeld, Place, Refused, Stats, Sums, Told

SAMPLES = pathlib.Path(__file__).resolve().parents[3] / "samples"

PAGE = b"""linkage 1 unused 1 cost 0.250 length 2
word 0 the the - D,Xa* 0.000
word 1 cat.n cat.n @A,D - 0.250
word 2 null null
link 0 1 D 0 1
page shown 1 examined 1 next 2 more
"""

IDIOM = b"""linkage 1 unused 0 cost 0.000 length 2
word 0 New New_York - id0.0.0 0.000
word 1 York New_York id0.0.0 S 0.000
word 2 ran ran S - 0.000
link 0 1 id0.0.0 0 0
link 1 2 S 0 0
page shown 1 examined 1 next 2 end
"""

SESSIONS = b"""1.1 parse version 0
stats disjuncts 6 kept 4
fail 1 rule 2 link 0 3
linkage 2 unused 0 cost -1.500 length 0
>
page shown 1 examined 2 next 3 end
1.2 set refused at 0: unknown macro <animal>
1.3 more version 0
page shown 0 examined 0 next 3 end
1.4 macro version 2
2.1 more nothing held
2.2 list version 2 too many words 253
2.3 version 2
2.4 del version 3
3.1 del refused at 3: no such word
journal 3
edit 1 4.1
edit 2 1.4
edit 3 2.4
usage word cat.n 12
usage word null 1
usage label Ss* 7
done
"""


def sample(name):
    return (SAMPLES / name).read_bytes()


def pages(name):
    """The pages of a sample, each behind a line `> SENTENCE`."""
    parts = (b"\n" + sample(name)).split(b"\n> ")[1:]
    return [part.partition(b"\n")[2].rstrip(b"\n") + b"\n" for part in parts]


class Samples(unittest.TestCase):
    def test_each_page_of_a_sample_is_a_listing(self):
        for name in ("first.out", "attachment.out", "walls.out", "costs.out"):
            for page in pages(name):
                with self.subTest(name=name, page=page):
                    (listing,) = lgparse.read(page)
                    self.assertIsInstance(listing, Listing)
                    self.assertEqual(len(listing.linkages), page.count(b"linkage "))
                    self.assertEqual(sum(len(each.links) for each in listing.linkages), page.count(b"\nlink "))

    def test_pages_may_follow_one_another(self):
        together = pages("first.out") + pages("costs.out")
        self.assertEqual(len(list(lgparse.read(b"".join(together)))), len(together))

    def test_session(self):
        answers = list(lgparse.read(sample("session.out")))
        self.assertEqual(len(answers), 12)
        self.assertEqual(answers[1], Edited(Place(1, 2), "set", 1))
        self.assertEqual(answers[5].failed, [Failed(2, 1, 1, 4)])
        self.assertEqual(answers[8], Refused(Place(1, 9), "set", 3, "unknown macro <animal>"))
        self.assertEqual(answers[10], Told(Place(1, 11), 3))
        self.assertEqual(answers[11], Journal((Place(1, 2), Place(1, 4), Place(1, 7))))

    def test_sessions_that_ran_at_once(self):
        for file in sorted(SAMPLES.glob("two.*.out")):
            answers = list(lgparse.read(file.read_bytes()))
            listings = [answer for answer in answers if isinstance(answer, Listing)]
            self.assertEqual([listing.place for listing in listings], [Place(1, 2), Place(2, 2)])
            self.assertEqual(sorted(answers[-1].edits), [Place(1, 1), Place(2, 1)])


class Answers(unittest.TestCase):
    def test_page(self):
        (listing,) = lgparse.read(PAGE)
        (linkage,) = listing.linkages
        self.assertFalse(listing.has_ended)
        self.assertEqual((linkage.cost, linkage.unused, linkage.length), (Decimal("0.250"), 1, 2))
        self.assertEqual(linkage.words[0].right, ("D", "Xa*"))
        self.assertEqual(linkage.words[1].left, ("@A", "D"))
        self.assertEqual([word.text for word in linkage.unlinked()], ["null"])
        self.assertEqual(linkage.links_of(1), list(linkage.links))

    def test_joints_of_an_idiom(self):
        (listing,) = lgparse.read(IDIOM)
        linkage = listing.linkages[0]
        self.assertEqual([link.label for link in linkage.links], ["id0.0.0", "S"])
        self.assertEqual(linkage.words[1].left, ("id0.0.0",))
        with self.assertRaises(DocumentError):
            list(lgparse.read(IDIOM.replace(b"id0.0.0 0 0", b"id0.0 0 0")))

    def test_a_word_null_of_the_dictionary_is_linked(self):
        page = PAGE.replace(b"word 2 null null", b"word 2 null null - - 0.000").replace(b"unused 1", b"unused 0")
        self.assertTrue(next(lgparse.read(page)).linkages[0].words[2].is_linked)

    def test_sessions(self):
        first, refused, more, macro, nothing, bound, told, removed, again, journal = lgparse.read(SESSIONS)
        self.assertEqual(first.stats, Stats(6, 4))
        self.assertEqual(first.items[0], Failed(1, 2, 0, 3))
        self.assertEqual(first.linkages[0].cost, Decimal("-1.5"))
        self.assertEqual(first.linkages[0].diagram, ("",))
        self.assertEqual(refused, Refused(Place(1, 2), "set", 0, "unknown macro <animal>"))
        self.assertEqual((more.kind, more.items, more.next), ("more", (), 3))
        self.assertEqual(macro, Edited(Place(1, 4), "macro", 2))
        self.assertEqual(nothing, NothingHeld(Place(2, 1)))
        self.assertEqual((bound.kind, bound.bound, bound.linkages), ("list", Bound("words", 253), []))
        self.assertEqual(told, Told(Place(2, 3), 2))
        self.assertEqual(removed, Edited(Place(2, 4), "del", 3))
        self.assertEqual(again.cause, "no such word")
        self.assertEqual(journal.edits, (Place(4, 1), Place(1, 4), Place(2, 4)))
        self.assertEqual((journal.word_usage, journal.label_usage), ({"cat.n": 12, "null": 1}, {"Ss*": 7}))

    def test_bound_and_sums(self):
        (listing,) = lgparse.read(b"too many choices 4194304\n")
        self.assertEqual(listing.bound, Bound("choices", 4194304))
        sums = b"gen 1 2 3\nsentences 3\nexamined 9\nshown 8\nunused 7\nlength 6\n"
        self.assertEqual(list(lgparse.read(sums)), [Sums(1, 2, 3, 3, 9, 8, 7, 6)])

    def test_diagram(self):
        drawn = PAGE.replace(b"page", b">+-D-+\n>the cat [null]\npage")
        self.assertEqual(next(lgparse.read(drawn)).linkages[0].diagram, ("+-D-+", "the cat [null]"))

    def test_line_feeds_in_tokens(self):
        fed = PAGE.replace(b"word 1 cat.n", b"word 1 c\n>at\nlink").replace(b"page", b">+-D-+\n>the c\n>at\nlink [null]\npage")
        (linkage,) = next(lgparse.read(fed)).linkages
        self.assertEqual(linkage.words[1].text, "c\n>at\nlink")
        self.assertEqual(linkage.diagram, ("+-D-+", "the c\n>at\nlink [null]"))

    def test_bytes_that_are_not_utf8(self):
        page = PAGE.replace(b"word 2 null null", b"word 2 caf\xe9 null")
        (linkage,) = next(lgparse.read(page)).linkages
        self.assertEqual(linkage.words[2].text.encode("utf-8", "surrogateescape"), b"caf\xe9")
        self.assertIn("caf\\\\xe9", linkage.to_dot())
        json.dumps(linkage.to_dict()).encode("ascii")

    def test_other_blanks_are_bytes_of_a_token(self):
        page = PAGE.replace(b"word 2 null null", "word 2 a\u00a0b\u2028\x0b\x0c\x1cc null".encode())
        self.assertEqual(next(lgparse.read(page)).linkages[0].words[2].text, "a\u00a0b\u2028\x0b\x0c\x1cc")

    def test_dot(self):
        dot = next(lgparse.read(PAGE.replace(b"word 2 null", b'word 2 "\\'))).linkages[0].to_dot()
        self.assertIn('1 [label="cat.n"];', dot)
        self.assertIn('2 [label="\\"\\\\" fontcolor=gray];', dot)
        self.assertIn('0 -- 1 [label="D" constraint=false];', dot)

    def test_it_holds_one_answer_at_a_time(self):
        taken = []

        def lines():
            for line in SESSIONS.splitlines(keepends=True):
                taken.append(line)
                yield line

        answers = lgparse.read(lines())
        next(answers)
        self.assertEqual(len(taken), 6)
        next(answers)
        self.assertEqual(len(taken), 7)


class Refusals(unittest.TestCase):
    def refused(self, document, line, message, answers=0):
        found = []
        with self.assertRaises(DocumentError) as caught:
            for answer in lgparse.read(io.BytesIO(document)):
                found.append(answer)
        self.assertEqual(caught.exception.line, line)
        self.assertIn(message, str(caught.exception))
        self.assertEqual(len(found), answers)

    def test_every_front_part(self):
        whole = len(list(lgparse.read(SESSIONS)))
        for end in range(len(SESSIONS)):
            with self.subTest(end=end), self.assertRaises(DocumentError):
                self.assertLess(len(list(lgparse.read(SESSIONS[:end]))), whole)

    def test_cut(self):
        self.refused(b"", 1, "empty")
        self.refused(SESSIONS[:-1], 23, "cut within this line", 9)
        self.refused(SESSIONS[: SESSIONS.index(b"done")], 23, "where done should stand", 9)
        self.refused(SESSIONS[: SESSIONS.index(b"edit 2")], 18, "where edit 2 should stand", 9)
        self.refused(SESSIONS[: SESSIONS.index(b"page")], 6, "cut before this line, where linkage, fail or page should stand")
        self.refused(PAGE[: PAGE.index(b"link ")], 5, "cut before this line")

    def test_carriage_returns(self):
        self.refused(SESSIONS.replace(b"\n", b"\r\n"), 1, "carriage return")
        self.refused(PAGE.replace(b"\n", b"\r\n"), 1, "carriage return")
        for line in range(len(SESSIONS.splitlines())):
            lines = SESSIONS.splitlines(keepends=True)
            if not lines[line].startswith((b">", b"usage")):
                lines[line] = lines[line].replace(b"\n", b"\r\n")
                with self.subTest(line=line), self.assertRaises(DocumentError) as caught:
                    list(lgparse.read(b"".join(lines)))
                self.assertEqual(caught.exception.line, line + 1)

    def test_what_is_no_document(self):
        self.refused(b"hello\n", 1, "'hello' stands where linkage, fail or page should")
        self.refused(b"\n", 1, "'' stands where")
        self.refused(b"lgparse: out of memory\n", 1, "stands where")
        self.refused(b"1.1 parse version 00\n", 1, "stands where an answer should")
        self.refused(b"1.2 version 0\n", 1, "the answer 1.2 follows nothing")
        self.refused(b"1.1 version 0\n1.3 version 0\n", 2, "the answer 1.3 follows the answer 1.1", 1)
        self.refused(PAGE.replace(b"shown 1", b"shown 2"), 6, "the page of the linkages before it")
        self.refused(PAGE.replace(b"next 2", b"next 3"), 6, "the page of the linkages before it")
        self.refused(PAGE.replace(b"word 1", b"word 2"), 3, "stands where word 1 should")
        self.refused(PAGE.replace(b"link 0 1", b"link 0 3"), 5, "stands where a link should")
        self.refused(PAGE.replace(b"cost 0.250", b"cost 0.25"), 1, "stands where a linkage should")
        self.refused(PAGE + b"done\n", 7, "'done' stands where", 1)
        self.refused(SESSIONS.replace(b"usage label", b"usage lable"), 22, "stands where usage should", 9)

    def test_a_text_stream(self):
        with self.assertRaises(TypeError):
            list(lgparse.read(io.StringIO(PAGE.decode())))


if __name__ == "__main__":
    unittest.main()
