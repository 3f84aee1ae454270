"""Each section of a knowledge file of link-parser, as the tool writes it."""
import unittest

from support import Converted, Kind, converted_text, small

from linkparser.formula import Connector
from linkparser.labels import Lean, Links, agree, fits_here, fits_there, joined, may_link


class Rules(unittest.TestCase):
    def has(self, line: str) -> None:
        self.assertIn(line, small().rules)

    def test_starts_by_kind(self) -> None:
        self.has("start: m Wd;")
        self.has("start: s Ss*d;")

    def test_starts_that_differ(self) -> None:
        self.assertEqual(small().noted(Kind.START_INSIDE), ["4.0.knowledge:13: MVp", "4.0.knowledge:14: Ss#d", "4.0.knowledge:17: R*"])
        self.assertEqual(small().noted(Kind.START_LEFT), ["4.0.knowledge:15: Pa##j", "4.0.knowledge:16: SFsx"])
        self.assertFalse(any(rule.startswith(("start: x", "start: d")) for rule in small().rules))

    def test_ignored_links(self) -> None:
        self.has("ignore: Xca;")

    def test_sets_and_cycles(self) -> None:
        self.has("cycle: WV; % a link outside a cycle")
        self.has("cycle: Jd; % a link outside a cycle")
        self.assertEqual(small().noted(Kind.CYCLE), ["4.0.knowledge:20: WV Jd"])

    def test_some_and_none(self) -> None:
        self.has("one-in-group: SFst { O*t Ost }; % there without an object")
        self.has("none-in-group: J { SF AJ }; % a filler")

    def test_bounded_domains(self) -> None:
        self.has("bounded: s; % an unbounded domain")
        self.assertEqual(small().noted(Kind.BOUNDED_LEFT), ["4.0.knowledge:33: d a domain that nothing starts"])

    def test_sections_without_a_counterpart(self) -> None:
        self.assertEqual(small().noted(Kind.KNOWLEDGE_SECTION), ["4.0.knowledge:7: RESTRICTED_LINKS: B#w Xx"])

    def test_no_letter_is_exact_where_no_label_has_one(self) -> None:
        self.has("one-in-group: Wd { J R }; % a wall without a verb")

    def test_no_letter_is_wider_in_a_start_and_in_what_is_asked_for(self) -> None:
        self.has("start: r R;")
        self.assertEqual(
            small().noted(Kind.PATTERN_WIDER), ["4.0.knowledge:17: R* becomes R: Re", "4.0.knowledge:25: R* becomes R: Re"])

    def test_no_letter_is_narrower_in_what_is_forbidden(self) -> None:
        self.has("none-in-group: Wd { AJ Bc }; % no joint")
        self.assertEqual(small().noted(Kind.PATTERN_NARROWER), ["4.0.knowledge:29: B#* becomes Bc: B Bs"])

    def test_a_rule_of_a_link_that_has_no_pattern_is_left_out(self) -> None:
        self.assertEqual(small().noted(Kind.RULE_NONE), ["4.0.knowledge:24: R* a relative without a wall"])
        self.assertEqual(len(small().noted(Kind.PATTERN_NONE)), 2)

    def test_without_a_knowledge_file_there_are_no_rules(self) -> None:
        self.assertEqual(converted_text("x: A+;").rules, [])


class ExactRules(unittest.TestCase):
    """Further letters tell where there is no letter, and change neither what links nor what patterns fit."""

    SUBSCRIPTS = ("", "a", "b", "ab", "*b", "*c")
    PATTERNS = ("*", "#*", "**", "a*", "*b", "#b", "")

    def test_the_rules_of_the_small_directory(self) -> None:
        exact = Converted(exact=True)
        self.assertIn("start: r R*nn;", exact.rules)
        self.assertIn("none-in-group: Wd { AJ B**nn R*nn }; % no joint", exact.rules)
        self.assertEqual(exact.formulas["whom"], "R**n- or B***n-")
        for kind in (Kind.PATTERN_WIDER, Kind.PATTERN_NARROWER, Kind.PATTERN_NONE, Kind.RULE_NONE):
            self.assertEqual(exact.noted(kind), [])

    def test_every_pattern_fits_the_same_labels(self) -> None:
        group = [Connector(False, mark, "X", text, sign) for text in self.SUBSCRIPTS for sign in "+-" for mark in ("", "h", "d")]
        links = Links.of(group, [("X", pattern) for pattern in self.PATTERNS])
        for left, right in ((a, b) for a in group for b in group if a.sign == "+" and b.sign == "-"):
            here = links.subscript(left), links.subscript(right)
            linked = agree(left.subscript, right.subscript) and may_link(left, right)
            self.assertEqual(agree(*here), linked)
            if linked:
                self.same(links, joined(left.subscript, right.subscript), joined(*here))

    def same(self, links: Links, there: str, here: str) -> None:
        """Each pattern fits both labels or none."""
        for pattern in self.PATTERNS:
            translation = links.translated("X", pattern, Lean.NARROWER)
            self.assertEqual(len(translation.patterns), 1)
            self.assertEqual(fits_there(pattern, there), fits_here(translation.patterns[0][1:], here), (pattern, there))


if __name__ == "__main__":
    unittest.main()
