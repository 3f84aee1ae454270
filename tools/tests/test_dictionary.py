"""Each construct of a dictionary of link-parser, as the tool writes it."""
import unittest

from support import Kind, converted_text, small


class Formulas(unittest.TestCase):
    def formula(self, item: str, wanted: str) -> None:
        self.assertEqual(small().formulas[item], wanted)

    def test_signs_and_words_of_operators(self) -> None:
        self.formula("<noun>", "{@A- or [AN-]0.5} & Ds- & (({Wd-} & Ss+) or O- or J-)")

    def test_macros_stay_and_words_name_them(self) -> None:
        self.formula("mat.n", "<noun>")
        self.formula("<wall>", "WV+ or [[()]]")

    def test_a_macro_that_nothing_names_is_left_out(self) -> None:
        self.assertNotIn("<never-named>", small().formulas)
        self.assertEqual(small().noted(Kind.UNUSED_MACRO), ["4.0.dict:9: <never-named>"])

    def test_included_files_and_defines(self) -> None:
        self.formula("sat.v-d", "<intransitive>")
        self.assertEqual(small().noted(Kind.DEFINE)[2], "4.0.dict:4: max-disjunct-cost 2.7")

    def test_costs(self) -> None:
        self.formula("big", "[A+]")
        self.formula("small", "[[A+]]")
        self.formula("tiny", "[A+]0.25 or [[Pa-]-0.5]")

    def test_a_cost_of_four_digits_is_rounded(self) -> None:
        self.formula("minute", "[A+]0.062")
        self.assertEqual(small().noted(Kind.ROUNDED), ["4.0.dict:22: 0.0625"])

    def test_the_cost_of_a_dialect_is_that_of_the_default(self) -> None:
        self.formula("white", "A+")
        self.formula("blue", "AN+")
        self.assertIn("4.0.dict:23: headline: 4.0", small().noted(Kind.DIALECT))

    def test_a_dialect_without_a_cost_is_never_used(self) -> None:
        self.formula("purple", "AN+")
        self.formula("grey", "AN+")

    def test_what_is_dearer_than_the_limit_is_left_out(self) -> None:
        self.assertNotIn("red", small().formulas)
        self.formula("black", "[A+] or [Pa-]2")
        self.assertEqual(small().noted(Kind.COST_LIMIT_ENTRY), ["4.0.dict:23: red"])
        self.assertIn("4.0.dict:26: black", small().noted(Kind.COST_LIMIT))

    def test_the_limit_holds_for_each_part_alone(self) -> None:
        self.formula("green", "[A+]1.5 & [Pa-]1.5")

    def test_without_a_limit_dear_alternatives_stay(self) -> None:
        made = converted_text("x: [A+]9 & {[B-]5};", limit=9_999_999)
        self.assertEqual(made.formulas["x"], "[A+]9 & {[B-]5}")

    def test_a_macro_beyond_the_limit_is_nowhere_used(self) -> None:
        made = converted_text("<m>: [A+]3; x: B+ or <m>; y: {<m>} & B+;", limit=2000)
        self.assertEqual(made.formulas, {"x": "B+", "y": "B+"})

    def test_a_macro_loses_more_within_brackets(self) -> None:
        made = converted_text("<m>: A+ or [B+]2; x: <m> or [<m>]; y: [<m>]9 or [<m>]-9;", limit=2000)
        self.assertEqual(made.formulas, {"<m>": "A+ or [B+]2", "x": "<m> or [A+]", "y": "[<m>]-9"})

    def test_a_gain_makes_room_within_its_brackets(self) -> None:
        made = converted_text("x: [[A+]3 or B+]-1 or [C+]3 or [{[D+]3}]2;", limit=2000)
        self.assertEqual(made.formulas["x"], "[[A+]3 or B+]-1 or [()]2")

    def test_nothing(self) -> None:
        self.formula("plain", "A+ or [()]")
        self.formula("bare", "() or ({[[()]]} & A+)")

    def test_marks_are_dropped_where_equal_marks_never_meet(self) -> None:
        self.formula("either", "AJ**h-")
        self.formula("<intransitive>", "Ss- & WV- & {@MVp+}")

    def test_marks_that_decide_become_a_letter(self) -> None:
        self.formula('"and"', "AJldd- & AJrdd+")
        self.formula("both", "AJ**h+ or WV-")
        self.assertIn("4.0.dict:35: both: AJ (a further letter), WV", small().noted(Kind.MARK))

    def test_a_symmetric_and_is_all_orders(self) -> None:
        self.formula("once", "(A+ & B+) or (B+ & A+)")
        self.assertEqual(small().formulas["twice"].count(" or "), 5)

    def test_a_named_word_is_its_formula(self) -> None:
        self.formula("u.x-the", "[D+]0.05")
        self.assertEqual(small().noted(Kind.NAMED_WORD), ["4.0.dict:45: the"])


class Words(unittest.TestCase):
    def test_word_files_stay_files(self) -> None:
        self.assertEqual(small().formulas["/words/animals"], "<noun>")
        self.assertEqual(small().files["words/animals"].split(), ["cat.n", "dog.n", "snake.n", "ox.x-n"])

    def test_special_words_lose_their_brackets(self) -> None:
        self.assertEqual(small().formulas["NUMBERS"], "<NUMBERS>")
        self.assertEqual(small().formulas["UNKNOWN-WORD.n"], "<noun>")
        self.assertIn("LEFT-WALL", small().formulas)

    def test_classes_without_a_counterpart_are_left_out(self) -> None:
        self.assertFalse({"S-WORDS.n", "FRACTION", "YEAR-DATE"} & set(small().formulas))
        self.assertIn("4.0.dict:50: <S-WORDS>.n", small().noted(Kind.CLASS))

    def test_special_words_without_brackets(self) -> None:
        made = converted_text("UNKNOWN-WORD.n S-WORDS.n LEFT-WALL: A+;", regex="S-WORDS: /s$/\n")
        self.assertEqual(set(made.formulas), {"UNKNOWN-WORD.n", "LEFT-WALL"})

    def test_a_word_again_is_left_out(self) -> None:
        self.assertEqual(small().formulas["the"], "D+")
        self.assertEqual(small().noted(Kind.DUPLICATE), ["4.0.dict:15: dog.n", "4.0.dict:15: cat.n", "4.0.dict:55: the"])

    def test_idioms_stay_words_and_may_come_again(self) -> None:
        self.assertEqual(small().formulas["in_front_of"], "MVp- & J+")
        self.assertEqual(small().formulas["in_front_of.i2"], "E+")
        self.assertEqual(small().formulas["as_well.e-2"], "E+")
        self.assertEqual(len(small().noted(Kind.IDIOM)), 4)

    def test_subscripts_are_rewritten(self) -> None:
        self.assertIn("4.0.dict:45: teh.#the becomes teh.x-the", small().noted(Kind.SUBSCRIPT))

    def test_two_words_that_become_one(self) -> None:
        self.assertEqual(small().noted(Kind.COLLISION), ["4.0.dict:56: dog.#n as dog.x-n"])

    def test_signs_are_quoted_and_a_quote_has_a_file(self) -> None:
        self.assertTrue({'"%"', '";"', '"."', '"_"', '"/.per"', '"/"', '"or"', "yes-or-no"} <= set(small().formulas))
        self.assertEqual(small().files["words/quotes-60"], '"\n')

    def test_limits_of_lengths_are_left_out(self) -> None:
        self.assertEqual(len(small().noted(Kind.LENGTH_LIMIT)), 2)

    def test_the_files_of_expressions_and_affixes(self) -> None:
        self.assertIn("4.0.regex:5: S-WORDS: /^\\w.+s$/", small().noted(Kind.REGEX_NONE))
        self.assertIn("4.0.regex:4: NUMBERS: /^[0-9,.]*[0-9]$/", small().noted(Kind.REGEX))
        self.assertIn("4.0.affix:6: UNITS: kg cm", small().noted(Kind.AFFIX))
        self.assertIn("4.0.affix:1: LPUNC: '", small().noted(Kind.AFFIX_ADDED))


if __name__ == "__main__":
    unittest.main()
