"""Tests of tools/prose.py: python3 -m unittest discover tools/tests"""
import os
import sys
import unittest

sys.dont_write_bytecode = True
sys.path.insert(0, os.path.join(os.path.dirname(__file__), ".."))
import prose  # noqa: E402


def habits(text):
    return [name for name, _ in prose.Measure(text).habits]


class Habits(unittest.TestCase):
    def test_each_habit_is_found(self):
        for name, text in (
                ("stand", "The word stands at the front."), ("behind", "What is behind it."),
                ("beside", "It is beside the page."), ("hold", "The list holds them."), ("tell", "So we are told."),
                ("is no", "It is no token."), ("is no", "They are no tokens."), ("but for", "All but for one."),
                ("come to", "It comes to a number."), ("That .. is ..", "That each run is one of these is a theorem.")):
            self.assertEqual(habits(text), [name], text)

    def test_ordinary_english_is_none(self):
        for text in ("Besides, it is understood.", "There is no such option.", "It is no longer there.",
                     "That is why.", "We know that each run is finite.", "The holder of the teller's button."):
            self.assertEqual(habits(text), [], text)

    def test_code_tables_comments_and_headings_are_passed_over(self):
        text = "# It holds\n\nA `hold` word.\n\n```c\nhold();\n```\n\n| it holds | x |\n\n<!-- it\nholds -->\n"
        self.assertEqual(habits(text), [])
        self.assertEqual(prose.Measure(text).words, 3)

    def test_text_of_a_link_counts_and_its_target_does_not(self):
        self.assertEqual(habits("See [what holds](behind.md)."), ["hold"])


class Sentences(unittest.TestCase):
    def test_sentences_end_at_stops_and_at_items(self):
        text = "One two. `x` is three!\nFour (five)? Six\n\n- seven\n- eight nine\n"
        self.assertEqual(prose.Measure(text).lengths, [2, 3, 2, 1, 1, 2])

    def test_a_quoted_paragraph_is_prose(self):
        self.assertEqual(prose.Measure("> One two\n> three.\n").lengths, [3])


class Limits(unittest.TestCase):
    def test_three_habits_in_a_thousand_words_rounded_up(self):
        words = "Word and more. " * 100
        self.assertEqual(list(prose.Measure(words + "It stands.").faults()), [])
        self.assertEqual(len(list(prose.Measure(words + "It stands. It holds.").faults())), 1)

    def test_a_mean_above_eighteen_is_a_fault(self):
        self.assertEqual(list(prose.Measure("word " * 18 + ".").faults()), [])
        self.assertEqual(len(list(prose.Measure("word " * 19 + ".").faults())), 1)

    def test_long_sentences_are_counted_over_all_pages(self):
        short, long = "One two. " * 60, "Word " + "word " * 40 + ". "
        self.assertEqual(list(prose.faults_of({"a.md": short + long * 10})), [])
        found = [path for path, _ in prose.faults_of({"a.md": short + long * 6, "b.md": short + long * 5})]
        self.assertEqual(found, ["a.md", "b.md"])


if __name__ == "__main__":
    unittest.main()
