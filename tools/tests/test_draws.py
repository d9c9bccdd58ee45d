"""ccheck-draws: text to draws and back."""
from ccheck_tools import dialogues, replays
from tooling import EXAMPLES, ToolTest

QUICK = True
MIXED = """#include <stdio.h>
#include <stdlib.h>

int main(void)
{
    char line[8];
    char *room = malloc(4);
    int c = getchar();
    if (room == NULL)
        return 1;
    printf("%d", c);
    if (fgets(line, sizeof line, stdin) != NULL)
        c = getchar();
    free(room);
    return c == 'x';
}
"""


class Draws(ToolTest):
    """Both ways."""

    def there_and_back(self, words, text, wanted):
        """Tests the draws of a text, and that they read as the text."""
        status, draws, _ = self.tool("ccheck-draws", *words, "--text", text)
        self.assertEqual((status, draws), (0, wanted + "\n"))
        self.file("draws.txt", draws)
        status, back, _ = self.tool("ccheck-draws", *words, "--back", "draws.txt")
        self.assertEqual(status, 0)
        return back

    def test_words(self):
        self.assertIn('text: "A\\n"\n', self.there_and_back([f"{EXAMPLES}/words.c"], "A\\n", "1 2 65 10 1"))

    def test_what_each_draw_is_for(self):
        self.file("a.c", MIXED)
        back = self.there_and_back(["a.c"], "+1\\nx", "1 43 0 1 2 49 10 120")
        kinds = [line[7:].split("  ")[0] for line in back.split("\n")[:-2]]
        self.assertEqual(kinds, ["allocation", "getchar", "result of printf", "fgets", "getchar"])

    def test_denied_memory_and_the_end_of_the_input(self):
        self.file("a.c", MIXED)
        self.assertEqual(self.tool("ccheck-draws", "a.c", "--text", "", "--deny", "1")[1], "0 -1\n")

    def test_arguments_of_the_entry(self):
        self.file("a.c", "int f(int a, unsigned char b, long c) { return a / (b + 1) > c; }\n")
        words = ["a.c", "--entry", "f", "--text", "", "--arguments=-7,300,5"]
        self.assertEqual(self.tool("ccheck-draws", *words)[1], "-7 255 5\n")
        self.file("draws.txt", "-7 255 5\n")
        back = self.tool("ccheck-draws", "a.c", "--entry", "f", "--back", "draws.txt")[1]
        self.assertEqual(back.count("argument of the entry"), 3)

    def test_lines_with_room_for_one_character_or_none(self):
        self.file("a.c", "#include <stdio.h>\n#include <stdlib.h>\nint main(void)\n{\n    char a[2], b[1];\n"
                         "    char *c = malloc(1), *d = malloc(1);\n    if (fgets(a, 2, stdin) != NULL)\n"
                         "        fgets(b, 1, stdin);\n    free(c);\n    free(d);\n    return getchar();\n}\n")
        self.there_and_back(["a.c"], "xy", "1 1 1 1 120 1 0 121")

    def test_draws_that_no_stream_gives(self):
        self.file("draws.txt", "1 3 65 10 66 1\n")
        status, _, why = self.tool("ccheck-draws", f"{EXAMPLES}/words.c", "--back", "draws.txt")
        self.assertEqual(status, 1)
        self.assertIn("line end before its last character", why)

    def test_input_from_a_file_and_what_is_left_of_it(self):
        self.file("in", "ab\ncd\n")
        status, _, why = self.tool("ccheck-draws", f"{EXAMPLES}/words.c", "--input", "in")
        self.assertEqual(status, 0)
        self.assertIn("last 3 bytes", why)

    def test_faults(self):
        self.file("a.c", "int price@;\n")
        self.file("bad", "1, 2\n")
        for words in (["a.c", "--text", ""], ["nothing.c", "--text", ""], [f"{EXAMPLES}/words.c", "--back", "bad"],
                      [f"{EXAMPLES}/words.c", "--back", "missing"]):
            status, _, why = self.tool("ccheck-draws", *words)
            self.assertEqual(status, 2, words)
            self.assertTrue(why, words)

    def test_guesses_agree_with_what_is_found_by_trying(self):
        self.file("a.c", MIXED)
        with replays.Replays(self.program, f"{self.folder}/a.c") as runs:
            world = dialogues.World(b"+12345678\nx")
            guessed, outcome = dialogues.Dialogue(runs).answer(world)
            exact, same = dialogues.exact_answers(runs, world)
            self.assertEqual(guessed.draws[:outcome.used], exact.draws[:same.used])
