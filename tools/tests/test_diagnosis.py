"""What is wrong with a script: the program's line comes first, then the line, a caret, and the reason."""

import unittest

from smack_tools import tables
from smack_tools.diagnosis import diagnose
from smack_tools.script import read_script
from tests.front_door import Ended, FrontDoorTest


class TestBadLines(FrontDoorTest):
    """Scripts that the program refuses at a line."""

    def refused(self, text, line: str, *parts: str) -> Ended:
        """Replays a script that must be refused with this line, and with these parts in the explanation."""
        said = self.smack("replay", self.file("bad.smack", text))
        self.assertEqual((said.status, said.out), (3, ""))
        self.assertEqual(said.err.splitlines()[0], line)
        for part in parts:
            self.assertIn(part, said.err)
        return said

    def caret(self, said: Ended) -> str:
        """The letters over the carets."""
        _, shown, carets = said.err.splitlines()[:3]
        return "".join(letter for letter, mark in zip(shown, carets) if mark == "^")

    def test_carriage_returns(self) -> None:
        said = self.refused("init ask Mail Spool r\r\n", "smack: line 1: word 5", "carriage return", "tr -d '\\r'")
        self.assertEqual(self.caret(said), "<CR>")

    def test_carriage_return_behind_a_count(self) -> None:
        text = "init write load2 1\r\nMail Spool r\r\n"
        self.refused(text, "smack: line 1: word 4", "carriage return")

    def test_byte_order_mark(self) -> None:
        text = b"\xef\xbb\xbfinit ask A B r\n"
        self.refused(text, "smack: line 1: word 1", "byte-order mark")

    def test_bad_letter(self) -> None:
        said = self.refused("init ask Mail Spool rz\n", "smack: line 1: word 5", "`z` is no mode", "r w x a t b")
        self.assertEqual(self.caret(said), "z")

    def test_letter_that_is_not_ascii(self) -> None:
        said = self.refused("init ask Mail Sp\u00f6l r\n", "smack: line 1: word 4", "not ASCII")
        self.assertEqual(self.caret(said), "\u00f6")

    def test_missing_task(self) -> None:
        said = self.refused("ask Mail Spool r\n", "smack: line 1: verb", "init ask Mail Spool r")
        self.assertEqual(self.caret(said), "ask")

    def test_task_that_is_not_there(self) -> None:
        self.refused("inti ask Mail Spool r\n", "smack: line 1: task", "is it init?")

    def test_verb_with_a_slip(self) -> None:
        self.refused("init aks Mail Spool r\n", "smack: line 1: verb", "is it ask?")

    def test_the_verbs_that_are_named_are_those_that_the_program_has(self) -> None:
        said = self.refused("init frobnicate\n", "smack: line 1: verb", "the verbs are write ask ")
        self.assertNotIn("mkdir", said.err)
        for verb in tables.VERBS:
            cause = "" if verb in ("exit", "take") else "words" if verb in tables.BUILT_VERBS else "not-built"
            said = self.smack("replay", given=f"init {verb}\n".encode())
            self.assertEqual(said.err, f"smack: line 1: {cause}\n" if cause else "")

    def test_number_of_words(self) -> None:
        parts = ("takes 3 words, and 2 stand there", "init ask LABEL LABEL MODES")
        self.refused("init ask Mail Spool\n", "smack: line 1: words", *parts)

    def test_words_too_many(self) -> None:
        said = self.refused("init ask Mail Spool r w\n", "smack: line 1: words", "and 4 stand there")
        self.assertEqual(self.caret(said), "w")

    def test_one_word_too_many(self) -> None:
        self.refused("init exit r\n", "smack: line 1: words", "exit takes 0 words, and 1 stands there: init exit")

    def test_a_comment_behind_a_space(self) -> None:
        self.refused(" # a policy\n", "smack: line 1: word 1", "a comment begins with the first letter of its line")

    def test_capability(self) -> None:
        parts = ("mac-admin, mac-override or sys-ptrace", "is it mac-override?")
        self.refused("init drop mac-overide\n", "smack: line 1: word 3", *parts)

    def test_tab(self) -> None:
        self.refused("init\task Mail Spool r\n", "smack: line 1: word 1", "a tab does not part the words")

    def test_count_too_small(self) -> None:
        text = "init write load2 1\nMail Spool rw\nMail Log a\ninit ask Mail Spool r\n"
        self.refused(text, "smack: line 3: verb", "line 1 ends before line 3", "its count 1 too small?")

    def test_numbers_of_many_digits(self) -> None:
        digits = "1" * 5000
        self.refused(f"init write load2 {digits}\n", "smack: line 1: word 4", "a number is at most 4,294,967,295")
        self.refused(f"# from mail:{digits}\ninit frob\n", "smack: line 2: verb")

    def test_a_long_line_is_cut(self) -> None:
        said = self.refused("init ask Mail " + "S" * 100_000 + " r\n", "smack: line 1: word 4", "and this has 100000")
        self.assertLess(len(said.err), 1000)
        said = self.refused("init " + "s" * 100_000 + "\n", "smack: line 1: verb")
        self.assertLess(len(said.err), 2000)
        said = self.refused(" " * 1000 + "init ask Mail Spool rz\n", "smack: line 1: word 5", ".. ")
        self.assertEqual(self.caret(said), "z")

    def test_letters_that_are_not_shown(self) -> None:
        said = self.refused("init \x1b[2J Mail\n", "smack: line 1: verb", "<1b>[2J is no verb")
        self.assertNotIn("\x1b", said.err)
        self.refused("init ask Mail\u00a0Spool r\n", "smack: line 1: words", "Mail<U+00A0>Spool")
        self.refused("init ask Mail Sp\u200bool r\n", "smack: line 1: word 4", "the unprintable letter U+200B")
        self.refused(b"init ask Mail Sp\xffool r\n", "smack: line 1: word 4", "the unprintable byte 0xff")

    def test_count_beyond_the_end(self) -> None:
        text = "init write load2 9\nMail Spool rw\ninit ask Mail Spool r\n"
        parts = ("9 lines by this count, and 2 lines follow", "line 3 in its text looks like a call")
        self.refused(text, "smack: line 1: text", *parts)

    def test_standard_input_has_the_line_alone(self) -> None:
        said = self.smack("replay", given=b"init ask Mail Spool\n")
        self.assertEqual((said.status, said.out, said.err), (3, "", "smack: line 1: words\n"))


class TestLimits(FrontDoorTest):
    """Scripts that break a limit."""

    def test_large_text(self) -> None:
        rules = "".join(f"Subject{n:05} Object{n:05} rwxa\n" for n in range(3000))
        said = self.smack("replay", self.file("large.smack", f"# a policy\ninit write load2 3000\n{rules}"))
        self.assertEqual((said.status, said.out), (7, ""))
        self.assertEqual(said.err.splitlines()[0], "smack: too large: text")
        self.assertIn("2 | init write load2 3000", said.err)
        self.assertIn(f"{len(rules):,} bytes, and the limit is 65,536", said.err)

    def test_too_many_lines(self) -> None:
        said = self.smack("replay", self.file("long.smack", "init ask A B r\n" + "\n" * 131_072))
        self.assertEqual((said.status, said.out), (7, ""))
        self.assertIn("131,073 lines, and the limit is 131,072", said.err)

    def test_too_many_bytes(self) -> None:
        said = self.smack("replay", self.file("big.smack", b"#" * 4_194_305))
        self.assertEqual((said.status, said.out), (7, ""))
        self.assertIn("more than 4,194,304 bytes", said.err)


class TestTasks(unittest.TestCase):
    """Causes of verbs that fork, by the line that the program prints for them."""

    def told(self, text: str, line: str) -> str:
        """What is said behind the program's line."""
        return diagnose(read_script(text.encode()), line)

    def test_names(self) -> None:
        self.assertIn("there is a task B already", self.told("init fork B\ninit fork B\n", "smack: line 2: name"))
        self.assertIn("no line before this one forks a task C", self.told("init kill C 9\n", "smack: line 1: name"))

    def test_tasks_that_are_gone(self) -> None:
        text = "init fork B\nB exit\nB exit\n"
        self.assertIn("the task B has exited in line 2", self.told(text, "smack: line 3: task"))
        text = "init fork B\ninit wait B\nB exit\n"
        self.assertIn("the task B was waited for in line 2", self.told(text, "smack: line 3: task"))

    def test_tasks_that_are_not_the_latest_child(self) -> None:
        text = "init fork B\ninit fork C\nC fork D\ninit wait B\n"
        self.assertIn("forked last and has not waited for: C", self.told(text, "smack: line 4: wait"))
        text = "init fork B\ninit wait B\ninit wait B\n"
        self.assertIn("and has not waited for: there is none", self.told(text, "smack: line 3: wait"))

    def test_what_is_not_built(self) -> None:
        said = self.told("init open /f r\n", "smack: line 1: not-built")
        self.assertIn("the verb open is not built into this program yet", said)
        said = self.told("init write load-self 1\nA B r\n", "smack: line 1: not-built")
        self.assertIn("the file load-self is not built into this program yet", said)

    def test_a_line_of_another_kind(self) -> None:
        self.assertEqual(self.told("", "smack: out of memory"), "")
