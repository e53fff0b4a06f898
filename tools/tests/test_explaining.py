"""smack explain: the reason beside each answer, and the fold that is compared with the record."""

import json
import os

from smack_tools.account import tell
from smack_tools.record import read_record
from smack_tools.script import read_script
from tests.front_door import EXAMPLES, SMACK, FrontDoorTest, copy_without_program, ended, executable

APPS = "init write load2 2\nUser::Pkg::viewer System::Log rx\nUser::Pkg::viewer System::Run r\n"


class TestReasons(FrontDoorTest):
    """What is said of a call."""

    def explained(self, text: str) -> list[str]:
        """The lines of the explanation of a script."""
        said = self.smack("explain", self.file("a.smack", text))
        self.assertEqual((said.status, said.err), (0, ""))
        return [line.strip() for line in said.out.splitlines()]

    def assert_last(self, text: str, line: str) -> None:
        """The last line of the explanation is this one."""
        self.assertEqual(self.explained(text)[-1], line)

    def test_the_rule_that_allows(self) -> None:
        text = APPS + "init ask User::Pkg::viewer System::Log x\n"
        self.assert_last(text, "4  init ask User::Pkg::viewer System::Log x: allow 6: rule rx of line 2")

    def test_the_rule_that_lacks_a_mode(self) -> None:
        text = APPS + "init ask User::Pkg::viewer System::Log rwa\n"
        line = "4  init ask User::Pkg::viewer System::Log rwa: deny 7: rule rx of line 2 lacks wa"
        self.assert_last(text, line)

    def test_a_label_that_stands_in_no_rule(self) -> None:
        text = APPS + "init ask User::Pkg::veiwer System::Log r\n"
        reason = "no rule: label User::Pkg::veiwer stands in no rule; User::Pkg::viewer does"
        self.assert_last(text, f"4  init ask User::Pkg::veiwer System::Log r: deny 7: {reason}")

    def test_a_label_that_is_like_no_other(self) -> None:
        text = APPS + "init ask Guest System::Log r\n"
        self.assert_last(text, "4  init ask Guest System::Log r: deny 7: no rule: label Guest stands in no rule")

    def test_a_label_that_differs_in_case_from_two(self) -> None:
        text = "init write load2 2\nMail Run r\nMAIL Log r\ninit ask mail Run r\n"
        self.assert_last(text, "4  init ask mail Run r: deny 7: no rule: label mail stands in no rule; MAIL does")

    def test_a_slip_in_the_rules(self) -> None:
        text = "init write load2 2\nviewer Run r\nveiwer Log r\ninit ask viewer Log r\n"
        self.assert_last(text, "4  init ask viewer Log r: deny 7: no rule: line 3 has one for veiwer Log")

    def test_names_that_differ_in_a_number_are_no_slip(self) -> None:
        text = "init write load2 2\nApp1 Log r\nApp2 Run r\ninit ask App2 Log r\n"
        self.assert_last(text, "4  init ask App2 Log r: deny 7: no rule")

    def test_a_question_before_the_rules(self) -> None:
        self.assert_last("init ask A B r\n", "1  init ask A B r: deny 7: no rule is loaded before this line")

    def test_a_rule_that_was_revoked_and_one_that_was_changed(self) -> None:
        text = APPS + "init write revoke-subject 1\nUser::Pkg::viewer\n"
        text += "init ask User::Pkg::viewer System::Log r\n"
        reason = "the rule was emptied by the revoke of line 5"
        self.assert_last(text, f"6  init ask User::Pkg::viewer System::Log r: deny 7: {reason}")
        text += "init write change-rule 1\nUser::Pkg::viewer System::Log w -\n"
        text += "init ask User::Pkg::viewer System::Log r\n"
        self.assert_last(text, "9  init ask User::Pkg::viewer System::Log r: deny 7: rule w of line 8 lacks r")

    def test_blank_lines_of_a_text_keep_the_places(self) -> None:
        text = "init write load2 3\n\n\nMail Spool r\ninit ask Mail Spool r\n"
        self.assert_last(text, "5  init ask Mail Spool r: allow 6: rule r of line 4")

    def test_the_place_that_a_text_came_from(self) -> None:
        text = "# from accesses.d/mail:7\ninit write load2 2\n\nMail Spool r\ninit ask Mail Spool r\n"
        self.assert_last(text, "5  init ask Mail Spool r: allow 6: rule r of line 4 (accesses.d/mail:8)")

    def test_the_checks_of_an_object_call(self) -> None:
        lines = self.explained("init relabel Guest\ninit create /f\ninit drop mac-override\ninit create /g\n")
        over = "CAP_MAC_OVERRIDE goes over case 7: no rule is loaded before this line"
        self.assertEqual(lines[3], f"check Guest _ rw: allow 9 over 7: {over}")
        self.assertEqual(lines[5], "4  init create /g: denied 7: no rule is loaded before this line")
        self.assertEqual(lines[7], "check Guest _ rw: deny 7: no rule is loaded before this line")

    def test_a_capability_that_was_dropped(self) -> None:
        text = "init drop mac-admin\ninit write load2 1\nMail Spool r\n"
        self.assert_last(text, "2  init write load2 1: not-privileged: CAP_MAC_ADMIN was dropped in line 1")

    def test_a_capability_that_onlycap_keeps_from_being_effective(self) -> None:
        text = "init write onlycap 1\nAdmin Root\ninit write load2 1\nMail Spool r\n"
        reason = "CAP_MAC_ADMIN is held and not effective: onlycap has Admin Root since line 1, not _"
        self.assert_last(text, f"3  init write load2 1: not-privileged: {reason}")

    def test_a_bad_field_of_a_text(self) -> None:
        letters = "the letters are r w x a t b and the dash"
        cases = (
            ("load2", "Mail Spool", "2 fields stand there, and a line for load2 has subject, object, modes"),
            ("load2", "-Mail Spool r", "-Mail: a label does not begin with a dash"),
            ("load2", "Mail Sp/ool r", "Sp/ool: `/` is no letter of a label"),
            ("load2", "Mail Spool r\r", f"r<CR>: a carriage return is no mode: {letters}"),
            ("change-rule", "Mail Spool r q", f"q: `q` is no mode: {letters}"),
            ("load", "Mail Spool r", "it has 12 bytes, and a line for load has 53"),
            ("load", f"{'M' * 24}{'Spool':24}r----", f"{'M' * 24}: a label has at most 23 bytes, and this has 24"),
            ("ambient", "A B", "the text has 2 words, and ambient takes one label"),
            ("ambient", "", "the text has 0 words, and ambient takes one label"),
            ("ptrace", "3", "3: ptrace takes 0, 1 or 2"),
            ("onlycap", "Admin -", "-: a label does not begin with a dash"),
        )
        for file, line, reason in cases:
            last = self.explained(f"init write {file} 1\n{line}\n")[-1]
            self.assertTrue(last.endswith(f": line 2: {reason}"), last)

    def test_no_colours_in_a_pipe(self) -> None:
        said = self.smack("explain", EXAMPLES / "files.smack")
        self.assertNotIn("\033", said.out)

    def test_standard_input(self) -> None:
        said = self.smack("explain", "-", given=b"init ask A A r\n")
        self.assertEqual(said.out.strip(), "1  init ask A A r: allow 5: subject and object have the same label")


class TestJson(FrontDoorTest):
    """The explanation for programs."""

    def test_an_object_a_call(self) -> None:
        path = self.file("a.smack", APPS + "init ask User::Pkg::viewer System::Log w\ninit create /f\n")
        said = self.smack("explain", "--json", path)
        write, ask, create = map(json.loads, said.out.splitlines())
        self.assertEqual((write["line"], write["verb"], write["answer"]), (1, "write", "ok"))
        self.assertEqual((ask["line"], ask["answer"], ask["denied"]), (4, "deny 7", True))
        self.assertEqual(ask["checks"][0]["rule"], {"modes": "rx", "place": "line 2"})
        self.assertEqual([check["case"] for check in create["checks"]], [3, 5])


class TestRefused(FrontDoorTest):
    """Scripts that cannot be explained."""

    def test_the_program_refuses_the_script(self) -> None:
        said = self.smack("explain", self.file("a.smack", "init ask A A\n"))
        self.assertEqual((said.status, said.out), (3, ""))
        self.assertTrue(said.err.startswith("smack: line 1: words\n"))

    def test_a_file_that_is_not_there(self) -> None:
        self.assertEqual(self.smack("explain", self.folder / "none").status, 4)

    def test_standard_output_that_cannot_be_written(self) -> None:
        said = ended(["sh", "-c", f"'{SMACK}' explain '{EXAMPLES}/first.smack' >/dev/full"])
        self.assertEqual((said.status, said.err), (5, "smack: write fault\n"))
        said = ended(["sh", "-c", f"'{SMACK}' explain '{EXAMPLES}/first.smack' | head -1"])
        self.assertEqual((said.status, said.err), (0, ""))


    def test_streams_that_are_closed(self) -> None:
        script = EXAMPLES / "first.smack"
        said = ended(["sh", "-c", f"'{SMACK}' explain '{script}' >&-"])
        self.assertEqual((said.status, said.err), (5, "smack: write fault\n"))
        said = ended(["sh", "-c", f"'{SMACK}' explain - <&-"])
        self.assertEqual((said.status, said.out, said.err), (4, "", "smack: cannot read -: Bad file descriptor\n"))
        for nowhere in ("2>&-", "2>/dev/full"):
            said = ended(["sh", "-c", f"'{SMACK}' explain '{self.folder}/none' {nowhere}"])
            self.assertEqual((said.status, said.out), (4, ""))

    def test_letters_that_the_locale_lacks(self) -> None:
        script = self.file("a.smack", "init frob\u00f6\n")
        said = ended([SMACK, "explain", script], environment={**os.environ, "PYTHONIOENCODING": "ascii"})
        self.assertEqual(said.status, 3)
        self.assertIn("frob\u00f6 is no verb", said.err)


class TestFold(FrontDoorTest):
    """The fold of the rules agrees with the record, and a difference is found."""

    def test_no_difference_in_the_examples(self) -> None:
        for script in EXAMPLES.glob("*.smack"):
            record = read_record(script.with_suffix(".record").read_bytes())
            account = tell(read_script(script.read_bytes()), record)
            self.assertEqual(account.differences, [], script)

    def test_each_verdict_is_compared(self) -> None:
        script = read_script((EXAMPLES / "files.smack").read_bytes())
        text = (EXAMPLES / "files.record").read_text()
        spoiled = 0
        for line in text.splitlines():
            for right, wrong in ((" allow 3", " allow 2"), (" deny 7", " deny 1"), (" over 7", " over 8")):
                if line.endswith(right):
                    self.assert_differs(script, text, line, line.replace(right, wrong))
                    spoiled += 1
        self.assertEqual(spoiled, 11)

    def assert_differs(self, script, text: str, line: str, wrong: str) -> None:
        """With this line spoiled, a difference is found."""
        record = read_record(text.replace(f"\n{line}\n", f"\n{wrong}\n", 1).encode())
        self.assertNotEqual(tell(script, record).differences, [], wrong)

    def test_a_difference_is_printed(self) -> None:
        copy = copy_without_program(self.folder / "copy")
        wrong = "smack 1\\ntask 0 init\\nq 0.1 v0 ask A A r\\n= deny 7\\nend 0 0 1\\n"
        program = copy / "crates/smack/out/smack"
        program.parent.mkdir()
        executable(program, f"#!/bin/sh\ncat >/dev/null\nprintf '{wrong}'\n")
        script = self.file("a.smack", "# expect deny\ninit ask A A r\n")
        what = "line 2: init ask A A r: the fold answers allow 5, the record deny 7"
        said = ended([copy / "smack", "explain", script])
        self.assertEqual((said.status, said.err), (1, f"smack: the explanation and the record differ: {what}\n"))
        tested = ended([copy / "smack", "test", script])
        self.assertEqual(tested.status, 1)
        self.assertIn(f"the explanation and the record differ: {what}", tested.out)
