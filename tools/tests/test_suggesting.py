"""smack suggest: the rules that denials ask for, and what they leave."""

from tests.front_door import EXAMPLES, FrontDoorTest

RULE = "init write load2 1\nMail Spool r\n"


class TestSuggestions(FrontDoorTest):
    """What is printed for a script."""

    def suggested(self, text: str, *lines: str) -> None:
        """The output for a script."""
        said = self.smack("suggest", self.file("a.smack", text))
        self.assertEqual((said.status, said.err), (0, ""))
        self.assertEqual(said.out.splitlines(), list(lines))

    def test_rules_are_merged_by_pair(self) -> None:
        text = RULE + "init ask Mail Spool w\ninit ask Mail Spool xa\ninit ask Guest Spool r\n"
        self.suggested(
            text,
            "Guest Spool r  # asked by line 5; label Guest stands in no rule",
            "Mail Spool rwxa  # asked by lines 3, 4",
            "# with 2 rules: 0 of 3 denials left",
        )

    def test_a_text_to_load(self) -> None:
        path = self.file("a.smack", RULE + "init ask Mail Spool w\n")
        said = self.smack("suggest", "--load2", path)
        self.assertEqual((said.status, said.out), (0, "Mail Spool rw\n"))

    def test_an_object_call_is_mended_check_by_check(self) -> None:
        text = "init create /f\ninit relabel Mail\ninit create /m\ninit relabel Guest\n"
        text += "init drop mac-override\ninit unlink /m\n"
        self.suggested(
            text,
            "Guest Mail rw  # asked by line 6; label Mail stands in no rule",
            "Guest _ rw  # asked by line 6",
            "# with 2 rules: 0 of 1 denial left",
        )

    def test_star_is_not_mended(self) -> None:
        self.suggested(
            "init ask * Spool r\n",
            "# with 0 rules: 1 of 1 denial left",
            "#   line 1: init ask * Spool r: case 1: no rule lets * do anything",
        )

    def test_a_later_write_that_replaces_the_rule(self) -> None:
        text = RULE + "init ask Mail Spool w\n" + RULE + "init ask Mail Spool w\n"
        self.suggested(text, "Mail Spool rw  # asked by lines 3, 6", "# with 1 rule: 0 of 2 denials left")

    def test_rules_are_loaded_before_the_lock(self) -> None:
        text = RULE + "init write onlycap 1\nAdmin\ninit ask Mail Spool w\n"
        self.suggested(text, "Mail Spool rw  # asked by line 5", "# with 1 rule: 0 of 1 denial left")

    def test_no_task_may_load_a_rule(self) -> None:
        text = "init drop mac-admin\ninit write load2 1\nMail Spool r\ninit ask Mail Spool r\n"
        self.suggested(
            text,
            "Mail Spool r  # asked by line 4",
            "# with 1 rule: 0 of 1 denial left",
        )

    def test_a_task_that_was_waited_for_loads_no_rule_behind_the_wait(self) -> None:
        text = "init fork B\nB fork C\ninit drop mac-admin\ninit wait B\ninit ask Mail Spool r\n"
        self.suggested(text, "Mail Spool r  # asked by line 5", "# with 1 rule: 0 of 1 denial left")

    def test_what_is_left_is_told_by_the_lines_of_the_script(self) -> None:
        text = "init relabel Mail\ninit drop mac-override\ninit ask Guest Spool r\ninit write load-self2 1\n"
        text += "Mail Mail r\ninit trace attach init\n"
        why = "case 8: a self rule only restricts, and no rule goes over it: self rule r of line 5 lacks w"
        self.suggested(
            text,
            "Guest Spool r  # asked by line 3",
            "# with 1 rule: 1 of 2 denials left",
            f"#   line 6: init trace attach init: {why}",
        )

    def test_a_denial_that_the_script_expects_stays(self) -> None:
        text = RULE + "# expect deny\ninit ask Mail Spool w\n# expect allow\ninit ask Mail Spool x\n"
        self.suggested(
            text,
            "Mail Spool rx  # asked by line 6",
            "# with 1 rule: 0 of 1 denial left; 1 denial that the script expects not counted",
        )

    def test_a_rule_that_breaks_an_expectation_is_named(self) -> None:
        text = RULE + "# expect allow\ninit ask Mail Spool w\n# expect deny\ninit ask Mail Spool rw\n"
        self.suggested(
            text,
            "Mail Spool rw  # asked by line 4",
            "# with 1 rule: 0 of 1 denial left; 1 denial that the script expects not counted",
            "#   line 6: with these rules init ask Mail Spool rw no longer answers as expected: allow 6",
        )

    def test_nothing_to_suggest(self) -> None:
        said = self.smack("suggest", "--load2", EXAMPLES / "phone.smack")
        self.assertEqual((said.status, said.out), (0, ""))

    def test_the_rules_pass_the_test(self) -> None:
        text = RULE + "# expect allow\ninit ask Mail Spool w\n# expect allow\ninit ask Guest Spool r\n"
        self.assertEqual(self.smack("test", self.file("a.smack", text)).status, 1)
        rules = self.smack("suggest", "--load2", self.folder / "a.smack").out
        mended = RULE + f"init write load2 {rules.count(chr(10))}\n{rules}" + text[len(RULE) :]
        self.assertEqual(self.smack("test", self.file("b.smack", mended)).status, 0)
