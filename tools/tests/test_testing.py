"""smack test: expectations that are met and missed."""

from tests.front_door import EXAMPLES, FrontDoorTest

POLICY = "init write load2 2\nMail Spool rwx\nGuest Spool -\n"


class TestExpectations(FrontDoorTest):
    """What `# expect ..` lines may say."""

    def assert_test(self, text: str, *lines: str, status: int) -> None:
        """Tests a script; each line of the output but the last must be FILE: and this."""
        path = self.file("a.smack", text)
        said = self.smack("test", path)
        self.assertEqual(said.out.splitlines()[:-1], [f"{path}:{line}" for line in lines])
        self.assertEqual(said.status, status)

    def test_each_answer_can_be_expected(self) -> None:
        calls = (
            ("ok", "init write load2 1\nMail Spool rwx"),
            ("allow", "init ask Mail Spool r"),
            ("allow 6", "init ask Mail Spool r"),
            ("deny", "init ask Mail Spool a"),
            ("deny 7", "init ask Mail Spool a"),
            ("refused", "init write load3 0"),
            ("refused no-such-file", "init write load3 0"),
            ("no-such-file", "init write load3 0"),
            ("refused bad-line", "init write load2 1\nMail Spool rz"),
            ("bad-line 1 allow 1", "init write load2 1\nMail Spool rz"),
            ("ok", "init create /f"),
            ("refused exists", "init create /f"),
            ("names 1", "init list / 0"),
            ("names 1 1 f", "init list / 0"),
            ("ok", "init relabel Mail"),
            ("ok", "init drop mac-override"),
            ("denied", "init unlink /f"),
            ("denied 7", "init unlink /f"),
            ("ok", "init drop mac-admin"),
            ("refused not-privileged", "init relabel Guest"),
            ("not-privileged", "init write load2 1\nMail Spool rwx"),
        )
        self.assert_test("".join(f"# expect {answer}\n{call}\n" for answer, call in calls), status=0)

    def test_misses(self) -> None:
        text = POLICY + "# expect deny\ninit ask Mail Spool w\n\n# expect allow 6\ninit ask Guest Spool r\n"
        self.assert_test(
            text,
            "5: expected deny, got allow by case 6 (rule rwx of line 2)",
            "8: expected allow 6, got deny by case 7 (rule - of line 3 lacks r)",
            status=1,
        )

    def test_another_case_is_a_miss(self) -> None:
        text = "# expect allow 6\ninit ask Mail Mail r\n"
        self.assert_test(
            text, "2: expected allow 6, got allow by case 5 (subject and object have the same label)", status=1
        )

    def test_a_part_of_a_word_is_no_match(self) -> None:
        text = POLICY + "# expect allow 6\ninit ask Mail Spool r\n# expect all\ninit ask Mail Spool r\n"
        self.assert_test(text, "6: `expect all`: no answer begins so", status=1)

    def test_a_refused_write_is_a_miss(self) -> None:
        reason = "bad-line 2 allow 1 (line 3: rz: `z` is no mode: the letters are r w x a t b and the dash)"
        text = "init write load2 2\nMail Spool r\nMail Log rz\n"
        self.assert_test(text, f"1: write load2 was refused: {reason}", status=1)

    def test_a_count_too_large_is_named(self) -> None:
        path = self.file("a.smack", "init write load2 2\nMail Spool r\ninit ask Mail Spool r\n")
        said = self.smack("test", path)
        self.assertEqual(said.status, 1)
        self.assertIn("line 3 in its text looks like a call: is the count 2 of line 1 too large?", said.out)

    def test_an_expectation_before_no_call(self) -> None:
        text = "# expect deny\n# expect allow\ninit ask A A r\n# expect deny\n"
        self.assert_test(
            text, "1: `expect deny` stands before no call", "4: `expect deny` stands before no call", status=1
        )

    def test_an_expectation_is_shown_as_it_can_be_seen(self) -> None:
        self.assert_test("# expect \x1b[2J\ninit ask A A r\n", "1: `expect <1b>[2J`: no answer begins so", status=1)

    def test_an_expectation_in_another_spelling_is_one(self) -> None:
        text = "".join(f"{comment} deny\ninit ask A A r\n" for comment in ("# expect:", "# Expect", "#EXPECT ="))
        why = "expected deny, got allow by case 5 (subject and object have the same label)"
        self.assert_test(text, f"2: {why}", f"4: {why}", "5: `expect = deny`: no answer begins so", status=1)

    def test_comments_that_expect_nothing(self) -> None:
        self.assert_test("# expected of all\n# we expect deny\ninit ask A A r\n", status=0)

    def test_a_script_that_is_refused(self) -> None:
        path = self.file("a.smack", "init ask A A\n")
        said = self.smack("test", path)
        self.assertEqual(said.status, 1)
        self.assertIn("smack: line 1: words\n", said.out)


class TestFiles(FrontDoorTest):
    """Several files, in turn and side by side."""

    def test_counts_and_order(self) -> None:
        good = self.file("good.smack", "# expect allow 5\ninit ask A A r\n")
        bad = self.file("bad.smack", "# expect deny\ninit ask A A r\n")
        for many in ((), ("-j", "3")):
            said = self.smack("test", *many, good, bad, good)
            self.assertEqual(said.status, 1)
            lines = said.out.splitlines()
            self.assertEqual(lines[-1], "3 files, 3 expectations, 1 missed")
            self.assertEqual(len(lines), 2)

    def test_a_file_that_is_not_there(self) -> None:
        said = self.smack("test", self.folder / "none.smack")
        self.assertEqual(said.status, 1)
        self.assertIn("none.smack: cannot be read", said.out)
        self.assertEqual(said.err, "")

    def test_the_examples(self) -> None:
        said = self.smack("test", "-j", "2", *sorted(EXAMPLES.glob("*.smack")))
        self.assertEqual(said.status, 0, said.out)
        self.assertEqual(said.err, "")
