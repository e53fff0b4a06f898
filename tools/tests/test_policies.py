"""smack policy: policy files as a script."""

import re

from tests.front_door import EXAMPLES, TOP, FrontDoorTest, ended, SMACK


class TestScripts(FrontDoorTest):
    """The script that is made of good files."""

    def test_comments_blanks_and_both_forms(self) -> None:
        self.file("d/10-mail", "# mail\nMail Spool rwx\n\n  Mail\tLog  w  # its log\nMail Log a w\n# end\n")
        self.file("d/20-guest", "Guest Spool -\n")
        self.file("d/.hidden", "no rule\n")
        self.file("d/20-guest~", "no rule\n")
        said = ended([SMACK, "policy", self.folder / "d"])
        place = self.folder / "d"
        script = (
            f"# from {place}/10-mail:2\ninit write load2 3\nMail Spool rwx\n\nMail Log w\n"
            f"# from {place}/10-mail:5\ninit write change-rule 1\nMail Log a w\n"
            f"# from {place}/20-guest:1\ninit write load2 1\nGuest Spool -\n"
        )
        self.assertEqual((said.status, said.out, said.err), (0, script, ""))

    def test_a_name_with_a_line_feed_stays_in_its_comment(self) -> None:
        policy = self.file("a\ninit exit", "Mail Spool r\n")
        said = self.smack("policy", policy)
        self.assertEqual(said.out.splitlines()[1:], ["init write load2 1", "Mail Spool r"])

    def test_the_record_has_the_rules_in_order(self) -> None:
        policy = self.file("mail", "Mail Spool rwx\nMail Spool a w\nGuest Spool r\n")
        script = self.file("mail.smack", self.smack("policy", policy).out)
        writes = [line for line in self.smack("replay", script).out.splitlines() if line.startswith("o ")]
        self.assertEqual(writes, ["o set Mail Spool rwx", "o change Mail Spool a w", "o set Guest Spool r"])

    def test_large_files_are_cut(self) -> None:
        rules = [f"Subject{n:05} Object{n % 300:03} rwxa" for n in range(10_000)]
        self.file("d/rules", "\n".join(rules) + "\n")
        questions = [f"{rule.rsplit(' ', 1)[0]} w allow 6" for rule in rules[::20]]
        asked = self.file("questions", "\n".join(questions) + "\n")
        said = self.smack("policy", self.folder / "d", "--questions", asked)
        self.assertEqual(said.status, 0)
        self.assert_texts_are_small(said.out)
        script = self.file("large.smack", said.out)
        self.assertEqual(self.smack("test", script).out, "1 file, 500 expectations, 0 missed\n")
        writes = [line[6:] for line in self.smack("replay", script).out.splitlines() if line.startswith("o set")]
        self.assertEqual(writes, rules)

    def assert_texts_are_small(self, script: str) -> None:
        """Each text is below the limit, and its count is right."""
        lines = script.splitlines()
        at = 0
        while at < len(lines):
            found = re.fullmatch(r"init write \S+ (\d+)", lines[at])
            count = int(found[1]) if found else 0
            text = lines[at + 1 : at + 1 + count]
            self.assertLess(sum(len(line) + 1 for line in text), 65_536)
            self.assertTrue(all(len(line.split()) == 3 for line in text))
            at += 1 + count

    def test_questions_in_both_forms(self) -> None:
        policy = self.file("mail", "Mail Spool rw\n")
        questions = "# asked\nMail Spool r allow 6\nMail Spool x\nGuest Spool r deny\n\n"
        questions += "# expect ok\ninit write load2 1\nGuest Spool r\ninit ask Guest Spool r\n"
        said = self.smack("policy", policy, "--questions", self.file("questions", questions))
        made = said.out.splitlines()[3:]
        self.assertEqual(
            made,
            [
                "# asked",
                "# expect allow 6",
                "init ask Mail Spool r",
                "init ask Mail Spool x",
                "# expect deny",
                "init ask Guest Spool r",
                "",
                "# expect ok",
                "init write load2 1",
                "Guest Spool r",
                "init ask Guest Spool r",
            ],
        )

    def test_the_example(self) -> None:
        words = ["policy", "examples/phone/accesses.d", "--questions", "examples/phone/questions"]
        said = ended(["sh", "-c", f'cd "{TOP}" && ./smack {" ".join(words)}'])
        self.assertEqual((said.status, said.out), (0, (EXAMPLES / "phone.smack").read_text()))


class TestBadLines(FrontDoorTest):
    """Lines that the program would refuse."""

    def test_all_are_named_in_one_run(self) -> None:
        one = self.file("d/one", "Mail Spool rwx\nMail Spool\nMa/il Spool r\nMail Spool rz\n")
        two = self.file("d/two", "-Mail Spool r\nMail Spool r q\nMail " + "S" * 256 + " r\n")
        said = self.smack("policy", self.folder / "d")
        self.assertEqual((said.status, said.out), (1, ""))
        places = re.findall(r"^(.+:\d+): ", said.err, re.MULTILINE)
        self.assertEqual(places, [f"{one}:2", f"{one}:3", f"{one}:4", f"{two}:1", f"{two}:2", f"{two}:3"])
        self.assertIn("`z` is no mode", said.err)
        self.assertIn("smack: 6 bad lines", said.err)

    def test_a_good_line_between_bad_ones_is_not_named(self) -> None:
        path = self.file("mail", "Mail Spool\nMail Spool r\nGuest Spool\nGuest Log\n")
        said = self.smack("policy", path)
        self.assertIn(f"{path}:1: 2 fields", said.err)
        self.assertIn(f"{path}:3 to 4: 2 fields", said.err)

    def test_carriage_returns_in_questions(self) -> None:
        policy = self.file("mail", "Mail Spool rw\n")
        questions = self.file("questions", "# asked\r\n\r\nMail Spool r\r\n")
        said = self.smack("policy", policy, "--questions", questions)
        self.assertEqual((said.status, said.out), (1, ""))
        self.assertIn(f"{questions}:1 to 3: the line ends with a carriage return", said.err)

    def test_carriage_returns_have_one_message(self) -> None:
        path = self.file("dos", "".join(f"Mail{n} Spool r\r\n" for n in range(100)))
        said = self.smack("policy", path)
        self.assertEqual((said.status, said.out), (1, ""))
        self.assertIn(f"{path}:1 to 100: the line ends with a carriage return", said.err)

    def test_each_is_one_that_the_program_refuses(self) -> None:
        for line in ("Mail Spool", "Ma/il Spool r", "Mail Spool rz", "-Mail Spool r", "Mail Spool r\r"):
            script = self.file("a.smack", f"init write load2 1\n{line}\n")
            self.assertIn("\n= bad-line 1 ", self.smack("replay", script).out)
            self.assertEqual(self.smack("policy", self.file("p", line + "\n")).status, 1)

    def test_a_byte_order_mark(self) -> None:
        policy = self.file("mail", "Mail Spool rw\n")
        for text in ("# asked\n", "Mail Spool r\n", "init ask Mail Spool r\n"):
            questions = self.file("questions", "\ufeff" + text)
            said = self.smack("policy", policy, "--questions", questions)
            self.assertEqual((said.status, said.out), (1, ""))
            self.assertIn(f"{questions}:1: the file begins with a byte-order mark", said.err)

    def test_a_bad_question(self) -> None:
        policy = self.file("mail", "Mail Spool rw\n")
        questions = self.file("questions", "Mail Spool\nMail Spool r perhaps\n")
        said = self.smack("policy", policy, "--questions", questions)
        self.assertEqual((said.status, said.out), (1, ""))
        self.assertIn(f"{questions}:1 to 2: a question is SUBJECT OBJECT MODES", said.err)

    def test_a_link_that_leads_nowhere(self) -> None:
        self.file("d/mail", "Mail Spool rw\n")
        (self.folder / "d/guest").symlink_to("nowhere")
        said = self.smack("policy", self.folder / "d")
        self.assertEqual((said.status, said.out), (4, ""))
        self.assertIn("cannot read", said.err)

    def test_a_path_that_is_not_there(self) -> None:
        said = self.smack("policy", self.folder / "none")
        self.assertEqual((said.status, said.out), (4, ""))
        self.assertIn("none", said.err)
