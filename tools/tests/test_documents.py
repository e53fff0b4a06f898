"""What the documents show is what the program does."""

import re

from smack_tools import calls, tables
from tests.front_door import TOP, FrontDoorTest

GUIDES = ("POLICY", "PROOFS", "SCRIPT", "CALLS", "RECORD", "SMACK", "DIFFERENCES")
AUTHORS_PAGES = ("README.md", *(f"docs/{name}.md" for name in GUIDES))
BLOCK = re.compile(r"```\n(.*?)```", re.DOTALL)


def blocks_of(name: str) -> list[str]:
    """The blocks of code of a document."""
    return BLOCK.findall((TOP / name).read_text())


class TestDocuments(FrontDoorTest):
    """The pages that authors read."""

    def test_the_script_and_the_record_of_the_readme(self) -> None:
        with_remarks = [block for block in blocks_of("README.md") if "  " in block and "0 object calls" in block]
        script, record = (
            "".join(re.split(r" {3,}(?=[a-z])", line)[0].rstrip() + "\n" for line in block.splitlines())
            for block in (blocks_of("README.md")[1], with_remarks[0])
        )
        path = self.file("readme.smack", script)
        self.assertEqual(self.smack("replay", path).out, record)
        self.assertEqual(self.smack("test", path).out, "1 file, 1 expectation, 0 missed\n")

    def test_the_example_of_the_help(self) -> None:
        page = (TOP / "tools/help.txt").read_text()
        script = page.split("<<'END'\n")[1].split("  END\n")[0].replace("\n  ", "\n").strip() + "\n"
        path = self.file("mail.smack", script)
        tested = self.smack("test", path).out
        self.assertIn(f"$ smack test mail.smack\n  {tested}", page)
        for line in self.smack("explain", path).out.splitlines():
            self.assertIn(line, page)

    def test_the_scripts_of_the_guide_to_policies(self) -> None:
        scripts = [block for block in blocks_of("docs/POLICY.md") if block.startswith("init ")]
        self.assertEqual(len(scripts), 3)
        for number, script in enumerate(scripts):
            said = self.smack("test", self.file(f"{number}.smack", script))
            self.assertEqual(said.status, 0, said.out)

    def test_the_refusal_of_the_guide_to_policies(self) -> None:
        (shown,) = [block for block in blocks_of("docs/POLICY.md") if block.startswith("$ ./smack replay mail.smack\n")]
        script = "init write load2 1\nMail Spool r\n\ninit ask Mail Spool rz\n"
        said = self.smack("replay", self.file("mail.smack", script))
        self.assertEqual(shown.split("\n", 1)[1], said.err)

    def test_the_words_of_each_call_are_those_that_the_program_takes(self) -> None:
        good = {"FILE": "load2", "N": "0", "LABEL": "Mail", "MODES": "r", "NAME": "reader", "CAP": "mac-admin"}
        good |= {"SIG": "9", "PATH": "/notes"}
        for call in calls.built_calls(calls.PAGE.read_text()):
            words = [good.get(word, word) for word in call]
            before = "" if call[0] == "fork" else "init fork reader\n"
            self.assertEqual(self.smack("replay", given=f"{before}init {' '.join(words)}\n".encode()).err, "", call)
            longer = self.smack("replay", given=f"init {' '.join(words)} one-more\n".encode())
            self.assertEqual(longer.err, "smack: line 1: words\n", call)

    def test_the_words_of_each_call_are_those_of_the_table_of_verbs(self) -> None:
        for verb, *words in calls.built_calls(calls.PAGE.read_text()):
            kinds = tables.VERBS[verb]
            self.assertEqual(len(kinds), len(words), verb)
            for kind, word in zip(kinds, words):
                self.assertTrue(word == kind.name or kind.fault(word) is None, f"{verb}: {word}")

    def test_each_reply_and_refusal_of_a_call_is_one_of_the_record(self) -> None:
        page = calls.PAGE.read_text()
        rows = [row.split(" | ") for row in page.splitlines() if row.startswith("| `") and row.count(" | ") == 3]
        for _, refused, _, reply in rows:
            for name in re.findall(r"`([a-z-]{4,})`", refused):
                self.assertIn(name, tables.REFUSALS)
            for name in re.findall(r"`([a-z]+)", reply):
                self.assertIn(name, tables.REPLIES)

    def test_links_lead_somewhere(self) -> None:
        for page in (TOP / name for name in AUTHORS_PAGES):
            for link in re.findall(r"\]\(([^)]+)\)", page.read_text()):
                name, _, heading = link.partition("#")
                target = (page.parent / name) if name else page
                self.assertTrue(target.exists(), f"{page.name}: {link}")
                if heading:
                    self.assertIn(heading, headings_of(target.read_text()), f"{page.name}: {link}")


def headings_of(page: str) -> set[str]:
    """The headings of a page as links name them."""
    found = re.findall(r"^#+ (.+)$", page, re.MULTILINE)
    return {re.sub(r"[^a-z0-9 _-]", "", heading.lower()).replace(" ", "-") for heading in found}
