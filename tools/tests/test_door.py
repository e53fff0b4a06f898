"""The file smack itself: help before any build, the first build, files, symlinks."""

from pathlib import Path

from tests.front_door import (
    EXAMPLES,
    SMACK,
    TOP,
    Ended,
    FrontDoorTest,
    copy_without_program,
    ended,
    ended_with_errors_in,
    executable,
    with_path,
)

RECORD = "smack 1\ntask 0 init\nend 0 0 0\n"

# A stand-in for rt: `run` makes a crate's stamp until the front door has told of it in the file that PROGRESS
# names, at most a minute, and then the program; `try` prints a record.
RT = f"""#!/bin/sh
case $1 in
    run)
        mkdir -p ../a/out/rlib out
        turn=0
        until grep -q "crate 2 of" "$PROGRESS" || [ $turn -eq 600 ]; do
            touch ../a/out/rlib/stamp
            sleep 0.1
            turn=$((turn + 1))
        done
        printf '#!/bin/sh\\ncat >/dev/null\\nprintf "{RECORD}"\\n' >out/smack
        chmod +x out/smack
        echo 'smack 1'
        ;;
    try)
        cat >/dev/null
        printf '{RECORD}'
        echo 'run=ended status=0 runners=1 proved=no' >&2
        ;;
esac
"""


class TestHelp(FrontDoorTest):
    """What is said before any build."""

    def setUp(self) -> None:
        super().setUp()
        self.copy = copy_without_program(self.folder / "copy")

    def unbuilt(self, *words) -> Ended:
        """Runs a copy of the front door that has neither program nor rt."""
        return ended([self.copy / "smack", *words], environment=with_path(self.copy))

    def test_help_needs_no_build(self) -> None:
        for word in ("help", "--help", "-h"):
            page = self.unbuilt(word)
            self.assertEqual(page.status, 0)
            for part in ("smack replay", "smack test", "smack explain", "smack suggest", "smack policy"):
                self.assertIn(part, page.out)
            self.assertIn("Exit statuses", page.out)

    def test_version_names_the_toolchain(self) -> None:
        said = self.unbuilt("--version")
        self.assertEqual(said.status, 0)
        self.assertIn("rattle-kit-", said.out)

    def test_no_command_and_a_wrong_one(self) -> None:
        for words in ((), ("hlep",)):
            said = self.unbuilt(*words)
            self.assertEqual(said.status, 2)
            self.assertTrue(said.err.startswith("smack: usage\n"))
            self.assertIn("smack replay", said.err)
            self.assertEqual(said.out, "")

    def test_help_of_a_command_needs_no_build(self) -> None:
        said = self.unbuilt("test", "--help")
        self.assertEqual(said.status, 0)
        self.assertIn("-j N", said.out)

    def test_without_rt_it_says_what_is_missing(self) -> None:
        said = self.unbuilt("replay")
        self.assertEqual(said.status, 1)
        self.assertEqual(said.out, "")
        self.assertIn("rt, the command of the Rattle toolchain, is not here", said.err)
        section = said.err.split('"')[1]
        self.assertIn(f"## {section}", (TOP / "README.md").read_text())


class TestFirstBuild(FrontDoorTest):
    """The first build, with a stand-in for rt."""

    def setUp(self) -> None:
        super().setUp()
        self.copy = copy_without_program(self.folder / "copy")

    def built_by(self, rt: str, *words) -> Ended:
        """Runs the copy with this rt on the path; its standard error is the file that PROGRESS names."""
        tools = self.folder / "bin"
        tools.mkdir(exist_ok=True)
        executable(tools / "rt", rt)
        progress = self.folder / "progress"
        environment = {**with_path(self.copy), "TMPDIR": str(self.folder), "PROGRESS": str(progress)}
        environment["PATH"] = f"{tools}:{environment['PATH']}"
        return ended_with_errors_in(progress, [self.copy / "smack", *words], environment)

    def test_progress_and_the_record_that_was_asked_for(self) -> None:
        said = self.built_by(RT, "replay")
        self.assertEqual((said.status, said.out), (0, RECORD))
        self.assertRegex(said.err, r"smack: proving crate 2 of [0-9]+, [0-9] min\n")
        self.assertNotIn("smack 1", said.err)
        self.assertEqual(list(self.folder.glob("smack-build.*")), [])

    def test_the_second_run_builds_nothing(self) -> None:
        self.built_by(RT, "replay")
        said = self.built_by("#!/bin/sh\nexit 9\n", "replay")
        self.assertEqual((said.status, said.out, said.err), (0, RECORD, ""))

    def test_a_failed_build_names_its_log(self) -> None:
        said = self.built_by("#!/bin/sh\necho 'no proof of it'\nexit 1\n", "replay")
        self.assertEqual((said.status, said.out), (1, ""))
        last = said.err.splitlines()[-1]
        self.assertTrue(last.startswith("smack: the program could not be built; its log is "))
        self.assertIn("no proof of it", Path(last.rsplit(" ", 1)[1]).read_text())

    def test_now_says_that_nothing_was_proved(self) -> None:
        script = self.file("empty.smack", "")
        said = self.built_by(RT, "--now", "replay", script)
        self.assertEqual((said.status, said.out), (0, RECORD))
        self.assertIn("nothing was proved", said.err)
        self.assertFalse((self.copy / "crates/smack/out").exists())


class TestFiles(FrontDoorTest):
    """Files, standard input and symlinks."""

    def test_a_file_has_the_record_of_standard_input(self) -> None:
        script = EXAMPLES / "first.smack"
        record = (EXAMPLES / "first.record").read_text()
        by_name = self.smack("replay", script)
        self.assertEqual((by_name.status, by_name.out, by_name.err), (0, record, ""))
        for words in (("replay",), ("replay", "-")):
            given = self.smack(*words, given=script.read_bytes())
            self.assertEqual((given.status, given.out, given.err), (0, record, ""))

    def test_a_refused_write_is_told_behind_the_record(self) -> None:
        script = self.file("a.smack", "init write load2 2\nMail Spool r\nMail Log rz\n")
        said = self.smack("replay", script)
        self.assertEqual(said.status, 0)
        self.assertEqual(said.out, self.smack("replay", given=script.read_bytes()).out)
        told = "smack: line 1: write load2 was refused: bad-line 2 allow 1 (line 3: rz: `z`"
        self.assertTrue(said.err.startswith(told), said.err)
        expected = self.smack("replay", EXAMPLES / "locked.smack")
        self.assertEqual((expected.status, expected.err), (0, ""))

    def test_a_symlink_works(self) -> None:
        link = self.folder / "link"
        link.symlink_to(SMACK)
        second = self.folder / "second"
        second.symlink_to("link")
        said = ended([second, "replay", EXAMPLES / "files.smack"])
        self.assertEqual((said.status, said.out), (0, (EXAMPLES / "files.record").read_text()))

    def test_a_pipe_is_read_as_a_file_is(self) -> None:
        said = ended(["sh", "-c", 'printf "init frob\\n" | "$0" replay /dev/stdin', SMACK])
        self.assertEqual((said.status, said.out, said.err), (3, "", "smack: line 1: verb\n"))

    def test_closed_output_is_a_write_fault(self) -> None:
        said = ended(["sh", "-c", '"$0" replay "$1" >&-', SMACK, EXAMPLES / "first.smack"])
        self.assertEqual((said.status, said.out, said.err), (5, "", "smack: write fault\n"))

    def test_help_of_the_commands_of_the_program(self) -> None:
        for command in ("replay", "run"):
            said = self.smack(command, "--help")
            self.assertEqual((said.status, said.err), (0, ""))
            self.assertIn("smack replay [FILE]", said.out)

    def test_a_name_that_begins_as_an_option_does(self) -> None:
        script = self.file("-x", "init frob\n")
        said = ended(["sh", "-c", 'cd "$1" && "$0" replay -x', SMACK, script.parent])
        self.assertEqual((said.status, said.out), (3, ""))
        self.assertTrue(said.err.startswith("smack: line 1: verb\n  1 | init frob\n"), said.err)

    def test_a_file_that_is_not_there(self) -> None:
        said = self.smack("replay", self.folder / "none.smack")
        self.assertEqual((said.status, said.out), (4, ""))
        self.assertIn("none.smack", said.err)

    def test_a_name_with_spaces(self) -> None:
        script = self.file("a policy.smack", "init ask A A r\n")
        self.assertIn("= allow 5", self.smack("replay", script).out)

    def test_an_empty_script_is_run(self) -> None:
        said = self.smack("run", given=b"")
        self.assertEqual((said.status, said.out, said.err), (0, "smack 1\ntask 0 init\nend 0 0 0\n", ""))

    def test_a_script_without_a_fork_runs_as_it_is_replayed(self) -> None:
        said = self.smack("run", EXAMPLES / "first.smack")
        self.assertEqual((said.status, said.out), (0, (EXAMPLES / "first.record").read_text()))

    def test_what_is_wrong_with_a_script_that_is_run(self) -> None:
        said = self.smack("run", self.file("bad.smack", "init frob\n"))
        self.assertEqual((said.status, said.out), (3, ""))
        self.assertIn("smack: line 1: verb", said.err)
