"""The command line of the commands around the program. The file smack has built the program before."""

import argparse
import os
import sys
from typing import Optional

from . import diagnosis, explaining, policies, suggesting, testing
from .expectations import refused_writes
from .program import NOTHING_PROVED, Program, ProgramError
from .runs import read_file, run_file, say_cannot_read
from .screen import say
from .script import read_script

WRITE_FAULT = 5


def replay(program: Program, words: argparse.Namespace) -> int:
    """`replay` and `run` without a proof: the record, the program's line, and what is wrong."""
    try:
        data = read_file(words.file)
    except OSError as error:
        return say_cannot_read(words.file, error)
    outcome = program.run(words.command, data)
    sys.stdout.buffer.write(outcome.record)
    sys.stdout.flush()
    for part in (outcome.line, diagnosis.diagnose(read_script(data), outcome.line)):
        if part:
            say(part)
    return outcome.status


def diagnose(program: Program, words: argparse.Namespace) -> int:
    """What is wrong with a script, behind the program's line."""
    said = diagnosis.diagnose(read_script(read_file(words.file)), words.line)
    if said:
        say(said)
    return 0


def refused(program: Program, words: argparse.Namespace) -> int:
    """The writes of a script that were refused and not expected to be."""
    for miss in refused_writes(run_file(program, words.file).account):
        say(f"smack: line {miss.line}: {miss.what}")
    return 0


def parser() -> argparse.ArgumentParser:
    """The commands and their words."""
    top = argparse.ArgumentParser(prog="smack", description="The commands around the proved program.")
    commands = top.add_subparsers(dest="command", required=True, metavar="COMMAND")
    for name in ("replay", "run"):
        made = commands.add_parser(name, help="runs a script and prints its record")
        made.add_argument("file", nargs="?", default="-", metavar="FILE")
        made.set_defaults(does=replay)
    made = commands.add_parser("diagnose")
    made.add_argument("file", metavar="FILE")
    made.add_argument("line", metavar="LINE")
    made.set_defaults(does=diagnose)
    made = commands.add_parser("refused")
    made.add_argument("file", metavar="FILE")
    made.set_defaults(does=refused)
    made = commands.add_parser("test", help="compares the answers with `# expect ..` lines")
    made.add_argument("files", nargs="+", metavar="FILE")
    made.add_argument("-j", type=int, default=1, metavar="N", help="so many files at a time")
    made.set_defaults(does=lambda program, words: testing.test(program, words.files, max(words.j, 1)))
    made = commands.add_parser("explain", help="says of each call why it was answered so")
    made.add_argument("file", nargs="?", default="-", metavar="FILE")
    made.add_argument("--json", action="store_true", help="an object for each call, one a line")
    made.set_defaults(does=lambda program, words: explaining.explain(program, words.file, words.json))
    made = commands.add_parser("suggest", help="prints the rules that the denials ask for")
    made.add_argument("file", nargs="?", default="-", metavar="FILE")
    made.add_argument("--load2", action="store_true", help="the rules alone, as a text to load")
    made.set_defaults(does=lambda program, words: suggesting.suggest(program, words.file, words.load2))
    made = commands.add_parser("policy", help="turns policy files into a script")
    made.add_argument("paths", nargs="+", metavar="PATH")
    made.add_argument("--questions", metavar="FILE", help="calls, or lines SUBJECT OBJECT MODES [ANSWER]")
    made.set_defaults(does=lambda program, words: policies.policy(words.paths, words.questions))
    return top


def main(arguments: Optional[list[str]] = None) -> int:
    """Runs a command; its exit status."""
    arguments = list(arguments or [])
    now = arguments[:1] == ["--now"]
    sys.stderr = sys.stderr or open(os.devnull, "w", encoding="utf-8")
    if sys.stdout is None:
        print("smack: write fault", file=sys.stderr)
        return WRITE_FAULT
    for stream in (sys.stdout, sys.stderr):
        stream.reconfigure(encoding="utf-8", errors="surrogateescape")
    words = parser().parse_args(arguments[1:] if now else arguments)
    if now:
        say(NOTHING_PROVED)
    try:
        status = words.does(Program(now), words)
        sys.stdout.flush()
        return status
    except ProgramError as error:
        say(f"smack: {error}")
        return 1
    except OSError as error:
        return writing_failed(error)


def writing_failed(error: OSError) -> int:
    """Says that standard output could not be written, but for a reader that has seen enough, as `head`."""
    os.dup2(os.open(os.devnull, os.O_WRONLY), sys.stdout.fileno())
    if not isinstance(error, BrokenPipeError):
        say("smack: write fault")
    return WRITE_FAULT
