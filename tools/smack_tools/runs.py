"""A script that was run by the program, with its record and the account of it."""

import errno
import os
import sys
from dataclasses import dataclass
from typing import Optional

from . import tables
from .account import Account, tell
from .diagnosis import diagnose
from .program import Outcome, Program
from .record import Record, read_record
from .screen import say
from .script import Script, read_script

CANNOT_READ = 4


@dataclass(frozen=True)
class Run:
    """A script and how it ended. Record and account are None where the program refused the script."""

    name: str
    script: Script
    outcome: Outcome
    record: Optional[Record]
    account: Optional[Account]

    def why_refused(self) -> str:
        """The program's line, and behind it what is wrong in words."""
        more = diagnose(self.script, self.outcome.line)
        return self.outcome.line + ("\n" + more if more else "")


def read_file(name: str) -> bytes:
    """The bytes of a file, at most one more than a script may have; `-` is standard input. Raises OSError."""
    most = tables.MOST_BYTES + 1
    if name == "-":
        if sys.stdin is None:
            raise OSError(errno.EBADF, os.strerror(errno.EBADF))
        return sys.stdin.buffer.read(most)
    with open(name, "rb") as file:
        return file.read(most)


def run_script(program: Program, name: str, data: bytes, lines: Optional[list[int]] = None) -> Run:
    """Replays a script and tells of it, with other numbers for the lines of its calls where they are given.
    Raises RecordError where the record cannot be read."""
    script = read_script(data)
    for call, line in zip(script.calls, lines or ()):
        call.line = line
    outcome = program.run("replay", data)
    if outcome.status != 0:
        return Run(name, script, outcome, None, None)
    record = read_record(outcome.record)
    return Run(name, script, outcome, record, tell(script, record))


def run_file(program: Program, name: str) -> Run:
    """Replays the script of a file. Raises OSError and RecordError."""
    return run_script(program, name, read_file(name))


def say_cannot_read(name: str, error: OSError) -> int:
    """Says why a file cannot be read; the exit status for that."""
    say(f"smack: cannot read {name}: {error.strerror}")
    return CANNOT_READ
