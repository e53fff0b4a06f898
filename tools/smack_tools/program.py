"""Runs the proved program on a script."""

import os
import subprocess
from dataclasses import dataclass
from pathlib import Path

TOP = Path(__file__).resolve().parents[2]
FOLDER = TOP / "crates" / "smack"
PROGRAM = FOLDER / "out" / "smack"
NOTHING_PROVED = "smack: nothing was proved for this answer: the sources were run as they are, by rt try"


class ProgramError(Exception):
    """The program could not be run at all."""


@dataclass(frozen=True)
class Outcome:
    """How a run ended: the exit status, the record, and the program's line on standard error."""

    status: int
    record: bytes
    line: str


@dataclass(frozen=True)
class Program:
    """The built program, or the sources run as they are, without a proof."""

    now: bool = False

    def run(self, command: str, script: bytes) -> Outcome:
        """Runs a command of the program with the script as its input."""
        words = ["rt", "try", "--", command] if self.now else [str(PROGRAM), command]
        environment = {**os.environ, "LC_ALL": "C"}
        try:
            ended = subprocess.run(
                words, input=script, capture_output=True, cwd=FOLDER if self.now else None, env=environment
            )
        except OSError as error:
            raise ProgramError(f"{words[0]} could not be started: {error.strerror}") from error
        said = ended.stderr.decode("utf-8", "replace")
        if self.now and "run=ended" not in said:
            raise ProgramError(f"rt try did not run the program:\n{said}")
        line = next((line for line in said.splitlines() if line.startswith("smack: ")), "")
        return Outcome(ended.returncode, ended.stdout, line)
