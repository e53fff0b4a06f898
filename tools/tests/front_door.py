"""A test that goes in by the front door: it runs the file smack at the root on files of a folder of its own."""

import os
import shutil
import stat
import subprocess
import sys
import tempfile
import unittest
from dataclasses import dataclass
from pathlib import Path
from typing import Optional

TOP = Path(__file__).resolve().parents[2]
SMACK = TOP / "smack"
EXAMPLES = TOP / "examples"


@dataclass(frozen=True)
class Ended:
    """How a command ended."""

    status: int
    out: str
    err: str


def ended(words: list, given: bytes = b"", environment: Optional[dict] = None) -> Ended:
    """Runs a command to its end."""
    done = subprocess.run(list(map(str, words)), input=given, capture_output=True, env=environment, check=False)
    return Ended(done.returncode, done.stdout.decode(), done.stderr.decode())


def ended_with_errors_in(file: Path, words: list, environment: dict) -> Ended:
    """Runs a command to its end, with this file as its standard error, so that it can be read meanwhile."""
    with file.open("wb") as errors:
        done = subprocess.run(
            list(map(str, words)), input=b"", stdout=subprocess.PIPE, stderr=errors, env=environment, check=False
        )
    return Ended(done.returncode, done.stdout.decode(), file.read_text())


class FrontDoorTest(unittest.TestCase):
    """A test with a folder of its own."""

    maxDiff = None

    def setUp(self) -> None:
        self.folder = Path(tempfile.mkdtemp(prefix="smack-test-"))
        self.addCleanup(shutil.rmtree, self.folder)

    def file(self, name: str, text) -> Path:
        """A file of the folder with this text or these bytes."""
        path = self.folder / name
        path.parent.mkdir(parents=True, exist_ok=True)
        path.write_bytes(text if isinstance(text, bytes) else text.encode())
        return path

    def smack(self, *words, given: bytes = b"") -> Ended:
        """Runs the file smack with these words."""
        return ended([SMACK, *words], given)


def copy_without_program(folder: Path) -> Path:
    """A copy of the front door, with the list of crates and a program that has one source and is not built."""
    source = folder / "crates/smack/src/main.rt"
    source.parent.mkdir(parents=True)
    source.write_text("")
    for part in ("specs", "proofs"):
        (folder / "crates/smack" / part).mkdir()
    for name in ("smack", "README.md", "crates.txt"):
        shutil.copy(TOP / name, folder / name)
    for name in ("tools", "docs"):
        shutil.copytree(TOP / name, folder / name)
    return folder


def executable(path: Path, text: str) -> None:
    """A file that can be run."""
    path.write_text(text)
    path.chmod(path.stat().st_mode | stat.S_IXUSR)


def with_path(folder: Path) -> dict:
    """An environment whose path has the standard programs and python3, and no rt."""
    tools = folder / "standard"
    if not tools.exists():
        tools.mkdir()
        (tools / "python3").symlink_to(sys.executable)
    places = [place for place in ("/usr/bin", "/bin") if not os.path.exists(f"{place}/rt")]
    return {**os.environ, "PATH": ":".join([str(tools), *places])}
