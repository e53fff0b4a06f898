"""smack test: runs scripts and compares the answers with what their comments expect."""

import sys
from concurrent.futures import ThreadPoolExecutor
from dataclasses import dataclass

from .expectations import count_of, misses_of
from .program import Program
from .record import RecordError
from .runs import run_file
from .screen import coloured, has_colours, say
from .text_faults import counted


@dataclass(frozen=True)
class Tested:
    """How a file did: what to print, how many expectations it has, how many things are wrong, and whether it was
    run."""

    name: str
    lines: list[str]
    expected: int
    missed: int
    ran: bool = False


def test_file(program: Program, name: str) -> Tested:
    """Runs a file and finds what is wrong with its answers."""
    try:
        run = run_file(program, name)
    except OSError as error:
        return Tested(name, [f"{name}: cannot be read: {error.strerror}"], 0, 1)
    except RecordError as error:
        return Tested(name, [f"{name}: {error}"], 0, 1)
    if run.account is None:
        return Tested(name, [f"{name}: the program gave no record", run.why_refused()], count_of(run.script), 1)
    misses = misses_of(run.script, run.account)
    lines = [f"{name}:{miss.line}: {miss.what}" for miss in misses]
    lines += [f"{name}:{line.call.line}: note: {line.note}" for line in run.account.lines if line.note]
    return Tested(name, lines, count_of(run.script), len(misses), True)


def test(program: Program, names: list[str], at_once: int) -> int:
    """Tests the files, so many at a time. The status is 1 where anything is wrong."""
    colours = has_colours(sys.stdout)
    expected = missed = 0
    with ThreadPoolExecutor(max_workers=at_once) as workers:
        for tested in workers.map(lambda name: test_file(program, name), names):
            for line in tested.lines:
                print(line)
            if tested.ran and not tested.expected:
                say(f"smack: {tested.name} has no line `# expect ..`, so it tests nothing but its writes")
            expected += tested.expected
            missed += tested.missed
    verdict = coloured(f"{missed:,} missed", "red" if missed else "green", colours)
    print(f"{counted(len(names), 'file')}, {counted(expected, 'expectation')}, {verdict}")
    return 1 if missed else 0
