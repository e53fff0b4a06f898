#!/usr/bin/env python3
"""Prints what `smack replay` takes for scripts of up to 4 MiB: the seconds for each MiB, and the
greatest memory as a multiple of the script, by GNU time (the Debian package time); and how long the
file smack takes before it starts the program. Build the program first, as by ./smack. A path as the
first word names another program."""

import os
import statistics
import subprocess
import sys
import tempfile
import time

MIB = 1 << 20
TOP = os.path.join(os.path.dirname(os.path.abspath(__file__)), "..")
PROGRAM = os.path.join(TOP, "smack")
BUILT = os.path.join(TOP, "crates", "smack", "out", "smack")


def asks(size):
    """Questions on 1,000 pairs, each line of 32 bytes, behind a policy of few rules."""
    head = "init write load2 1\nSubject0000 Object0000 rwx\n"
    lines = [head]
    left = (size - len(head)) // 32
    for i in range(left):
        n = i % 1000
        lines.append(f"init ask Subject{n:04} Obj{n:04} rw\n")
    return "".join(lines).encode()


def writes(size):
    """Sets of rules on 100 pairs, in texts of less than 60 KiB."""
    lines = []
    length = 0
    while True:
        text = [f"Subject{i % 100:020} Object{i % 10:020} rwxa\n" for i in range(1000)]
        block = "init write load2 1000\n" + "".join(text)
        if length + len(block) > size:
            return "".join(lines).encode()
        lines.append(block)
        length += len(block)


def creates(size):
    """Files of the root with names of six letters."""
    return "".join(f"init create /f{i:05}\n" for i in range(size // 20)).encode()


def lists(size, files=0, digits=1):
    """Listings of the root, which has so many files, with names of an f and at least so many digits."""
    head = "".join(f"init create /f{i:0{digits}}\n" for i in range(files))
    return (head + "init list / 0\n" * ((size - len(head)) // 14)).encode()


def measure(program, script):
    """The seconds and the greatest memory, in bytes, of one replay."""
    with tempfile.NamedTemporaryFile() as file, tempfile.NamedTemporaryFile("r") as said:
        file.write(script)
        file.flush()
        command = ["/usr/bin/time", "-f", "%M", "-o", said.name, program, "replay"]
        start = time.monotonic()
        with open(file.name, "rb") as source:
            subprocess.run(command, stdin=source, stdout=subprocess.DEVNULL, check=True)
        return time.monotonic() - start, int(said.read()) * 1024


def start_time(program):
    """The seconds of a replay of an empty script: the median of 101 runs."""
    seconds = []
    for _ in range(101):
        start = time.monotonic()
        subprocess.run([program, "replay"], stdin=subprocess.DEVNULL, stdout=subprocess.DEVNULL, check=True)
        seconds.append(time.monotonic() - start)
    return statistics.median(seconds)


def show(program, name, script):
    seconds, memory = measure(program, script)
    mib = len(script) / MIB
    print(f"{name} of {mib:.2f} MiB: {seconds / mib:.3f} s for each MiB, memory {memory / len(script):.1f} times the script")


def main():
    program = sys.argv[1] if len(sys.argv) > 1 else PROGRAM
    measure(program, b"")
    if program == PROGRAM:
        late = (start_time(PROGRAM) - start_time(BUILT)) * 1000
        print(f"the file smack starts the program after {late:.1f} ms")
    for name, make in (("asks", asks), ("writes", writes)):
        for size in (MIB, 4 * MIB):
            show(program, name, make(size))
    show(program, "creates", creates(MIB // 2))
    for files in (0, 1, 4, 16):
        show(program, f"lists of {files} names", lists(MIB, files))
    show(program, "lists of 16 names of seven letters", lists(MIB, 16, 6))


if __name__ == "__main__":
    main()
