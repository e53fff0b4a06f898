"""What a terminal shows: colours, lines of a file with a caret under a word, letters that cannot be seen."""

import os
import sys

MOST_SHOWN = 240
CODES = {"red": 31, "green": 32, "yellow": 33, "faint": 2}


def has_colours(stream) -> bool:
    """Colours are for terminals alone."""
    return stream.isatty() and "NO_COLOR" not in os.environ and os.environ.get("TERM") != "dumb"


def coloured(text: str, colour: str, on: bool) -> str:
    """A text in a colour, where colours are on."""
    return f"\033[{CODES[colour]}m{text}\033[0m" if on and text else text


def seen(letter: str) -> str:
    """A letter as it can be seen."""
    names = {"\r": "<CR>", "\t": "<TAB>", "\ufeff": "<BOM>"}
    if letter in names:
        return names[letter]
    return letter if letter.isprintable() else f"<{letter_code(letter)}>"


def is_byte(letter: str) -> bool:
    """Whether a letter is one byte: ASCII, or a byte that is no part of a letter in UTF-8."""
    return letter <= "\x7f" or "\udc80" <= letter <= "\udcff"


def letter_code(letter: str) -> str:
    """The number of a letter: that of a byte has two digits."""
    return f"{ord(letter) & 0xFF:02x}" if is_byte(letter) else f"U+{ord(letter):04X}"


def readable(text: str) -> str:
    """A text as it can be seen, without the middle where it is long."""
    if len(text) > MOST_SHOWN:
        text = text[: MOST_SHOWN // 2] + " .. " + text[-MOST_SHOWN // 2 :]
    return "".join(map(seen, text))


def with_caret(number: int, line: str, at: int, width: int = 1) -> str:
    """A line of a file with its number, and carets under `width` letters from the place `at`. Of a long line
    it is the part around that place."""
    first = max(at - MOST_SHOWN // 2, 0) if len(line) > MOST_SHOWN else 0
    part = line[first : first + MOST_SHOWN]
    dots = ".. " if first else ""
    begin = f"  {number} | "
    shown = dots + "".join(map(seen, part)) + (" .." if first + len(part) < len(line) else "")
    before = dots + "".join(map(seen, part[: at - first]))
    under = "".join(map(seen, part[at - first : at - first + max(width, 1)]))
    return f"{begin}{shown}\n{' ' * (len(begin) - 2)}| {' ' * len(before)}{'^' * max(len(under), 1)}"


def say(text: str) -> None:
    """A line on standard error. Where that cannot be written, nothing is said there any more."""
    sys.stdout.flush()
    try:
        print(text, file=sys.stderr, flush=True)
    except OSError:
        sys.stderr = open(os.devnull, "w", encoding="utf-8")
