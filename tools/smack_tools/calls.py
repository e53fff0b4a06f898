"""The page of calls, docs/CALLS.md: a row for each verb that the program has. The tools have no other list of them."""

import re
from pathlib import Path

PAGE = Path(__file__).resolve().parents[2] / "docs" / "CALLS.md"
ROW = re.compile(r"^\| ((?:`[^`|]+`(?:, )?)+) \|", re.MULTILINE)
CALL = re.compile(r"`([^`]+)`")


def built_calls(page: str) -> list[list[str]]:
    """The words of each call of the page, the verb first, in the order of its rows."""
    return [call.split() for row in ROW.findall(page) for call in CALL.findall(row)]


def built_verbs() -> tuple[str, ...]:
    """The verbs of the page, each once."""
    return tuple(dict.fromkeys(words[0] for words in built_calls(PAGE.read_text())))
