"""Scripts at the limits of a script, and one more."""

from tests.front_door import Ended, FrontDoorTest


def onlycap(labels: list[str]) -> str:
    """A text of one line for onlycap."""
    return "init write onlycap 1\n" + " ".join(labels) + "\n"


def replies(record: str) -> list[str]:
    """The replies of a record, in order."""
    return [line for line in record.splitlines() if line.startswith("= ")]


class TestLimits(FrontDoorTest):
    """What is read at each limit, and what is said behind it."""

    def replay(self, script: str) -> Ended:
        """The replay of a script."""
        return self.smack("replay", self.file("limit.smack", script))

    def refused(self, script: str, status: int, line: str) -> None:
        """A script is refused with this status and this line, and nothing is printed."""
        said = self.replay(script)
        self.assertEqual((said.status, said.out), (status, ""))
        self.assertEqual(said.err.splitlines()[0], line)

    def test_most_tasks(self) -> None:
        forks = "".join(f"init fork T{n}\n" for n in range(63))
        said = self.replay(forks)
        self.assertEqual(said.status, 0)
        self.assertIn("\ntask 63 T62\n", said.out)
        self.refused(forks + "init fork T63\n", 7, "smack: too large: tasks")

    def test_most_bytes_of_a_text(self) -> None:
        """65,536 bytes in lines of two bytes each, and one byte more in the last of them."""
        most = "init write revoke-subject 32768\n" + "A\n" * 32_768
        said = self.replay(most)
        self.assertEqual(said.status, 0)
        self.assertTrue(said.out.endswith("\no revoke A\nend 1 0 0\n"))
        self.refused(most[:-1] + "A\n", 7, "smack: too large: text")

    def test_most_rows(self) -> None:
        """A list of n labels takes n + 2 rows: the list is cleared, each label is added, and the batch."""
        most = onlycap(["_"] * 32_000) * 32 + onlycap(["_"] * 24_510)
        self.assertEqual(32 * 32_002 + 24_512, 1_048_576)
        said = self.replay(most)
        self.assertEqual(said.status, 0)
        self.assertTrue(said.out.endswith("\nend 33 0 0\n"))
        self.refused(most + "init write load2 1\nA B z\ninit frob", 3, "smack: line 69: verb")
        self.refused(onlycap(["_"] * 32_000) * 32 + onlycap(["_"] * 24_511), 7, "smack: too large: rows")

    def test_most_labels(self) -> None:
        """65,530 labels beside the five that every table has."""
        labels = [f"{n:05}" for n in range(65_530)]
        most = "".join(onlycap(["_", *labels[at : at + 10_000]]) for at in range(0, 65_530, 10_000))
        said = self.replay(most + "init ask 00000 65529 r\n")
        self.assertEqual(said.status, 0)
        self.assertIn("\nq 0.8 v7 ask 00000 65529 r\n", said.out)
        self.refused(most + "init relabel 65530\n", 7, "smack: too large: labels")

    def test_most_self_rules(self) -> None:
        """256 rules of a task's own, and then one of another pair."""
        rules = "".join(f"init S{n} r\n" for n in range(256))
        most = f"init write load-self2 256\n{rules}"
        same = "init write load-self2 1\ninit S7 w\n"
        other = "init write load-self2 1\ninit other r\n"
        said = self.replay(most + same + other)
        self.assertEqual(said.status, 0)
        self.assertEqual(replies(said.out), ["= ok", "= ok", "= self-full"])

    def test_most_labels_of_a_task(self) -> None:
        """256 labels that a task may take, and one more."""
        labels = [f"L{n}" for n in range(257)]
        texts = [f"init write relabel-self 1\n{' '.join(labels[:count])}\n" for count in (256, 257)]
        said = self.replay("".join(texts))
        self.assertEqual(said.status, 0)
        self.assertEqual(replies(said.out), ["= ok", "= relabel-full"])
