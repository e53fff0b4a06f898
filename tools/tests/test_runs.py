"""Runs with a thread for each task, by the file smack: what is printed is one of the records that it may be."""

from tests.front_door import FrontDoorTest

TWO_WRITERS = "init fork B\nB write load2 2\nA X r\nA Y r\ninit write load2 2\nC X w\nC Y w\n"
BY_THE_CHILD = "j {} 1.1 2\no set A X r\no set A Y r\n"
BY_THE_PARENT = "j {} 0.2 2\no set C X w\no set C Y w\n"

# One task, whose own rules and own labels decide what it may do.
OWN_RULES = f"""init write load-self2 1
A _ r
init write load-self 1
{"A":24}{"A":24}-w---
init write relabel-self 1
A
init drop mac-admin
init relabel A
init relabel B
init drop mac-override
init list / 0
init create /f
init kill init 9
init take
init take
init trace read init
init trace attach init
init write load2 1
A A rwx
"""
OWN_RECORD = """smack 1
task 0 init
h 1 0.1 v0 self 1 A _ r
= ok
h 2 0.2 v0 self 1 A A w
= ok
h 3 0.3 v0 relabels 1 A
= ok
h 4 0.4 v0 drop mac-admin
= ok
h 5 0.5 v0 relabel A
= ok
h 6 0.6 v0 relabel B
= not-privileged
h 7 0.7 v0 drop mac-override
= ok
h 8 0.8 v0 list / 0
c A _ r allow 3
= names 0 0
h 9 0.9 v0 create /f
c A _ x deny 8
a action=denied fn=create subject=A object=_ requested=x case=8
= denied 8
h 10 0.10 v0 kill init 9
c A A w allow 5
= ok
h 11 0.11 v0 take
= signal 9
h 12 0.12 v0 take
= again
h 13 0.13 v0 trace read init
c A A r deny 8
a action=denied fn=trace subject=A object=A requested=r case=8
= denied 8
h 14 0.14 v0 trace attach init
c A A rw deny 8
a action=denied fn=trace subject=A object=A requested=rw case=8
= denied 8
q 0.15 v0 write load2
= not-privileged
end 0 14 1
"""


class TestRuns(FrontDoorTest):
    """Scripts that are run."""

    def run_of(self, script: str) -> str:
        """What a run of the script prints."""
        done = self.smack("run", self.file("run.smack", script))
        self.assertEqual((done.status, done.err), (0, ""))
        return done.out

    def test_batches_of_two_tasks_are_whole_in_either_order(self) -> None:
        head = "smack 1\ntask 0 init\ntask 1 B\n"
        tail = "h 1 0.1 v0 fork B\n= child 1\nend 2 1 0\n"
        first = head + BY_THE_CHILD.format(1) + BY_THE_PARENT.format(2) + tail
        second = head + BY_THE_PARENT.format(1) + BY_THE_CHILD.format(2) + tail
        for _ in range(30):
            self.assertIn(self.run_of(TWO_WRITERS), (first, second))

    def test_a_text_without_writes_is_a_batch(self) -> None:
        self.assertEqual(self.run_of("init write load2 0\n"), "smack 1\ntask 0 init\nj 1 0.1 0\nend 1 0 0\n")

    def test_a_task_takes_its_own_privilege(self) -> None:
        record = "smack 1\ntask 0 init\nj 1 0.1 2\no only-clear\no only-add Admin\n"
        record += "q 0.2 v1 write load2\n= not-privileged\nend 1 0 1\n"
        self.assertEqual(self.run_of("init write onlycap 1\nAdmin\ninit write load2 1\nA B r\n"), record)

    def test_a_run_of_one_task_prints_its_replay(self) -> None:
        replayed = self.smack("replay", given=OWN_RULES.encode())
        self.assertEqual((replayed.status, replayed.out, replayed.err), (0, OWN_RECORD, ""))
        self.assertEqual(self.run_of(OWN_RULES), OWN_RECORD)
