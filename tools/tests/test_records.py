"""Records of several tasks, with self rules, ptrace and mappings: the readers take any task and any reply,
also of verbs that the program does not have yet. The records are written by hand by docs/RECORD.md."""

import unittest

from smack_tools.account import Account, tell
from smack_tools.record import RecordError, read_record
from smack_tools.script import read_script


def account_of(script: str, record: str) -> Account:
    """The account of a script and its record."""
    return tell(read_script(script.encode()), read_record(record.encode()))


class TestTasks(unittest.TestCase):
    """Tasks that fork, and what they may do."""

    def test_a_child_inherits_and_the_list_governs(self) -> None:
        script = "init fork C\nC relabel Admin\ninit write onlycap 1\nAdmin\n"
        script += "init write load2 1\nA B r\nC write load2 1\nA B r\n"
        record = "smack 1\ntask 0 init\ntask 1 C\nj 1 0.2 2\no only-clear\no only-add Admin\nj 2 1.2 1\n"
        record += "o set A B r\nh 1 0.1 v0 fork C\n= child 1\nh 2 1.1 v0 relabel Admin\n= ok\n"
        record += "q 0.3 v1 write load2\n= not-privileged\nend 2 2 1\n"
        account = account_of(script, record)
        self.assertEqual(account.differences, [])
        self.assertEqual(account.writers, ["init", "init", "init", "C", "C"])
        self.assertEqual([line.answer[0] for line in account.lines], ["child", "ok", "ok", "not-privileged", "ok"])

    def test_a_capability_is_dropped_by_the_parent(self) -> None:
        script = "init drop mac-admin\ninit fork C\nC exit\ninit wait C\n"
        record = "smack 1\ntask 0 init\ntask 1 C\nh 1 0.1 v0 drop mac-admin\n= ok\nh 2 0.2 v0 fork C\n= child 1\n"
        record += "h 3 1.1 v0 exit\n= ok\nq 0.3 v0 wait C\n= ok\nend 0 3 1\n"
        account = account_of(script, record)
        self.assertEqual((account.differences, account.writers), ([], ["init", None, None, None]))

    def test_a_self_rule(self) -> None:
        script = "init write load2 1\nA B rw\ninit create /f\ninit setattr /f SMACK64 B\ninit relabel A\n"
        script += "init write load-self2 1\nA B r\ninit open /f w\ninit drop mac-override\ninit open /f w\n"
        record = "smack 1\ntask 0 init\nj 1 0.1 1\no set A B rw\nh 1 0.2 v1 create /f\nc _ _ x allow 3\n"
        record += "c _ _ rw allow 5\n= ok\nh 2 0.3 v1 setattr /f SMACK64 B\nc _ _ x allow 3\n= ok\n"
        record += "h 3 0.4 v1 relabel A\n= ok\nh 4 0.5 v1 self 1 A B r\n= ok\nh 5 0.6 v1 open /f w\n"
        record += "c A _ x allow 3\nc A B w allow 9 over 8\n= handle 0\nh 6 0.7 v1 drop mac-override\n= ok\n"
        record += "h 7 0.8 v1 open /f w\nc A _ x allow 3\nc A B w deny 8\n"
        record += "a action=denied fn=open subject=A object=B requested=w case=8\n= denied 8\nend 1 7 0\n"
        account = account_of(script, record)
        self.assertEqual(account.differences, [])
        self.assertEqual(account.lines[-1].reason, "self rule r of line 7 lacks w")
        self.assertFalse(account.lines[-1].checks[-1].mends)

    def test_ptrace(self) -> None:
        script = "init fork T\nT relabel Tgt\ninit write ptrace 1\n1\ninit trace attach T\n"
        script += "init write ptrace 1\n2\ninit trace attach T\n"
        record = "smack 1\ntask 0 init\ntask 1 T\nj 1 0.2 1\no ptrace 1\nj 2 0.4 1\no ptrace 2\n"
        record += "h 1 0.1 v0 fork T\n= child 1\nh 2 1.1 v0 relabel Tgt\n= ok\nh 3 0.3 v1 trace attach T\n"
        record += "c _ Tgt rw allow 9 over 10\n= ok\nh 4 0.5 v2 trace attach T\nc _ Tgt rw deny 10\n"
        record += "a action=denied fn=trace subject=_ object=Tgt requested=rw case=10\n= denied 10\nend 2 4 0\n"
        account = account_of(script, record)
        self.assertEqual(account.differences, [])
        self.assertEqual(account.lines[-1].reason, "ptrace policy 2 wants equal labels")

    def test_ptrace_of_equal_labels(self) -> None:
        script = "init write ptrace 1\n1\ninit trace attach init\n"
        record = "smack 1\ntask 0 init\nj 1 0.1 1\no ptrace 1\nh 1 0.2 v1 trace attach init\n"
        record += "c _ _ rw allow 10\n= ok\nend 1 1 0\n"
        account = account_of(script, record)
        self.assertEqual(account.differences, [])
        self.assertEqual(account.lines[-1].checks[0].reason, "ptrace policy 1 wants equal labels, as these are")

    def test_a_mapping(self) -> None:
        script = "init write load2 2\nM X rw\nT X r\ninit relabel T\ninit drop mac-override\n"
        script += "init open /f r\ninit map 0\n"
        record = "smack 1\ntask 0 init\nj 1 0.1 2\no set M X rw\no set T X r\nh 1 0.2 v1 relabel T\n= ok\n"
        record += "h 2 0.3 v1 drop mac-override\n= ok\nh 3 0.4 v1 open /f r\nc T _ x allow 3\nc T _ r allow 3\n"
        record += "= handle 0\nh 4 0.5 v1 map 0\nc T X w deny 11\n"
        record += "a action=denied fn=map subject=T object=X requested=w case=11\n= denied 11\nend 1 4 0\n"
        account = account_of(script, record)
        self.assertEqual(account.differences, [])
        self.assertEqual(
            account.lines[-1].reason, "the mapping rule of SMACK64MMAP: rule r of line 3 lacks w"
        )
        self.assertTrue(account.lines[-1].checks[-1].mends)


    def test_a_connection_is_asked_both_ways(self) -> None:
        script = "init fork S\nS relabel Srv\nS socket stream srv\ninit relabel Cli\ninit drop mac-override\n"
        script += "init write load2 1\nCli Srv w\ninit socket stream cli\ninit connect cli srv\n"
        record = "smack 1\ntask 0 init\ntask 1 S\nj 1 0.4 1\no set Cli Srv w\n"
        record += "h 1 0.1 v0 fork S\n= child 1\nh 2 1.1 v0 relabel Srv\n= ok\nh 3 1.2 v0 socket stream srv\n= ok\n"
        record += "h 4 0.2 v0 relabel Cli\n= ok\nh 5 0.3 v0 drop mac-override\n= ok\n"
        record += "h 6 0.5 v1 socket stream cli\n= ok\nh 7 0.6 v1 connect cli srv\n"
        record += "c Cli Srv w allow 6\nc Srv Cli w allow 9 over 7\n= ok\nend 1 7 0\n"
        self.assertEqual(account_of(script, record).differences, [])


class TestForms(unittest.TestCase):
    """Lines that have no known form."""

    def test_a_record_that_was_cut_short(self) -> None:
        with self.assertRaisesRegex(RecordError, "cut short"):
            read_record(b"smack 1\ntask 0 init\n")

    def test_an_unknown_line(self) -> None:
        with self.assertRaisesRegex(RecordError, "line 2 of the record"):
            read_record(b"smack 1\nz 0 init\nend 0 0 0\n")

    def test_lines_that_lack_words(self) -> None:
        script = read_script(b"init ask A A r\n")
        for lines in ("q 0.1 v0 ask A A r\n", "q 0.1 v0 ask A A r\n= allow\n", "q 1.1 v0 ask A A r\n= allow 5\n"):
            record = read_record(f"smack 1\ntask 0 init\n{lines}end 0 0 1\n".encode())
            with self.assertRaisesRegex(RecordError, "cannot be told"):
                tell(script, record)

    def test_another_format(self) -> None:
        with self.assertRaisesRegex(RecordError, "format 2"):
            read_record(b"smack 2\nend 0 0 0\n")
