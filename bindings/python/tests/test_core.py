"""What the package promises, from outside. Run it by `python3 -m unittest discover -s tests` with BRACHA_LIBRARY set."""

import copy
import os
import tempfile
import threading
import unittest
from unittest import mock

import bracha_core as bracha
from bracha_core import Core, Decision, Fault, Feeder, Hello, Idle, Journal, Member, Outcome, Size, Statements, Status, Toss, Welcome

FOUR, ONE = Size(n=4, t=1, questions=2), Size(n=1, t=0, questions=1)
INITIAL = bytes([1, 0, 0, 0, 1, 1, 1])
MEMBER = Member(cluster=7, size=ONE, me=0)


def alone() -> tuple[bytes, list[tuple[int, bytes]]]:
    """Has a member by itself decide 1 on question 0, and returns its records and what it heard."""
    core = Core(ONE, 0)
    records, heard = core.propose(0, 1).records, list[tuple[int, bytes]]()
    while len(said := bracha.statements(records)) > len(heard):
        heard.append((0, said[len(heard)]))
        records += core.hear(0, heard[-1][1]).records
    assert core.verdict(0) == Decision(round=1, bit=1)
    return records, heard


class Cores(unittest.TestCase):
    def refuses(self, status: Status, call: object, *words: object) -> None:
        with self.assertRaises(Fault) as caught:
            call(*words)  # type: ignore[operator]
        self.assertIs(caught.exception.status, status)
        self.assertEqual(str(caught.exception), status.name)

    def test_version(self) -> None:
        self.assertEqual(bracha.library_version(), (0, 3, 0))

    def test_sizes(self) -> None:
        for size, status in [
            (Size(0, 0, 1), Status.NO_MEMBERS), (Size(65, 0, 1), Status.TOO_MANY_MEMBERS), (Size(3, 1, 1), Status.TOO_MANY_LIARS),
            (Size(4, 1, 0), Status.NO_QUESTIONS), (Size(4, 1, 4097), Status.TOO_MANY_QUESTIONS),
            (Size(256, 0, 1), Status.TOO_MANY_MEMBERS), (Size(4, 1, 65536), Status.TOO_MANY_QUESTIONS),
        ]:
            self.refuses(status, Core, size, 0)
            self.refuses(status, Feeder, size)
            self.refuses(status, bracha.audit, size, 0, 1, [])
        self.refuses(Status.NO_SUCH_MEMBER, Core, FOUR, 4)
        self.refuses(Status.NO_SUCH_MEMBER, Core, FOUR, 260)

    def test_records(self) -> None:
        self.refuses(Status.BAD_RECORDS, Core, FOUR, 0, INITIAL[:6])
        self.refuses(Status.BAD_RECORDS, Core, FOUR, 0, bytes([4, 0, 0, 0, 33, 0, 1]))
        self.refuses(Status.NO_SUCH_QUESTION, Core, FOUR, 0, bytes([4, 0, 2, 0, 1, 0, 1]))
        core = Core(FOUR, 0, bytes([4, 0, 1, 0, 2, 0, 1]))
        self.assertEqual([core.verdict(q) for q in (0, 1, 2, 65536, -1)], [None, Decision(2, 1), None, None, None])

    def test_answers(self) -> None:
        core = Core(FOUR, 1)
        self.assertEqual(core.hear(2, INITIAL).outcome, Outcome.FOREIGN)
        answer = core.hear(0, INITIAL)
        self.assertEqual((answer.outcome, answer.records), (Outcome.TAKEN, bytes([2, 0, 0, 0, 1, 1, 1])))
        self.assertEqual(core.hear(0, INITIAL), (Outcome.REPEAT, b""))
        self.refuses(Status.NO_SUCH_MEMBER, core.hear, 4, INITIAL)
        self.refuses(Status.NO_SUCH_MEMBER, core.hear, -1, INITIAL)
        self.refuses(Status.NO_SUCH_QUESTION, core.hear, 0, bytes([1, 0, 2, 0, 1, 1, 1]))
        self.refuses(Status.BAD_STATEMENT, core.hear, 0, INITIAL[:6])
        self.refuses(Status.BAD_STATEMENT, core.hear, 0, bytes([4, 0, 0, 0, 1, 1, 1]))
        self.assertEqual(core.propose(0, 0).outcome, Outcome.TAKEN)
        self.assertEqual(bracha.Have[core.propose(0, True).outcome], 0)
        self.assertEqual(core.propose(1, True, 5).outcome, Outcome.TAKEN)
        self.assertEqual(bracha.Have[core.propose(1, 0).outcome], 1)
        self.refuses(Status.NO_SUCH_QUESTION, core.propose, 65536, 0)
        with self.assertRaises(ValueError):
            core.propose(0, 2)

    def test_nothing_is_sent_if_it_was_not_saved(self) -> None:
        core = Core(FOUR, 1)
        with self.assertRaises(OSError):
            core.hear(0, INITIAL).save(mock.Mock(side_effect=OSError))
        nothing = mock.Mock()
        self.assertEqual(core.hear(0, INITIAL).save(nothing), [])
        nothing.assert_not_called()

    def test_closed(self) -> None:
        with Core(FOUR, 1) as core:
            pass
        core.close()
        with self.assertRaises(ValueError):
            core.hear(0, INITIAL)

    def test_threads(self) -> None:
        core = Core(Size(4, 1, 4096), 0)
        told = list[bytes]()

        def propose(first: int) -> None:
            for question in range(first, 4096, 4):
                told.append(core.propose(question, question % 2).records)

        threads = [threading.Thread(target=propose, args=(first,)) for first in range(4)]
        for thread in threads:
            thread.start()
        for thread in threads:
            thread.join()
        self.assertEqual(set(told), {bytes([1, q >> 8, q & 255, 0, 1, 1, q % 2]) for q in range(4096)})

    def test_audit(self) -> None:
        records, heard = alone()
        self.assertEqual(bracha.decisions(records), [(0, Decision(1, 1))])
        self.assertEqual([bracha.audit(ONE, 0, bit, heard) for bit in (0, 1)], [False, True])
        self.assertFalse(bracha.audit(ONE, 0, 1, heard[:3]))
        self.assertFalse(bracha.audit(ONE, 1, 1, heard))  # there is no such question
        self.assertFalse(bracha.audit(ONE, 0, 1, [(1, statement) for _, statement in heard]))  # there is no such member
        self.refuses(Status.NO_SUCH_MEMBER, bracha.audit, ONE, 0, 1, [(256, INITIAL)])
        self.refuses(Status.BAD_STATEMENT, bracha.audit, ONE, 0, 1, [(0, INITIAL[:3])])
        self.assertEqual(Core(ONE, 0, records).verdict(0), Decision(1, 1))

    def test_frames(self) -> None:
        self.assertEqual(bracha.IDLE.hex(), "000100")
        self.assertEqual(bracha.welcome_frame(1).hex(), "0009020000000000000001")
        self.assertEqual(bracha.statement_frame(INITIAL).hex(), "00080301000000010101")
        hello = Hello(version=2, cluster=7, size=Size(4, 1, 1), sender=0, to=1)
        self.assertEqual(bracha.hello_frame(hello).hex(), "001001020000000000000007040100010001")
        self.refuses(Status.NO_SUCH_MEMBER, bracha.hello_frame, hello._replace(to=4))
        self.refuses(Status.BAD_VERSION, bracha.hello_frame, hello._replace(version=3))
        self.refuses(Status.BAD_STATEMENT, bracha.statements_frame, [])
        self.refuses(Status.BAD_STATEMENT, bracha.statements_frame, [INITIAL] * 100)
        self.refuses(Status.BAD_STATEMENT, bracha.statements_frame, [INITIAL, bytes(7)])
        self.assertEqual(len(bracha.statements_frame([INITIAL] * 99)), 697)

    def test_feeder(self) -> None:
        size = Size(4, 1, 1)
        hello = Hello(version=1, cluster=(1 << 64) - 1, size=size, sender=3, to=0)
        messages = [hello, Welcome(1 << 40), Idle(), Statements([INITIAL]), Statements([INITIAL, INITIAL])]
        frames = [bracha.hello_frame(hello), bracha.welcome_frame(1 << 40), bracha.IDLE, bracha.statement_frame(INITIAL)]
        stream = b"".join([*frames, bracha.statements_frame([INITIAL, INITIAL])])
        for chunk in range(1, len(stream) + 1):
            feeder, told = Feeder(size), []
            for at in range(0, len(stream), chunk):
                feeder.feed(stream[at:at + chunk])
                told += feeder.messages()
            self.assertEqual(told, messages)
        self.refuses(Status.BROKEN, feeder.feed, b"\x03")
        self.refuses(Status.BROKEN, feeder.feed, b"")
        self.assertIsNone(feeder.next())

    def test_tosses(self) -> None:
        toss = Toss(bytes(32), 0)  # the first words of ChaCha20 with a key of zeros (RFC 8439, A.1)
        self.assertEqual([toss.draw().to_bytes(8, "little").hex() for _ in range(2)], ["76b8e0ada0f13d90", "405d6ae55386bd28"])
        self.assertNotEqual(Toss(bytes(32), 1).draw(), Toss(bytes(32), 0).draw())
        with self.assertRaises(ValueError):
            Toss(bytes(31), 0)

    def test_library_of_the_environment(self) -> None:
        self.assertEqual(bracha.ABI, 1)
        with mock.patch.dict(os.environ, BRACHA_LIBRARY="/nowhere/libbracha.so"), self.assertRaises(bracha.WrongLibrary):
            bracha._library._load()


class Journals(unittest.TestCase):
    def setUp(self) -> None:
        folder = tempfile.TemporaryDirectory()
        self.addCleanup(folder.cleanup)
        self.path = f"{folder.name}/member-0.journal"

    def test_opening_syncs(self) -> None:
        Journal.create(self.path, MEMBER).close()
        with mock.patch("os.fsync", side_effect=OSError("the disk failed")), self.assertRaises(OSError):
            Journal.open(self.path, MEMBER)
        with mock.patch("os.fsync", wraps=os.fsync) as synced:
            Journal.open(self.path, MEMBER)[0].close()
        synced.assert_called_once()

    def test_no_copies(self) -> None:
        with Journal.create(self.path, MEMBER) as journal:
            for one in (journal, Core(ONE, 0), Feeder(ONE)):
                for copied in (copy.copy, copy.deepcopy):
                    with self.assertRaises(TypeError):
                        copied(one)

    def test_saved(self) -> None:
        records, _ = alone()
        with Journal.create(self.path, MEMBER) as journal:
            journal.append(records[:7])
            journal.append(b"")
            journal.append(records[7:21])
            with self.assertRaises(OSError):  # it is locked
                Journal.open(self.path, MEMBER)
        with self.assertRaises(OSError):
            Journal.create(self.path, MEMBER)
        journal, found = Journal.open(self.path, MEMBER)
        self.assertEqual(found, records[:21])
        journal.append(records[21:])
        journal.close()
        self.assertEqual(Journal.open(self.path, MEMBER)[1], records)

    def test_threads_share_it(self) -> None:
        member, saved = Member(7, Size(4, 1, 160), 1), list[bytes]()

        def appends(first: int) -> None:
            for question in range(first, first + 20):
                record = bytes([2, 0, question, 0, 1, 1, 1])
                journal.append(record)
                saved.append(record)

        with Journal.create(self.path, member) as journal:
            threads = [threading.Thread(target=appends, args=(first,)) for first in range(0, 160, 20)]
            for thread in threads:
                thread.start()
            for thread in threads:
                thread.join()
        self.assertEqual(len(saved), 160)
        records = Journal.open(self.path, member)[1]
        self.assertEqual({records[at:at + 7] for at in range(0, len(records), 7)}, set(saved))

    def test_bytes(self) -> None:
        with Journal.create(self.path, Member(7, Size(4, 1, 1), 1)) as journal:
            journal.append(bytes([2, 0, 0, 0, 1, 1, 1]))
        with open(self.path, "rb") as file:  # the example of docs/FORMATS.md
            self.assertEqual(file.read().hex(), "4252414348414a320000000000000007040100010100000001000102000000011100")

    def test_a_failed_disk_stops_it(self) -> None:
        for fails_at in range(4):
            path = f"{self.path}-{fails_at}"
            with Journal.create(path, MEMBER) as journal:
                journal.append(INITIAL)
                calls = {"pwrite": os.pwrite, "fsync": os.fsync}
                made = []

                def call(name: str, *words: object) -> object:
                    made.append(name)
                    if len(made) > fails_at:
                        raise OSError("the disk failed")
                    return calls[name](*words)

                fakes = {name: lambda *words, name=name: call(name, *words) for name in calls}
                with mock.patch.multiple(os, **fakes), self.assertRaises(OSError):
                    journal.append(bytes([2, 0, 0, 0, 1, 1, 1]))
                self.assertEqual(made, ["pwrite", "fsync", "pwrite", "fsync"][:fails_at + 1])
                with self.assertRaises(OSError):
                    journal.append(bytes([3, 0, 0, 0, 1, 1, 1]))
            found = Journal.open(path, MEMBER)[1]
            self.assertEqual(len(found), 14 if fails_at == 3 else 7)

    def test_refused(self) -> None:
        with Journal.create(self.path, MEMBER) as journal:
            for bad in (INITIAL[:6], bytes([9, 0, 0, 0, 1, 1, 1]), INITIAL * 65536):
                with self.assertRaises(Fault) as caught:
                    journal.append(bad)
                self.assertIs(caught.exception.status, Status.BAD_RECORDS)
            journal.append(INITIAL)
        for other in (MEMBER._replace(cluster=8), MEMBER._replace(size=Size(1, 0, 2)), Member(7, FOUR, 1)):
            with self.assertRaises(Fault) as caught:
                Journal.open(self.path, other)
            self.assertIs(caught.exception.status, Status.OTHER_HEADER)
        with open(self.path, "rb") as file:
            whole = file.read()
        for length in range(len(whole)):
            with self.assertRaises(Fault) as caught:
                bracha.read_journal(MEMBER, whole[:length])
            self.assertIs(caught.exception.status, Status.BAD_HEADER if length < 24 else Status.CUT_SHORT)
        self.assertEqual(bracha.read_journal(MEMBER, whole), (INITIAL, len(whole) - 1))


if __name__ == "__main__":
    unittest.main()
