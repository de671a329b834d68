"""The proved core of a member of asynchronous Byzantine agreement (Bracha 1987), for programs that have a network and a disk of
their own. It wraps the C library of include/bracha.h by ctypes; see docs/EMBEDDING.md.

The one rule is: save, sync, then send.

    core = Core(Size(n=4, t=1, questions=64), me, saved)   # all records of earlier lives
    for due in core.hear(sender, statement).save(journal.append):   # on the disk before anybody hears of it
        send_to_all(due)                                            # to yourself too: core.hear(me, due)
    decision = core.verdict(5)

A member that sends before it has saved may crash in between, and then contradict itself: that counts as lying. So does one that is
opened with fewer records than it sent. The links owe that the sender is authenticated, that each sender's statements stay in order,
and that everything arrives in the end.

The library is the file that the environment's BRACHA_LIBRARY names, else the system's libbracha.so.0. Every object may be used by
several threads: each takes one call at a time."""

from ._core import MOST_RECORDS, RECORD, Answer, Core, Decision, Have, Outcome, Size, audit, decisions, statements
from ._frames import (
    IDLE,
    Feeder,
    Hello,
    Idle,
    Message,
    Statements,
    Welcome,
    hello_frame,
    statement_frame,
    statements_frame,
    welcome_frame,
)
from ._journal import Journal, Member, batch_bytes, journal_head, read_journal
from ._library import ABI, Fault, Status, WrongLibrary, library_version
from ._toss import Toss

__all__ = [
    "ABI", "Answer", "Core", "Decision", "Fault", "Feeder", "Have", "Hello", "IDLE", "Idle", "Journal", "MOST_RECORDS", "Member",
    "Message", "Outcome", "RECORD", "Size", "Statements", "Status", "Toss", "Welcome", "WrongLibrary", "audit", "batch_bytes",
    "decisions", "hello_frame", "journal_head", "library_version", "read_journal", "statement_frame", "statements",
    "statements_frame", "welcome_frame",
]
