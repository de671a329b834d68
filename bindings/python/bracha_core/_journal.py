"""The journal: a member's records in a file, in the format of `bracha run`."""

import ctypes
import fcntl
import os
import threading
from typing import NamedTuple, NoReturn, Self

from ._core import RECORD, Size
from ._library import Status, checked, declare, i32, pointer, size, text, u8, u16, u64, within

_head = declare("bracha_batch_head", i32, u64, u8, u8, u16, u8, pointer)
_encode = declare("bracha_batch_encode", i32, text, size, pointer, size, pointer)
_read = declare("bracha_batch_read", i32, u64, u8, u8, u16, u8, text, size, pointer, size, pointer, pointer)


class Member(NamedTuple):
    """A member: the number of its cluster, the cluster's size, and its own number."""

    cluster: int
    size: Size
    me: int

    def numbers(self) -> tuple[int, ...]:
        """Returns them, as the library takes them."""
        if not 0 <= self.cluster < 1 << 64:
            raise ValueError("a cluster's number has 64 bits")
        return self.cluster, *Size(*self.size).numbers(), within(self.me, 255, Status.NO_SUCH_MEMBER)


def journal_head(member: Member) -> bytes:
    """Returns the 25 bytes with which a new journal begins. The first batch is written at 24."""
    head = ctypes.create_string_buffer(25)
    checked(_head(*member.numbers(), head))
    return head.raw


def batch_bytes(records: bytes) -> bytes:
    """Returns the bytes of the first write of an append, to be written at the journal's end and synced. Then the byte 1 is
    written there, and synced. Fault: BAD_RECORDS if these aren't 1 to 65,535 records."""
    room = 4 + 6 * (len(records) // RECORD)
    batch, written = ctypes.create_string_buffer(room), ctypes.c_size_t()
    checked(_encode(bytes(records), len(records), batch, room, ctypes.byref(written)))
    return batch.raw[:written.value]


def read_journal(member: Member, file: bytes) -> tuple[bytes, int]:
    """Returns the records of a journal's bytes, and where the next batch is written. Fault: BAD_HEADER, OTHER_HEADER,
    BAD_RECORD, CUT_SHORT or OLD_VERSION if the bytes are no journal of this member; MEMORY; of the size or number."""
    room = len(file) // 6 * RECORD
    records, written, end = ctypes.create_string_buffer(room + 1), ctypes.c_size_t(), ctypes.c_size_t()
    status = _read(*member.numbers(), bytes(file), len(file), records, room, ctypes.byref(written), ctypes.byref(end))
    checked(status)
    return records.raw[:written.value], end.value


class Journal:
    """The journal of one member: `append` saves records as one batch, of which a crash leaves all or nothing.

    It holds the lock of its file, as `bracha run` does. After an OSError of `append` it is stopped: send nothing of that batch."""

    def __init__(self, descriptor: int, end: int) -> None:
        self._lock = threading.Lock()
        self._file, self._end, self._stopped = descriptor, end, False

    @classmethod
    def create(cls, path: str | os.PathLike[str], member: Member) -> Self:
        """Creates the journal of a new member in a file that isn't there yet, and syncs the file and its folder. Only ever create
        it once: a member whose journal is lost must not run again. OSError: there is a file, or the disk failed."""
        head = journal_head(member)
        file = os.open(path, os.O_RDWR | os.O_CREAT | os.O_EXCL | os.O_CLOEXEC, 0o666)
        journal = cls(file, len(head) - 1)
        fcntl.flock(file, fcntl.LOCK_EX | fcntl.LOCK_NB)
        journal._write(0, head)
        folder = os.open(os.path.dirname(os.path.abspath(path)), os.O_RDONLY | os.O_DIRECTORY)
        try:
            os.fsync(folder)
        finally:
            os.close(folder)
        return journal

    @classmethod
    def open(cls, path: str | os.PathLike[str], member: Member) -> tuple[Self, bytes]:
        """Opens the journal of a member that ran before, also one of `bracha run`, and returns its records with it. It syncs the file
        first: a member that was killed may have left a batch that no sync had reached. OSError: there is no file, another process
        has it, or the disk failed; Fault: it is no journal of this member."""
        file = os.open(path, os.O_RDWR | os.O_CLOEXEC)
        journal = cls(file, 0)
        fcntl.flock(file, fcntl.LOCK_EX | fcntl.LOCK_NB)
        os.fsync(file)
        with open(file, "rb", closefd=False) as whole:
            records, journal._end = read_journal(member, whole.read())
        return journal, records

    def _write(self, at: int, data: bytes) -> None:
        while data:
            written = os.pwrite(self._file, data, at)
            at, data = at + written, data[written:]
        os.fsync(self._file)

    def append(self, records: bytes) -> None:
        """Saves records as one batch: writes it behind a closed gate byte, syncs, opens the gate, syncs. Then the statements among
        them may be sent. OSError: the batch is there or not, and the journal is stopped; Fault: nothing was written."""
        with self._lock:
            if self._stopped:
                raise OSError("the journal's disk failed before")
            if not records:
                return
            batch = batch_bytes(records)
            self._stopped = True
            self._write(self._end, batch)
            self._write(self._end, b"\x01")
            self._stopped = False
            self._end += len(batch) - 1

    def close(self) -> None:
        """Closes the file, and with it the lock."""
        with self._lock:
            if self._file >= 0:
                file, self._file, self._stopped = self._file, -1, True
                os.close(file)

    def __reduce__(self) -> NoReturn:
        raise TypeError("a journal isn't copied: its file has one holder")

    def __del__(self) -> None:
        self.close()

    def __enter__(self) -> Self:
        return self

    def __exit__(self, *_: object) -> None:
        self.close()
