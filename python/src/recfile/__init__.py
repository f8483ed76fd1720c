"""A keyed record file for several open units of work.

    import recfile

    with recfile.open("fruit.rec", "c") as file:
        with file.begin() as order:
            order[b"apple"] = b"red"
            with order.savepoint():
                order[b"plum"] = b"blue"

Keys are bytes, 1 to 16 of them, and records 0 to 100. Work is written to the disk when the file is closed.
"""

from ._file import Entry, File, LogUse, Savepoint, Status, Transaction
from ._opening import memory, open
from .errors import (
    Absent, AlreadyThere, BadJournal, BadLimit, BeginsSpent, Closed, Damaged, DeviceFault, EmptyKey, Ended, Error, Full,
    Held, Locked, LogFull, LongKey, LongRecord, Misuse, NoSuchSavepoint, NotARecordFile, NotClean, NotFound, NotRolling,
    OutOfMemory, ReadOnly, Refused, Rolling, StillOpen, Stopped, TooDeep, WrongProcess, WrongThread,
)

__version__ = "1.0.0"

__all__ = [
    "Absent", "AlreadyThere", "BadJournal", "BadLimit", "BeginsSpent", "Closed", "Damaged", "DeviceFault", "EmptyKey",
    "Ended", "Entry", "Error", "File", "Full", "Held", "Locked", "LogFull", "LogUse", "LongKey", "LongRecord", "Misuse",
    "NoSuchSavepoint", "NotARecordFile", "NotClean", "NotFound", "NotRolling", "OutOfMemory", "ReadOnly", "Refused",
    "Rolling", "Savepoint", "Status", "StillOpen", "Stopped", "TooDeep", "Transaction", "WrongProcess", "WrongThread",
    "error", "memory", "open",
]

error = Error  # as dbm has it
