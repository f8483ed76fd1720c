"""What a call raises where it hasn't the result.

Every answer of the library is an `Error`, with `status`, its number in recfile.h, and `text`. What a program must not do,
as to use a file that is closed, is a `Misuse`.
"""

from __future__ import annotations

import errno
import os
from typing import TYPE_CHECKING, Dict, Optional, Tuple, Type

from . import _recfile

if TYPE_CHECKING:
    from ._file import Transaction


class Error(Exception):
    """An answer of recfile that isn't the result. `status` is its number in recfile.h."""

    status: int = 0

    def __init__(self, status: Optional[int] = None, text: Optional[str] = None) -> None:
        if status is not None:
            self.status = status
        self.text = _recfile.text(self.status) if text is None else text

    def __str__(self) -> str:
        return self.text


class Refused(Error):
    """A call that was refused, and changed nothing."""


class Held(Refused):
    """Another open transaction owns the key `key`: `owner` is its number. It does until it ends or goes back."""

    status = _recfile.HELD

    def __init__(self, owner: int, key: Optional[bytes]) -> None:
        self.owner = owner
        self.key = key
        super().__init__(text=f"transaction {owner} holds the key {key!r}")


class Absent(Refused, KeyError):
    """There is no record at the key `key`."""

    status = _recfile.ABSENT

    def __init__(self, key: Optional[bytes]) -> None:
        self.key = key
        super().__init__(text=f"no record at the key {key!r}")


class EmptyKey(Refused, ValueError):
    """A key has at least one byte."""

    status = _recfile.EMPTY_KEY


class LongKey(Refused, ValueError):
    """A key has at most 16 bytes."""

    status = _recfile.LONG_KEY


class LongRecord(Refused, ValueError):
    """A record has at most 100 bytes."""

    status = _recfile.LONG_RECORD


class BadLimit(Refused, ValueError):
    """A limit or an order that no file has: the text says which may be."""


class BeginsSpent(Refused):
    """As many transactions were begun as `begins` allows: close the file and open it again."""

    status = _recfile.BEGINS_SPENT


class LogFull(Refused):
    """Taking the change back might need more log than `log` allows: end, or close the file and open it again."""

    status = _recfile.LOG_FULL


class Full(Refused):
    """There would be more records and owned keys than `records` allows."""

    status = _recfile.FULL


class TooDeep(Refused):
    """The transaction has 32 savepoints: release one."""

    status = _recfile.TOO_DEEP


class NoSuchSavepoint(Refused):
    """The savepoint was released, or a rollback went behind it."""

    status = _recfile.NO_SUCH_SAVE


class Ended(Refused):
    """The transaction has ended."""

    status = _recfile.NO_SUCH_TX


class Rolling(Refused):
    """A rollback of the transaction stopped: `resume` it first."""

    status = _recfile.ROLLING


class NotRolling(Refused):
    """No rollback of the transaction stopped."""

    status = _recfile.NOT_ROLLING


class StillOpen(Refused):
    """`left` transactions have not ended."""

    status = _recfile.STILL_OPEN

    def __init__(self, left: int) -> None:
        self.left = left
        super().__init__(text=f"{left} transactions have not ended")


class OutOfMemory(Refused, MemoryError):
    """Memory was refused, and nothing has changed."""

    status = _recfile.MEMORY


class Stopped(Error):
    """A rollback stopped: it took `undone` changes back, and has `left` left, because of `cause`, another `Error`.

    Until `resume` has gone on with it, `transaction` is rolling, and owns the keys of what is left.
    """

    status = _recfile.STOPPED

    def __init__(self, transaction: Optional["Transaction"], undone: int, left: int, cause: BaseException) -> None:
        self.transaction = transaction
        self.undone = undone
        self.left = left
        self.cause = cause
        super().__init__(text=f"a rollback stopped after {undone} changes, with {left} left: {cause}")

    def resume(self) -> int:
        """Goes on, and returns how many changes were taken back. Raises another `Stopped` where it stops again."""
        if self.transaction is None:
            raise NotRolling
        return self.transaction.resume()


class DeviceFault(Error, OSError):
    """A call of the system's failed: `call` is its name; `errno` and `filename` are those of an `OSError`."""

    status = _recfile.DEVICE

    def __init__(self, call: str, number: int, path: Optional[str] = None) -> None:
        OSError.__init__(self, number, f"{call}: {os.strerror(number)}", path)
        self.call = call
        self.text = OSError.__str__(self)

    def __str__(self) -> str:
        return OSError.__str__(self)  # with the file name, which is known later than the fault

    def __reduce__(self) -> Tuple[Type[DeviceFault], Tuple[str, Optional[int], Optional[str]]]:
        return type(self), (self.call, self.errno, self.filename)


class NotFound(DeviceFault, FileNotFoundError):
    """There is no file at the path, or no folder for it."""


class AlreadyThere(DeviceFault, FileExistsError):
    """There is a file at the path."""


class Locked(DeviceFault, BlockingIOError):
    """Another program, or another handle of this one, has the file open."""


class NotARecordFile(Error):
    """The file isn't one, or isn't whole: `status` and `text` say which check failed first."""


class NotClean(NotARecordFile):
    """A closing of the file was stopped: an opening to write puts its old pages back. Or FILE-commits stands beside it, the
    commits of a durable session of the program recfile, whose next one puts them in."""

    status = _recfile.NOT_CLEAN


class Damaged(Error):
    """The page `page` isn't what a file wrote."""

    status = _recfile.DAMAGED

    def __init__(self, page: int) -> None:
        self.page = page
        super().__init__(text=f"page {page} is damaged")


class BadJournal(Error):
    """The side file beside the file isn't one of it. Nothing was changed."""

    status = _recfile.BAD_JOURNAL


class Misuse(RuntimeError):
    """A call that a program must not make."""


class Closed(Misuse):
    """The file is closed."""


class ReadOnly(Misuse):
    """The file was opened to be read."""


class WrongThread(Misuse):
    """A file is used by the thread that opened it."""


class WrongProcess(Misuse):
    """A file is used by the process that opened it: after a fork it is the parent's."""


# Those that carry nothing more than their status.
_BY_STATUS: Dict[int, Type[Error]] = {
    _recfile.EMPTY_KEY: EmptyKey,
    _recfile.LONG_KEY: LongKey,
    _recfile.LONG_RECORD: LongRecord,
    _recfile.BAD_RECORDS: BadLimit,
    _recfile.BAD_LOG: BadLimit,
    _recfile.BAD_BEGINS: BadLimit,
    _recfile.BAD_ORDER: BadLimit,
    _recfile.BEGINS_SPENT: BeginsSpent,
    _recfile.LOG_FULL: LogFull,
    _recfile.FULL: Full,
    _recfile.TOO_MANY_RECORDS: Full,
    _recfile.TOO_DEEP: TooDeep,
    _recfile.NO_SUCH_SAVE: NoSuchSavepoint,
    _recfile.NO_SUCH_TX: Ended,
    _recfile.ROLLING: Rolling,
    _recfile.NOT_ROLLING: NotRolling,
    _recfile.MEMORY: OutOfMemory,
    _recfile.BAD_LENGTH: NotARecordFile,
    _recfile.BAD_MAGIC: NotARecordFile,
    _recfile.BAD_VERSION: NotARecordFile,
    _recfile.BAD_HEADER: NotARecordFile,
    _recfile.WRONG_COUNT: NotARecordFile,
    _recfile.NOT_CLEAN: NotClean,
    _recfile.BAD_JOURNAL: BadJournal,
}

_BY_ERRNO: Dict[int, Type[DeviceFault]] = {
    errno.ENOENT: NotFound,
    errno.EEXIST: AlreadyThere,
    errno.EWOULDBLOCK: Locked,
}

_MISUSES: Dict[int, Tuple[Type[Misuse], str]] = {
    _recfile.CLOSED: (Closed, "the file is closed"),
    _recfile.WRONG_THREAD: (WrongThread, "a file is used by the thread that opened it"),
    _recfile.WRONG_PROCESS: (WrongProcess, "after a fork a file is its parent's: open it again once that has closed it"),
}


def device_fault(call: str, number: int, path: Optional[str] = None) -> DeviceFault:
    """The exception for a call of the system's that failed."""
    return _BY_ERRNO.get(number, DeviceFault)(call, number, path)


def fault_of(status: int, owner: int, page: int, undone: int, left: int, cause: int, call: Optional[str], number: int,
             transaction: Optional["Transaction"], key: Optional[bytes]) -> BaseException:
    """The exception for a status of the library, with what the status carries."""
    if status == _recfile.ENDED:
        is_closed = transaction is not None and transaction.file.closed
        return Closed("the file is closed") if is_closed else Ended(text="the transaction has ended")
    if status in _MISUSES:
        kind, text = _MISUSES[status]
        return kind(text)
    if status == _recfile.HELD:
        return Held(owner, key)
    if status == _recfile.ABSENT:
        return Absent(key)
    if status == _recfile.DAMAGED:
        return Damaged(page)
    if status == _recfile.STILL_OPEN:
        return StillOpen(left)
    if status == _recfile.STOPPED:
        why = fault_of(cause, 0, page, 0, 0, 0, None, 0, None, None)
        return Stopped(transaction, undone, left, why)
    if status == _recfile.DEVICE and call is not None:
        return device_fault(call, number)
    return _BY_STATUS.get(status, Error)(status)


_recfile.set_fault(fault_of)
