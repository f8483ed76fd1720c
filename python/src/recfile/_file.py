"""Files, transactions and savepoints."""

from __future__ import annotations

import warnings
import weakref
from collections.abc import ItemsView, KeysView, MutableMapping, ValuesView
from types import TracebackType
from typing import Any, Callable, Dict, Iterator, List, NamedTuple, NoReturn, Optional, Tuple, Type

from . import _recfile
from .errors import Closed, DeviceFault, NoSuchSavepoint, ReadOnly, StillOpen, WrongProcess


class Entry(NamedTuple):
    """A record in a list. `owner` is the open transaction that owns the key, whose change may yet go back, or None."""

    key: bytes
    record: bytes
    owner: Optional[int]


class Status(NamedTuple):
    """What an open transaction is doing.

    It has `savepoints` savepoints and `live` changes. Where a rollback of it stopped, `is_rolling` is true, `left` changes
    are left to take back, and the transaction ends with that where `ends` is true.
    """

    is_rolling: bool
    ends: bool
    savepoints: int
    live: int
    left: int


class LogUse(NamedTuple):
    """`length` log records were written; with `use`, what the live changes may yet need counts too, up to `log`."""

    length: int
    use: int


class File(MutableMapping[bytes, bytes]):
    """An open file, which `recfile.open` and `recfile.memory` make.

    Work is done in transactions, from `begin`. As a mapping the file is what `dbm` gives: each change is a transaction of
    its own. Nothing is on the disk before `close`, or the end of a `with`.

    A file belongs to the thread that opened it: another one gets `WrongThread`, and a child of a fork `WrongProcess`.
    """

    def __init__(self, handle: _recfile.Handle, path: Optional[bytes], shown: str, is_read_only: bool = False) -> None:
        self._handle: Optional[_recfile.Handle] = handle
        self._path = path
        self._shown = shown
        self._is_read_only = is_read_only
        self._reader: Optional[Transaction] = None
        self._open: Dict[int, Transaction] = {}
        # Where the program loses the file, or ends, before it is closed.
        self._finalizer = weakref.finalize(self, _close_forgotten, handle, None if is_read_only else path, shown)

    def _ready(self) -> _recfile.Handle:
        if self._handle is None:
            raise Closed("the file is closed")
        return self._handle

    # Transactions

    def begin(self) -> Transaction:
        """Begins a transaction.

        In a `with` it is committed at the end, and an exception takes it back. Raises BeginsSpent, OutOfMemory, ReadOnly,
        Closed.
        """
        handle = self._ready()
        if self._is_read_only:
            raise ReadOnly("the file was opened to be read")
        transaction = Transaction(self, handle)
        self._open[transaction.number] = transaction
        return transaction

    @property
    def transactions(self) -> List[Transaction]:
        """Those that have not ended, in the order of their numbers."""
        self._ready()
        return list(self._open.values())

    def _reading(self) -> Transaction:
        handle = self._ready()
        if self._reader is None:
            self._reader = Transaction(self, handle)
        return self._reader

    # As a mapping

    def __getitem__(self, key: bytes) -> bytes:
        return self._reading()[key]

    def __contains__(self, key: object) -> bool:
        return key in self._reading()

    def __setitem__(self, key: bytes, record: bytes) -> None:
        with self.begin() as transaction:
            transaction[key] = record

    def __delitem__(self, key: bytes) -> None:
        with self.begin() as transaction:
            del transaction[key]

    def update(self, *others: Any, **named: Any) -> None:
        """As of a dict, in one transaction: all of it, or, where one record is refused, nothing."""
        with self.begin() as transaction:
            update: Callable[..., None] = transaction.update
            update(*others, **named)

    def clear(self) -> None:
        """Takes every record out, in one transaction."""
        with self.begin() as transaction:
            transaction.clear()

    # In key order

    def __iter__(self) -> Iterator[bytes]:
        return (entry.key for entry in self.entries())

    def __reversed__(self) -> Iterator[bytes]:
        return (entry.key for entry in self.entries(reverse=True))

    def __len__(self) -> int:
        """How many records there are, also those that open transactions have put."""
        return self._ready().count()

    def entries(
        self, low: Optional[bytes] = None, high: Optional[bytes] = None, *, reverse: bool = False
    ) -> Iterator[Entry]:
        """The records from `low` on and below `high`, in key order, or with the greatest key first.

        Also those that open transactions have put, with their owner, and without those that they have taken out. They are
        read some at a time, each time from the key on that came last: a record that is put or taken out meanwhile may be
        among them or not, and each key comes once. A transaction that needs them to stay claims them; a new key may still
        come between. Raises OutOfMemory, Damaged.
        """
        handle = self._ready()
        for bound in (low, high):
            if bound is not None and not isinstance(bound, bytes):
                raise TypeError(f"a key is bytes, and not {type(bound).__name__}")
        return _walk(handle, low, high, reverse)

    def keys(
        self, low: Optional[bytes] = None, high: Optional[bytes] = None, *, reverse: bool = False
    ) -> KeysView[bytes]:
        """Their keys: `entries` says which, and what they are while records change."""
        return _Keys(self, low, high, reverse)

    def values(
        self, low: Optional[bytes] = None, high: Optional[bytes] = None, *, reverse: bool = False
    ) -> ValuesView[bytes]:
        """Their records."""
        return _Values(self, low, high, reverse)

    def items(
        self, low: Optional[bytes] = None, high: Optional[bytes] = None, *, reverse: bool = False
    ) -> ItemsView[bytes, bytes]:
        """Their keys and records, in pairs."""
        return _Items(self, low, high, reverse)

    def first(self) -> Optional[Entry]:
        """The record of the least key, or None where there is none."""
        return next(map(Entry._make, self._ready().range(b"", True, False, 1)), None)

    def last(self) -> Optional[Entry]:
        """The record of the greatest key, or None where there is none."""
        return next(map(Entry._make, self._ready().range(b"", True, True, 1)), None)

    def committed(self, key: bytes) -> Optional[bytes]:
        """The record that stands at the key without the changes of open transactions, or None. Nobody's key is held here."""
        return self._ready().committed(key)

    def log_use(self) -> LogUse:
        """How much of the log is used: a change is refused with LogFull where it might need more than `log`."""
        handle = self._ready()
        return LogUse(handle.log_len(), handle.log_use())

    # The end

    @property
    def closed(self) -> bool:
        """Whether it is closed."""
        return not self._finalizer.alive

    def close(self) -> None:
        """Takes back what is open, and writes the file; a second call does nothing.

        The file is the old one or the new one wherever this is stopped. Where it raises a DeviceFault, as on a full disk,
        or OutOfMemory, the file is the old one: `close` can be called again, and `discard` gives up what was changed.
        Raises Stopped where a transaction can't be taken back: resume it, and close again.
        """
        handle = self._handle
        if handle is None or self.closed:
            return
        for transaction in self._unended():
            if transaction._status()[0]:
                transaction.resume()
            if not transaction.ended:
                transaction.abort()
        self._reader = None
        if self._path is not None and not self._is_read_only:
            _write(handle, self._path, self._shown)
        self._give_up(handle)

    def discard(self) -> None:
        """Gives up all that was changed since the file was opened, what was committed too. The file is the old one."""
        if self._handle is not None and not self.closed:
            self._give_up(self._handle)

    def _unended(self) -> List[Transaction]:
        return [*self._open.values(), *([] if self._reader is None else [self._reader])]

    def _give_up(self, handle: _recfile.Handle) -> None:
        handle.drop()
        for transaction in self._unended():
            transaction._forget()
        self._open.clear()
        self._reader = None
        self._handle = None
        self._finalizer.detach()

    def __enter__(self) -> File:
        self._ready()
        return self

    def __exit__(self, kind: Optional[Type[BaseException]], value: Optional[BaseException],
                 trace: Optional[TracebackType]) -> None:
        self.close()

    # Two files are never equal, though mappings compare by what is in them.
    def __eq__(self, other: object) -> bool:
        return self is other

    def __hash__(self) -> int:
        return id(self)

    def __repr__(self) -> str:
        return f"<recfile.File {self._shown}{' closed' if self.closed else ''}>"

    def __reduce__(self) -> NoReturn:
        raise TypeError("a recfile.File can't be pickled")


# How many entries are read at a time, and how many bytes a key may have.
_AT_A_TIME = 64
_KEY_WIDTH = 16


def _walk(handle: _recfile.Handle, low: Optional[bytes], high: Optional[bytes], is_down: bool) -> Iterator[Entry]:
    """The entries from `low` on and below `high`, read some at a time."""
    start, at_start = (high, False) if is_down else (low, True)
    if high is not None and not high:
        return
    if start is not None and len(start) > _KEY_WIDTH:  # no key is between its first bytes and the whole of it
        start, at_start = start[:_KEY_WIDTH], is_down
    key = start or b""
    while True:
        some = handle.range(key, at_start, is_down, _AT_A_TIME)
        for entry in map(Entry._make, some):
            if not is_down and high is not None and entry.key >= high or is_down and low is not None and entry.key < low:
                return
            yield entry
        if len(some) < _AT_A_TIME:
            return
        key, at_start = some[-1][0], False


class _Range:
    """The entries of a file between two keys."""

    def __init__(self, file: File, low: Optional[bytes], high: Optional[bytes], is_down: bool) -> None:
        self._mapping = file
        self._low, self._high, self._is_down = low, high, is_down
        file.entries(low, high)  # raises what those of these bounds do

    def _entries(self, is_turned: bool = False) -> Iterator[Entry]:
        return self._mapping.entries(self._low, self._high, reverse=self._is_down != is_turned)

    def _has(self, key: object) -> bool:
        return isinstance(key, bytes) and (self._low is None or self._low <= key) and (self._high is None or key < self._high)

    def __len__(self) -> int:
        return len(self._mapping) if self._low is None and self._high is None else sum(1 for _ in self._entries())

    def __repr__(self) -> str:
        return f"{type(self).__name__}({self._mapping!r}, {self._low!r}, {self._high!r})"


class _Keys(_Range, KeysView[bytes]):
    def __contains__(self, key: object) -> bool:
        return self._has(key) and key in self._mapping

    def __iter__(self) -> Iterator[bytes]:
        return (entry.key for entry in self._entries())

    def __reversed__(self) -> Iterator[bytes]:
        return (entry.key for entry in self._entries(True))


class _Values(_Range, ValuesView[bytes]):
    def __contains__(self, value: object) -> bool:
        return any(entry.record == value for entry in self._entries())

    def __iter__(self) -> Iterator[bytes]:
        return (entry.record for entry in self._entries())

    def __reversed__(self) -> Iterator[bytes]:
        return (entry.record for entry in self._entries(True))


class _Items(_Range, ItemsView[bytes, bytes]):
    def __contains__(self, item: object) -> bool:
        return isinstance(item, tuple) and len(item) == 2 and self._has(item[0]) and self._mapping.get(item[0]) == item[1]

    def __iter__(self) -> Iterator[Tuple[bytes, bytes]]:
        return ((entry.key, entry.record) for entry in self._entries())

    def __reversed__(self) -> Iterator[Tuple[bytes, bytes]]:
        return ((entry.key, entry.record) for entry in self._entries(True))


def _write(handle: _recfile.Handle, path: bytes, shown: str) -> None:
    """Writes a file and closes it, with what no Transaction stands for, as where a signal broke a begin off, taken back."""
    try:
        try:
            handle.close(path)
        except StillOpen:
            handle.end_all()
            handle.close(path)
    except DeviceFault as fault:
        fault.filename = shown
        raise


def _close_forgotten(handle: _recfile.Handle, path: Optional[bytes], shown: str) -> None:
    """Closes a file that its program left open, as it would have; nothing uses it any more."""
    try:
        handle.adopt()
    except WrongProcess:
        return
    if path is None:
        return
    try:
        _write(handle, path, shown)
    finally:
        warnings.warn(f"the recfile.File {shown} was not closed", ResourceWarning, stacklevel=2)


class Transaction(_recfile.Transaction, MutableMapping[bytes, bytes]):  # type: ignore[misc]
    """An open transaction, and the records as it sees them.

    A key that another open transaction owns is refused with Held, to be read too. Besides what a mapping has there are
    `put` and `remove`, which return the record that stood there, `claim`, which takes a key and leaves its record, and
    `held`, the keys that it owns. Iterating goes over the keys of the file, those that others have put among them.

    Every call raises Ended after the end. Where a rollback stopped, records are looked up and changed, savepoints set and the
    transaction ended after `resume` alone: before it they raise Rolling.
    """

    _file: File
    _savepoints: List[Savepoint]

    def __new__(cls, file: File, handle: _recfile.Handle) -> Transaction:
        transaction: Transaction = super().__new__(cls, handle, handle.begin())
        transaction._file = file
        # Those that are there. The library gives a number again once it is free, so that a number alone may be another's.
        transaction._savepoints = []
        return transaction

    @property
    def file(self) -> File:
        """The file that it is of."""
        return self._file

    def __iter__(self) -> Iterator[bytes]:
        self._status()
        return iter(self._file)

    def __len__(self) -> int:
        self._status()
        return len(self._file)

    def clear(self) -> None:
        """Takes every record out. Raises Held at the first that another transaction owns."""
        for key in self:
            self.remove(key)

    def savepoint(self) -> Savepoint:
        """Sets a savepoint. In a `with` it is released at the end, and an exception goes back to it. Raises TooDeep."""
        number = self._savepoint()
        savepoint = Savepoint(self, number)
        self._savepoints[number - 1:] = [savepoint]
        return savepoint

    def rollback(self) -> int:
        """Takes back all, stays open, and returns how many changes that were. Raises Stopped."""
        return self._roll_back_to(0)

    def _roll_back_to(self, number: int) -> int:
        if not self._status()[0]:
            del self._savepoints[number:]
        return self._rollback_to(number)

    def abort(self) -> int:
        """Takes back all, ends, and returns how many changes that were. Raises Stopped."""
        undone = self._abort()
        self._leave()
        return undone

    def resume(self) -> int:
        """Goes on with a rollback that stopped, and returns how many changes it took back. Raises Stopped, NotRolling."""
        undone = self._resume()
        if self.ended:
            self._leave()
        return undone

    def commit(self) -> None:
        """Ends; the changes stay, and are on the disk when the file is closed."""
        self._commit()
        self._leave()

    def _leave(self) -> None:
        self._file._open.pop(self.number, None)

    def status(self) -> Status:
        """What it is doing."""
        return Status(*self._status())

    def __enter__(self) -> Transaction:
        self._status()
        return self

    def __exit__(self, kind: Optional[Type[BaseException]], value: Optional[BaseException],
                 trace: Optional[TracebackType]) -> None:
        if self.ended:
            return
        if kind is None:
            self.commit()
        elif not self._status()[0]:
            self.abort()

    def __eq__(self, other: object) -> bool:
        return self is other

    def __hash__(self) -> int:
        return id(self)

    def __repr__(self) -> str:
        return f"<recfile.Transaction {self.number}{' ended' if self.ended else ''}>"

    def __reduce__(self) -> NoReturn:
        raise TypeError("a recfile.Transaction can't be pickled")


class Savepoint:
    """A place in a transaction, which `Transaction.savepoint` makes. In a `with`, an exception goes back to it."""

    __slots__ = ("_transaction", "_number")

    def __init__(self, transaction: Transaction, number: int) -> None:
        self._transaction = transaction
        self._number = number

    @property
    def number(self) -> int:
        """Its number, from 1."""
        return self._number

    def _is_there(self) -> bool:
        return self in self._transaction._savepoints

    def _standing(self) -> Transaction:
        self._transaction._status()
        if not self._is_there():
            raise NoSuchSavepoint
        return self._transaction

    def rollback(self) -> int:
        """Takes back all since it, and returns how many changes that were; it stays. Raises NoSuchSavepoint, Stopped."""
        return self._standing()._roll_back_to(self._number)

    def release(self) -> None:
        """Drops it and those above it; the changes stay. Raises NoSuchSavepoint."""
        transaction = self._standing()
        transaction._release(self._number)
        del transaction._savepoints[self._number - 1:]

    def __enter__(self) -> Savepoint:
        self._standing()
        return self

    def __exit__(self, kind: Optional[Type[BaseException]], value: Optional[BaseException],
                 trace: Optional[TracebackType]) -> None:
        transaction = self._transaction
        if transaction.ended or not self._is_there() or transaction._status()[0]:
            return
        if kind is not None:
            self.rollback()
        self.release()

    def __repr__(self) -> str:
        return f"<recfile.Savepoint {self._number} of {self._transaction!r}>"
