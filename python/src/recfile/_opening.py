"""Opening and making files."""

from __future__ import annotations

import errno
import fcntl
import os
from os import PathLike
from typing import Union

from . import _recfile
from ._file import File
from .errors import BadLimit, DeviceFault, NotARecordFile, NotClean, NotFound, device_fault

if _recfile.version() >> 16 != _recfile.VERSION_MAJOR:
    raise ImportError(f"librecfile has the version {_recfile.version() >> 16}, and {_recfile.VERSION_MAJOR} is needed")

Path = Union[str, bytes, "PathLike[str]", "PathLike[bytes]"]

ORDER, RECORDS, LOG, BEGINS = 16, 1_000_000, 4_000_000, 1_000_000
_MAGIC = b"BMKRFILE"


def open(path: Path, flag: str = "w", *, order: int = ORDER, records: int = RECORDS, log: int = LOG,
         begins: int = BEGINS) -> File:
    """Opens a page file, which no other program may have open to write.

    `flag` is as `dbm` has it: `w` opens a file that is there, `c` makes it where there is none, `n` takes the place of one
    that is there by a file without records, `r` only reads; and `x` makes a file where there must be none.

    `order`, 1 to 16, is that of a new file: a page has at most twice so many keys. `records` is how many the file may have,
    `log` how many log records may be needed and `begins` how many transactions may be begun before it is closed; each is
    the greatest that may be.

    Raises ValueError for another flag, BadLimit, NotFound, AlreadyThere, Locked, or another DeviceFault; NotARecordFile,
    NotClean (to read, and beside a log of commits), Damaged, BadJournal; Full for a file with more than `records`; OutOfMemory.
    """
    if flag not in ("r", "w", "c", "n", "x"):
        raise ValueError("flag is r, w, c, n or x")
    _check_limits(records, log, begins, order)
    shown = os.fsdecode(path)
    # Whole and without links, so that a change of the folder loses nothing, and as the side file beside it is named.
    name = os.path.realpath(os.fsencode(path))
    handle = _recfile.Handle()
    try:
        if flag == "r":
            _read(handle, name, records, log, begins)
        elif flag == "w":
            handle.open(name, records, log, begins)
        elif flag == "c":
            _open_or_create(handle, name, order, records, log, begins)
        else:
            if flag == "n":
                _remove(name)
            handle.create(name, order, records, log, begins)
    except DeviceFault as fault:
        fault.filename = shown
        raise
    return File(handle, name, shown, flag == "r")


def memory(*, records: int = RECORDS, log: int = LOG, begins: int = BEGINS) -> File:
    """An empty file in memory, which is gone when it is closed. Raises BadLimit, OutOfMemory."""
    _check_limits(records, log, begins, ORDER)
    handle = _recfile.Handle()
    handle.memory(records, log, begins)
    return File(handle, None, "in memory")


def _check_limits(records: int, log: int, begins: int, order: int) -> None:
    for limit, least, most, status in (
        (records, 1, RECORDS, _recfile.BAD_RECORDS),
        (log, 2, LOG, _recfile.BAD_LOG),
        (begins, 1, BEGINS, _recfile.BAD_BEGINS),
        (order, 1, ORDER, _recfile.BAD_ORDER),
    ):
        if not least <= limit <= most:
            raise BadLimit(status)


def _open_or_create(handle: _recfile.Handle, name: bytes, order: int, records: int, log: int, begins: int) -> None:
    """Opens a file, or makes it where there is none, or one that was made and never closed: such has no bytes."""
    try:
        handle.open(name, records, log, begins)
    except NotFound:
        handle.create(name, order, records, log, begins)
    except NotClean:
        raise
    except NotARecordFile:
        if os.stat(name).st_size != 0:
            raise
        _remove(name)
        handle.create(name, order, records, log, begins)


def _remove(name: bytes) -> None:
    """Takes a file away that no other program has open, with what stands beside it; nothing where there is none.

    Whatever isn't a record file is left alone. The file goes last, so that where this is stopped it can be done again.
    """
    call = "open"
    try:
        with os.fdopen(os.open(name, os.O_RDWR | os.O_CLOEXEC), "r+b", buffering=0) as file:
            call = "flock"
            fcntl.flock(file, fcntl.LOCK_EX | fcntl.LOCK_NB)
            call = "stat"
            if not os.path.samestat(os.fstat(file.fileno()), os.stat(name)):
                raise OSError(errno.ESTALE, "the file is another one now")
            call = "read"
            if file.read(len(_MAGIC)) not in (b"", _MAGIC):
                raise NotARecordFile(_recfile.BAD_MAGIC)
            call = "unlink"
            file.truncate(0)
            for end in (b"-journal", b"-journal-new", b"-commits", b"-commits-new"):
                if os.path.lexists(name + end):
                    os.unlink(name + end)
            os.unlink(name)
    except DeviceFault:
        raise
    except FileNotFoundError:
        return
    except OSError as fault:
        raise device_fault(call, fault.errno or 0) from None


def _read(handle: _recfile.Handle, name: bytes, records: int, log: int, begins: int) -> None:
    """Opens a file that is only read, which other readers may have too: its pages are read, and its lock is given up."""
    call = "open"
    try:
        with os.fdopen(os.open(name, os.O_RDONLY | os.O_CLOEXEC), "rb", buffering=0) as file:
            call = "flock"
            fcntl.flock(file, fcntl.LOCK_SH | fcntl.LOCK_NB)
            if os.path.lexists(name + b"-journal") or os.path.lexists(name + b"-commits"):
                raise NotClean
            handle.read(file.fileno(), records, log, begins)
    except DeviceFault:
        raise
    except OSError as fault:
        raise device_fault(call, fault.errno or 0) from None
