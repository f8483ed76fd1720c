"""Nanoseconds of processor time a call, beside what Python brings: the least of so many rounds, in turn.

    bench/calls.py [ROUNDS]

Each round puts 5,000 records with keys in random order into something empty, looks them up, and puts them over, in one
transaction where there are such. Files lie in memory where the system has such a folder, and nothing is synced.
"""

import importlib
import os
import random
import sqlite3
import sys
import tempfile
import time
from pathlib import Path

import recfile

COUNT = 5_000
VALUE = b"v" * 20
ROOM = "/dev/shm" if os.access("/dev/shm", os.W_OK) else None


def keys_in_random_order():
    keys = [b"k%07d" % i for i in range(COUNT)]
    random.Random(7).shuffle(keys)
    return keys


KEYS = keys_in_random_order()


def put_all(mapping):
    for key in KEYS:
        mapping[key] = VALUE


def get_all(mapping):
    for key in KEYS:
        mapping[key]


class Mapping:
    """What is put into and looked up as a mapping is: `open` makes it, under a path."""

    def __init__(self, path):
        self.mapping = self.open(path)

    def put(self):
        put_all(self.mapping)

    def get(self):
        get_all(self.mapping)


class InMemory(Mapping):
    def open(self, path):
        self.file = recfile.memory()
        return self.file.begin()

    def close(self):
        self.file.discard()


class PageFile(InMemory):
    def open(self, path):
        self.file = recfile.open(path, "x")
        return self.file.begin()


class ATransactionEach(InMemory):
    def open(self, path):
        self.file = recfile.memory()
        return self.file


class Dictionary(Mapping):
    def open(self, path):
        return {}

    def close(self):
        pass


class Dbm(Mapping):
    kind = None

    def open(self, path):
        return self.kind.open(os.fspath(path), "c")

    def close(self):
        self.mapping.close()


class Sqlite:
    place = staticmethod(lambda path: ":memory:")

    def __init__(self, path):
        self.base = sqlite3.connect(self.place(path), isolation_level=None)
        self.base.execute("pragma journal_mode = off")
        self.base.execute("pragma synchronous = off")
        self.base.execute("create table records (key blob primary key, record blob) without rowid")
        self.base.execute("begin")

    def put(self):
        for key in KEYS:
            self.base.execute("insert or replace into records values (?, ?)", (key, VALUE))

    def get(self):
        for key in KEYS:
            self.base.execute("select record from records where key = ?", (key,)).fetchone()[0]

    def close(self):
        self.base.close()


class SqliteFile(Sqlite):
    place = staticmethod(os.fspath)


class Lmdb:
    kind = None

    def __init__(self, path):
        self.base = self.kind.open(os.fspath(path), map_size=1 << 28, sync=False, subdir=False)
        self.transaction = self.base.begin(write=True)

    def put(self):
        for key in KEYS:
            self.transaction.put(key, VALUE)

    def get(self):
        for key in KEYS:
            self.transaction.get(key)

    def close(self):
        self.transaction.abort()
        self.base.close()


def contestants():
    """Each by its name; those that this Python has."""
    found = {
        "recfile, in memory": InMemory,
        "recfile, a page file": PageFile,
        "recfile, a transaction for each call": ATransactionEach,
        "sqlite3, :memory:": Sqlite,
        "sqlite3, a file": SqliteFile,
        "dict": Dictionary,
    }
    for name in ("dbm.gnu", "dbm.ndbm"):
        try:
            kind = importlib.import_module(name)
        except ImportError:
            continue
        found[name] = type(name, (Dbm,), {"kind": kind})
    try:
        found["lmdb"] = type("lmdb", (Lmdb,), {"kind": importlib.import_module("lmdb")})
    except ImportError:
        pass
    return found


def round_of(kind):
    """Seconds for putting, looking up and putting over."""
    with tempfile.TemporaryDirectory(dir=ROOM) as folder:
        store = kind(Path(folder) / "f")
        took = []
        for call in (store.put, store.get, store.put):
            start = time.process_time()
            call()
            took.append(time.process_time() - start)
        store.close()
    return took


def main():
    rounds = int(sys.argv[1]) if len(sys.argv) > 1 else 20
    kinds = contestants()
    best = {name: [float("inf")] * 3 for name in kinds}
    for _ in range(rounds):
        for name, kind in kinds.items():
            best[name] = [min(pair) for pair in zip(best[name], round_of(kind))]
    print(f"{'Python ' + sys.version.split()[0]:38}{'put new':>9}{'get':>9}{'put over':>9}   beside recfile in memory")
    first = best["recfile, in memory"]
    for name, took in best.items():
        numbers = "".join(f"{seconds / COUNT * 1e9:9.0f}" for seconds in took)
        ratios = "".join(f"{seconds / base:7.1f}" for seconds, base in zip(took, first))
        print(f"{name:38}{numbers}  {ratios}")


if __name__ == "__main__":
    main()
