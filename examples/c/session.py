"""A session over a page file, by the shared library: what session.c does.

    session.py LIBRARY FILE          makes FILE, and opens it again
    session.py LIBRARY --list FILE   opens FILE, lists its records, and closes it
"""

import ctypes
import os
import sys

OK, CLOSED, HELD, STILL_OPEN = 0, 1, 9, 24
MAJOR = 1  # of the header that the structs below are taken from

u8, u32, u64 = ctypes.c_uint8, ctypes.c_uint32, ctypes.c_uint64


class Detail(ctypes.Structure):
    _fields_ = [("status", ctypes.c_int32), ("owner", u32), ("page", u32), ("undone", u32), ("left", u32),
                ("cause", ctypes.c_int32)]


class KeyBytes(ctypes.Structure):
    _fields_ = [("bytes", u8 * 16), ("len", u8)]


class Record(ctypes.Structure):
    _fields_ = [("bytes", u8 * 100), ("len", u8), ("is_there", u8)]


class Listed(ctypes.Structure):
    _fields_ = [("owner", u32), ("is_owned", u8), ("key", KeyBytes), ("value", Record)]


class Failure(ctypes.Structure):
    _fields_ = [("call", ctypes.c_char_p), ("error", ctypes.c_int)]


def text(shown):
    return bytes(shown.bytes[:shown.len]).decode()


class File:
    """A handle. A call that does not answer as it should raises."""

    def __init__(self, library):
        self.library = library
        self.handle = ctypes.c_void_p()
        self.detail = Detail()
        self.descriptor = ctypes.c_int(-1)
        library.recfile_free.restype = None
        library.recfile_status_text.restype = ctypes.c_char_p
        self.check(library.recfile_new(ctypes.byref(self.handle)), OK, "new")

    @staticmethod
    def check(status, expected, what):
        if status != expected:
            raise RuntimeError(f"{what}: status {status}")

    def call(self, name, *words, expected=OK):
        self.check(getattr(self.library, "recfile_" + name)(self.handle, *words), expected, name)

    def call_file(self, name, *words):
        """A call that works on the file."""
        failure = Failure()
        status = getattr(self.library, f"recfile_{name}_path")(self.handle, *words, ctypes.byref(self.detail),
                                                               ctypes.byref(failure))
        if status != OK:
            why = f": {failure.call.decode()}: {os.strerror(failure.error)}" if failure.call else ""
            raise OSError(f"{name}: {self.library.recfile_status_text(status).decode()}{why}")

    def number(self, name, *words, kind=u32):
        n = kind()
        self.call(name, *words, ctypes.byref(n))
        return n.value

    def put(self, tx, key, value, expected=OK):
        before = Record()
        key_bytes, value_bytes = key.encode(), value.encode()
        self.call("put", u32(tx), key_bytes, ctypes.c_size_t(len(key_bytes)), value_bytes,
                  ctypes.c_size_t(len(value_bytes)), ctypes.byref(before), ctypes.byref(self.detail), expected=expected)
        if expected == OK:
            print(f"put {tx} {key}: " + (f"before {text(before)}" if before.is_there else "none before"))

    def claim(self, tx, key):
        seen = Record()
        key_bytes = key.encode()
        self.call("claim", u32(tx), key_bytes, ctypes.c_size_t(len(key_bytes)), ctypes.byref(seen),
                  ctypes.byref(self.detail))
        print(f"claim {tx} {key}: " + (f"{text(seen)} there" if seen.is_there else "none there"))

    def taken_back(self, name, *words):
        undone = u32()
        self.call(name, *words, ctypes.byref(undone), ctypes.byref(self.detail))
        print(f"{undone.value} changes taken back")

    def list(self):
        count = u64()
        self.call("entries", ctypes.byref(count), ctypes.byref(self.detail))
        for i in range(count.value):
            told = Listed()
            self.call("entry", u64(i), ctypes.byref(told))
            print(f"{text(told.key)} = {text(told.value)}" + (f" (of {told.owner})" if told.is_owned else ""))
        print(f"{count.value} records")

    def list_keys(self, tx):
        for i in range(self.number("keys_of", u32(tx), kind=u64)):
            key = KeyBytes()
            self.call("key", u64(i), ctypes.byref(key))
            print(f"{tx} owns {text(key)}")

    def work(self):
        first, second = self.number("begin"), self.number("begin")
        self.put(first, "apple", "red")
        save = self.number("savepoint", u32(first))
        self.put(first, "apple", "green")
        self.put(first, "plum", "dark blue")
        self.put(second, "pear", "yellow")
        self.put(first, "pear", "brown", expected=HELD)
        print(f"pear is held by {self.detail.owner}")
        self.taken_back("rollback_to", u32(first), u32(save))
        found = Record()
        self.call("get", u32(first), b"apple", ctypes.c_size_t(5), ctypes.byref(found), ctypes.byref(self.detail))
        print(f"apple is {text(found)}")
        self.claim(second, "plum")
        self.put(first, "plum", "blue", expected=HELD)
        print(f"plum is held by {self.detail.owner}")
        self.list_keys(first)
        self.list_keys(second)
        self.list()
        print(f"log {self.number('log_len')} {self.number('log_use')}")
        self.call("close", ctypes.byref(self.detail), expected=STILL_OPEN)
        print(f"{self.detail.left} transactions are open")
        self.call("commit", u32(first))
        self.taken_back("abort", u32(second))

    def finish(self, path):
        """Closes the file, so that it is the old one or the new one wherever this is stopped."""
        self.call_file("close", path, self.descriptor)
        self.call("begin", ctypes.byref(u32()), expected=CLOSED)

    def make(self, path):
        self.call_file("create", path, ctypes.c_uint16(2), u32(1000), u32(1000), u32(1000),
                       ctypes.byref(self.descriptor))
        self.work()
        self.finish(path)

    def list_file(self, path):
        self.call_file("open", path, u32(1000), u32(1000), u32(1000), ctypes.byref(self.descriptor))
        self.list()
        self.finish(path)

    def free(self):
        self.library.recfile_free(self.handle)


def main(words):
    only_list = len(words) == 4 and words[2] == "--list"
    if len(words) != 3 and not only_list:
        print("usage: session.py LIBRARY [--list] FILE", file=sys.stderr)
        return 2
    library = ctypes.CDLL(words[1])
    library.recfile_version.restype = u32
    if library.recfile_version() >> 16 != MAJOR:
        raise RuntimeError("the library has another version")
    file = File(library)
    path = os.fsencode(words[-1])
    if not only_list:
        file.make(path)
    file.list_file(path)
    file.free()
    return 0


if __name__ == "__main__":
    sys.exit(main(sys.argv))
