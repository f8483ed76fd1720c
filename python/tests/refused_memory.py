"""Calls whose memory is refused: what is told, and that nothing is lost. test_memory.py runs it under refuse.c."""

import contextlib
import ctypes
import os
import unittest

import recfile
from support import FileCase

HOOK = ctypes.CDLL(os.environ["LD_PRELOAD"])
FROM, TO, GROWTHS = (ctypes.c_ulong.in_dll(HOOK, name) for name in ("from", "to", "growths"))
KEYS = [b"k%03d" % i for i in range(200)]


@contextlib.contextmanager
def refused(first=1, last=1 << 60):
    """The growths with these numbers find no memory."""
    GROWTHS.value, TO.value, FROM.value = 0, last, first
    try:
        yield
    finally:
        FROM.value = 0


class Refused(FileCase):
    def setUp(self):
        super().setUp()
        self.make({key: b"v" for key in KEYS}, order=1)
        self.file = self.open()

    def emptied(self):
        """A transaction that has taken every record out."""
        order = self.file.begin()
        for key in KEYS:
            del order[key]
        return order

    def test_calls_are_refused_and_change_nothing(self):
        order = self.file.begin()
        for name, call in {
            "entries": lambda: list(self.file.entries()), "put": lambda: order.put(b"new", b"x"),
            "claim": lambda: order.claim(b"other"), "memory": recfile.memory,
            "create": lambda: recfile.open(self.folder / "b.rec", "x"),
        }.items():
            with self.subTest(name), refused(), self.assertRaises(recfile.OutOfMemory):
                call()
        self.assertEqual((order.held(), len(self.file)), ([], 200))
        self.assertEqual(os.listdir(self.folder), ["f.rec"])

    def test_a_rollback_that_stops_is_gone_on_with(self):
        order = self.emptied()
        with refused(), self.assertRaises(recfile.Stopped) as caught:
            order.abort()
        stopped = caught.exception
        self.assertIsInstance(stopped.cause, recfile.OutOfMemory)
        self.assertEqual((stopped.undone + stopped.left, stopped.transaction), (200, order))
        self.assertEqual(order.status(), recfile.Status(True, True, 0, 0, stopped.left))
        self.assertEqual(len(order.held()), stopped.left)
        for call in (order.commit, order.abort, order.savepoint, lambda: order.put(b"x", b"y")):
            with self.assertRaises(recfile.Rolling):
                call()
        with refused(), self.assertRaises(recfile.Stopped) as again:
            stopped.resume()
        self.assertEqual(again.exception.resume(), again.exception.left)
        self.assertTrue(order.ended)
        self.assertEqual(dict(self.file), dict.fromkeys(KEYS, b"v"))

    def test_a_rollback_to_a_savepoint_that_stops(self):
        order = self.file.begin()
        savepoint = order.savepoint()
        for key in KEYS:
            del order[key]
        with refused(), self.assertRaises(recfile.Stopped):
            savepoint.rollback()
        with self.assertRaises(recfile.Rolling):
            savepoint.rollback()
        order.resume()
        order[b"new"] = b"x"
        self.assertEqual(savepoint.rollback(), 1)
        order.commit()
        self.assertEqual(len(self.file), 200)

    def test_a_block_whose_rollback_stops_tells_both(self):
        with self.assertRaises(recfile.Stopped) as caught:
            with self.file.begin() as order:
                for key in KEYS:
                    del order[key]
                FROM.value, TO.value, GROWTHS.value = 1, 1 << 60, 0
                raise LookupError("mine")
        FROM.value = 0
        self.assertIsInstance(caught.exception.__context__, LookupError)
        self.file.close()
        self.assertEqual(len(self.records()), 200)

    def test_a_closing_can_be_tried_again(self):
        order = self.emptied()
        with refused(), self.assertRaises(recfile.Stopped):
            self.file.close()
        self.assertFalse(order.ended)
        order.resume()
        self.file[b"k000"] = b"new"
        with refused(), self.assertRaises(recfile.OutOfMemory):
            self.file.close()
        self.assertFalse(self.file.closed)
        self.file.close()
        self.assertEqual(self.records(), {**dict.fromkeys(KEYS, b"v"), b"k000": b"new"})

    def session(self):
        """Some work; each call that is refused is made again, each rollback that stops is resumed. What it leaves."""
        file = again(lambda: recfile.open(self.path))
        one, two = again(file.begin), again(file.begin)
        for i in range(0, 60, 3):
            again(lambda: one.put(KEYS[i], b"one"))
            again(lambda: two.put(b"new%d" % i, b"two" * 30))
            again(lambda: two.remove(KEYS[i + 1]))
        savepoint = again(two.savepoint)
        for key in KEYS[100:140]:
            again(lambda: two.remove(key))
        back(two, savepoint.rollback)
        again(two.commit)
        back(one, one.abort)
        again(lambda: list(file.entries()))
        again(file.close)
        self.assertTrue(file.closed)

    def test_each_growth_in_turn(self):
        self.file.close()
        old = self.path.read_bytes()
        with refused(1 << 60):
            self.session()
            growths = GROWTHS.value
        records = self.records()
        self.assertGreater(growths, 20)
        for number in range(1, growths + 1):
            self.path.write_bytes(old)
            with refused(number, number if number % 2 else number + 3):
                self.session()
            self.assertEqual(self.records(), records, number)


def again(call):
    """What a call answers once its memory isn't refused."""
    while True:
        try:
            return call()
        except recfile.OutOfMemory:
            pass


def back(transaction, call):
    """Rolls back, and goes on where that stops."""
    try:
        return call()
    except recfile.Stopped as stopped:
        while True:
            try:
                return stopped.resume()
            except recfile.Stopped:
                pass


if __name__ == "__main__":
    unittest.main()
