"""Transactions, savepoints, lists: what is put, taken back, held and refused."""

import copy
import pickle
import signal
import unittest

import recfile
from support import FileCase


class MemoryCase(unittest.TestCase):
    def setUp(self):
        self.file = recfile.memory()
        self.addCleanup(self.file.discard)


class Rollbacks(MemoryCase):
    def test_an_exception_goes_back_to_the_savepoint(self):
        with self.file.begin() as order:
            order[b"apple"] = b"red"
            with self.assertRaises(ZeroDivisionError):
                with order.savepoint():
                    order[b"apple"] = b"green"
                    order[b"plum"] = b"blue"
                    1 / 0
            self.assertEqual((order[b"apple"], b"plum" in order), (b"red", False))
            self.assertEqual(order.held(), [b"apple"])
        self.assertEqual(dict(self.file), {b"apple": b"red"})

    def test_an_exception_goes_back_to_the_beginning(self):
        with self.assertRaises(KeyError):
            with self.file.begin() as order:
                order[b"apple"] = b"red"
                order[b"none"]
        self.assertTrue(order.ended)
        self.assertEqual((self.file.transactions, len(self.file)), ([], 0))

    def test_a_rollback_of_one_leaves_what_others_put(self):
        first, second = self.file.begin(), self.file.begin()
        first[b"apple"], second[b"pear"] = b"1", b"2"
        self.assertEqual(first.rollback(), 1)
        self.assertFalse(first.ended)
        first[b"plum"] = b"3"
        self.assertEqual(first.abort(), 1)
        second.commit()
        self.assertEqual(dict(self.file), {b"pear": b"2"})

    def test_a_block_may_end_its_transaction_itself(self):
        with self.file.begin() as order:
            order[b"apple"] = b"red"
            self.assertEqual(order.abort(), 1)
        with self.file.begin() as order:
            order.commit()
        self.assertEqual(len(self.file), 0)

    def test_savepoints_nest(self):
        with self.file.begin() as order:
            with order.savepoint() as outer:
                order[b"a"] = b"1"
                with order.savepoint() as inner:
                    order[b"b"] = b"2"
                    self.assertEqual((outer.number, inner.number), (1, 2))
                    self.assertEqual(inner.rollback(), 1)
                    order[b"c"] = b"3"
                self.assertEqual(order.status(), recfile.Status(False, False, 1, 2, 0))
                self.assertEqual(outer.rollback(), 2)
            self.assertEqual(order.held(), [])

    def test_a_savepoint_is_not_taken_for_another(self):
        order = self.file.begin()
        one, two = order.savepoint(), order.savepoint()
        one.release()
        order[b"a"] = b"1"
        three = order.savepoint()
        self.assertEqual(three.number, one.number)
        order[b"b"] = b"2"
        for call in (one.rollback, one.release, two.rollback):
            with self.assertRaises(recfile.NoSuchSavepoint):
                call()
        self.assertEqual(three.rollback(), 1)
        self.assertEqual(order.held(), [b"a"])
        order.rollback()
        with self.assertRaises(recfile.NoSuchSavepoint):
            three.release()


class Holding(MemoryCase):
    def test_a_held_key_tells_its_owner(self):
        first, second = self.file.begin(), self.file.begin()
        first[b"pear"] = b"x"
        for call in (
            lambda: second[b"pear"], lambda: second.get(b"pear"), lambda: second.put(b"pear", b"y"),
            lambda: second.claim(b"pear"), lambda: second.pop(b"pear"), lambda: second.remove(b"pear"),
            lambda: b"pear" in second, lambda: self.file[b"pear"], lambda: self.file.__setitem__(b"pear", b"z"),
            lambda: second.clear(),
        ):
            with self.assertRaises(recfile.Held) as caught:
                call()
            self.assertEqual((caught.exception.owner, caught.exception.key), (first.number, b"pear"))
        first.rollback()
        self.assertIsNone(second.put(b"pear", b"y"))

    def test_a_claim_takes_a_key_and_leaves_its_record(self):
        self.file[b"pear"] = b"x"
        first, second = self.file.begin(), self.file.begin()
        self.assertEqual((first.claim(b"pear"), first.claim(b"plum")), (b"x", None))
        self.assertEqual(first.held(), [b"pear", b"plum"])
        with self.assertRaises(recfile.Held):
            second[b"plum"]
        first.commit()
        self.assertEqual((second[b"pear"], b"plum" in second), (b"x", False))

    def test_what_stood_there_is_told(self):
        with self.file.begin() as order:
            self.assertIsNone(order.put(b"a", b"1"))
            self.assertEqual(order.put(b"a", b""), b"1")
            self.assertEqual(order.remove(b"a"), b"")
            with self.assertRaises(recfile.Absent) as caught:
                order.remove(b"a")
            self.assertEqual((caught.exception.key, str(caught.exception)), (b"a", "no record at the key b'a'"))
            self.assertEqual((order.get(b"a"), order.get(b"a", b"none")), (None, b"none"))


class Lists(MemoryCase):
    def test_ranges_and_owners(self):
        self.file.update({b"k%02d" % i: b"%d" % i for i in range(50)})
        order = self.file.begin()
        order[b"k07"] = b"seven"
        told = list(self.file.entries(b"k05", b"k09"))
        self.assertEqual([entry.key for entry in told], [b"k05", b"k06", b"k07", b"k08"])
        self.assertEqual(told[2], recfile.Entry(b"k07", b"seven", order.number))
        self.assertIsNone(told[1].owner)
        for start, stop, count in ((b"zz", None, 0), (None, b"a", 0), (b"k49", None, 1), (b"k4", b"k40\0", 1),
                                   (b"k", None, 50), (b"", b"k01", 1), (b"k09", b"k05", 0)):
            self.assertEqual(len(list(self.file.entries(start, stop))), count, (start, stop))

    def test_the_other_way(self):
        self.file.update({b"k%03d" % i: b"%d" % i for i in range(200)})
        told = [entry.key for entry in self.file.entries()]
        self.assertEqual(told, sorted(told))
        self.assertEqual([entry.key for entry in self.file.entries(reverse=True)], told[::-1])
        self.assertEqual(list(reversed(self.file)), told[::-1])
        for low, high in ((b"k1", b"k15"), (None, b"k0"), (b"k199", None), (b"k150", b"k05"), (b"", b""), (b"k", b""),
                          (b"k100" + 14 * b"\0", None), (None, b"k100" + 14 * b"\0"), (b"k100", b"k100\0")):
            inside = [key for key in told if (low is None or low <= key) and (high is None or key < high)]
            with self.subTest((low, high)):
                self.assertEqual(list(self.file.keys(low, high)), inside)
                self.assertEqual(list(self.file.keys(low, high, reverse=True)), inside[::-1])
                self.assertEqual(list(reversed(self.file.keys(low, high))), inside[::-1])
                self.assertEqual([key for key, _ in self.file.items(low, high)], inside)
                self.assertEqual([b"k%03d" % int(record) for record in self.file.values(low, high)], inside)

    def test_views_have_what_those_of_a_dict_have(self):
        self.file.update({b"a": b"1", b"b": b"2", b"c": b"3"})
        keys, items, values = self.file.keys(b"b"), self.file.items(b"b"), self.file.values(b"b", b"c")
        self.assertEqual((len(keys), len(self.file.keys()), len(items), len(values)), (2, 3, 2, 1))
        self.assertEqual((b"a" in keys, b"b" in keys, (b"b", b"2") in items, (b"b", b"1") in items), (False, True, True, False))
        self.assertEqual((b"2" in values, b"3" in values, keys & {b"a", b"c"}), (True, False, {b"c"}))
        self.assertEqual(dict(self.file.items()), dict(self.file))

    def test_a_range_goes_on_while_records_change(self):
        self.file.update({b"k%03d" % i: b"1" for i in range(0, 200, 2)})
        met = []
        for key in self.file.keys():
            met.append(key)
            self.file[b"k%03d" % (int(key[1:]) + 1)] = b"2"
        self.assertEqual(met, sorted(set(met)))
        self.assertTrue({b"k%03d" % i for i in range(0, 200, 2)} <= set(met))
        for key in self.file:
            del self.file[key]
        self.assertFalse(self.file)

    def test_ends_and_what_is_committed(self):
        self.assertEqual((self.file.first(), self.file.last(), len(self.file), bool(self.file)), (None, None, 0, False))
        self.file.update({b"a": b"1", b"b": b"2"})
        order = self.file.begin()
        order[b"a"] = b"3"
        order[b"c"] = b"4"
        del order[b"b"]
        self.assertEqual(self.file.first(), recfile.Entry(b"a", b"3", order.number))
        self.assertEqual(self.file.last(), recfile.Entry(b"c", b"4", order.number))
        self.assertEqual((len(self.file), [self.file.committed(key) for key in (b"a", b"b", b"c")]), (2, [b"1", b"2", None]))
        with self.assertRaises(recfile.EmptyKey):
            self.file.committed(b"")


class AsAMapping(MemoryCase):
    def test_what_dbm_has(self):
        file = self.file
        file[b"a"] = b"1"
        self.assertEqual((file.setdefault(b"b", b"2"), file.setdefault(b"b", b"3")), (b"2", b"2"))
        self.assertEqual((file.get(b"c"), file.get(b"c", b"d")), (None, b"d"))
        self.assertEqual((sorted(file.keys()), list(file.values()), len(file)), ([b"a", b"b"], [b"1", b"2"], 2))
        self.assertEqual((file.pop(b"a"), b"a" in file), (b"1", False))
        with self.assertRaises(KeyError):
            del file[b"a"]
        file.clear()
        self.assertEqual(len(file), 0)
        self.assertNotEqual(file, recfile.memory())
        self.assertEqual({file: 1}[file], 1)

    def test_an_update_is_all_or_nothing(self):
        with self.assertRaises(recfile.LongKey):
            self.file.update({b"a": b"1", b"k" * 17: b"2"})
        self.assertEqual(len(self.file), 0)


class Refusals(MemoryCase):
    def test_each_has_its_name(self):
        with recfile.memory(records=3, log=8, begins=6) as file:
            order = file.begin()
            for key, record, kind in ((b"", b"v", recfile.EmptyKey), (b"k" * 17, b"v", recfile.LongKey),
                                      (b"k", b"v" * 101, recfile.LongRecord)):
                with self.assertRaises(kind) as caught:
                    order[key] = record
                self.assertIsInstance(caught.exception, ValueError)
                self.assertIsInstance(caught.exception, recfile.Refused)
            order[b"a"] = order[b"b"] = order[b"c"] = b"v" * 100
            with self.assertRaises(recfile.Full):
                order[b"d"] = b"v"
            order[b"a"] = b"w"
            with self.assertRaises(recfile.LogFull):
                order[b"a"] = b"x"
            self.assertEqual(file.log_use(), (4, 8))
            with self.assertRaises(recfile.NotRolling):
                order.resume()
            order.abort()
            for call in (order.abort, order.commit, order.held, order.savepoint, lambda: order[b"a"]):
                with self.assertRaises(recfile.Ended):
                    call()
            for _ in range(5):
                file.begin().commit()
            with self.assertRaises(recfile.BeginsSpent):
                file.begin()

    def test_savepoints_have_a_limit(self):
        order = self.file.begin()
        savepoints = [order.savepoint() for _ in range(32)]
        with self.assertRaises(recfile.TooDeep):
            order.savepoint()
        savepoints[3].release()
        with self.assertRaises(recfile.NoSuchSavepoint):
            savepoints[9].rollback()
        self.assertEqual(order.savepoint().number, 4)

    def test_limits(self):
        for words in ({"records": 0}, {"records": 1_000_001}, {"log": 1}, {"begins": 1 << 40}, {"begins": -1}):
            with self.assertRaises(recfile.BadLimit) as caught:
                recfile.memory(**words)
            self.assertIn(next(iter(words)), str(caught.exception))

    def test_words_of_other_kinds(self):
        order = self.file.begin()
        for bad in ("text", 5, None, [b"a"], bytearray(b"a"), memoryview(b"a")):
            for call in (lambda: order.put(bad, b"v"), lambda: order.put(b"k", bad), lambda: order[bad],
                         lambda: order.claim(bad), lambda: order.remove(bad)):
                with self.assertRaises(TypeError):
                    call()
        with self.assertRaises(TypeError):
            self.file.entries("a", "b")
        self.assertEqual(len(self.file), 0)

    def test_bytes_of_another_kind_are_taken_as_they_are(self):
        class Liar(bytes):
            def __len__(self):
                return 16

        with self.file.begin() as order:
            order[Liar(b"a")] = Liar(b"v")
            self.assertEqual(order[b"a"], b"v")

    def test_what_holds_a_file_is_not_copied(self):
        order = self.file.begin()
        for thing in (self.file, order):
            with self.assertRaises(TypeError):
                pickle.dumps(thing)
            with self.assertRaises(TypeError):
                copy.copy(thing)

    def test_exceptions_go_to_another_process(self):
        for fault in (recfile.Held(3, b"k"), recfile.Absent(b"k"), recfile.LongKey(), recfile.Damaged(7),
                      recfile.NotARecordFile(26), recfile.StillOpen(2)):
            again = pickle.loads(pickle.dumps(fault))
            self.assertEqual((type(again), str(again), vars(again)), (type(fault), str(fault), vars(fault)))


class Signals(FileCase):
    def test_a_handler_may_use_the_file(self):
        file = recfile.memory()
        order = file.begin()
        order[b"a"], order[b"b"] = b"A" * 4, b"B" * 50
        seen = []
        before = signal.signal(signal.SIGALRM, lambda *_: seen.append(order[b"b"]))
        self.addCleanup(signal.signal, signal.SIGALRM, before)
        self.addCleanup(signal.setitimer, signal.ITIMER_REAL, 0)
        signal.setitimer(signal.ITIMER_REAL, 0.0002, 0.0002)
        for _ in range(3_000_000):
            if order[b"a"] != b"A" * 4 or len(seen) > 200:
                break
        signal.setitimer(signal.ITIMER_REAL, 0)
        self.assertEqual(order[b"a"], b"A" * 4)
        self.assertGreater(len(seen), 200)
        self.assertEqual(set(seen), {b"B" * 50})

    def test_a_begin_that_a_signal_broke_off(self):
        file = self.open("c")
        file._handle.begin()  # where a handler raises, no Transaction stands for it
        file[b"a"] = b"1"
        file.close()
        self.assertEqual(self.records(), {b"a": b"1"})


if __name__ == "__main__":
    unittest.main()
