"""Page files: opening, closing, closing again, and what is left where a program doesn't close."""

import gc
import os
import resource
import signal
import subprocess
import sys
import threading
import unittest
import warnings

import recfile
from support import FileCase


class Opening(FileCase):
    def test_flags(self):
        for flag in "wr":
            with self.assertRaises(FileNotFoundError) as caught:
                recfile.open(self.path, flag)
            self.assertIsInstance(caught.exception, recfile.NotFound)
            self.assertEqual((caught.exception.filename, caught.exception.call), (str(self.path), "open"))
        for flag in "ccnx":
            if flag == "x":
                with self.assertRaises(recfile.AlreadyThere) as caught:
                    recfile.open(self.path, flag)
                self.assertIsInstance(caught.exception, FileExistsError)
                continue
            with recfile.open(self.path, flag) as file:
                file[b"a"] = file.get(b"a", b"") + flag.encode()
        self.assertEqual(self.records(), {b"a": b"n"})
        with self.assertRaises(ValueError):
            recfile.open(self.path, "w+")

    def test_words_that_no_file_has(self):
        self.make({b"a": b"1"})
        for words in ({"order": 0}, {"order": 17}, {"order": -1}, {"records": 0}, {"log": 1}, {"begins": 1 << 40}):
            with self.assertRaises(recfile.BadLimit):
                recfile.open(self.path, "n", **words)
        with self.assertRaises(ValueError):
            recfile.open("a\0b")
        self.assertEqual(self.records(), {b"a": b"1"})  # n hasn't taken the old file away
        with recfile.open(self.path) as file:
            file[b"b"] = b"2"
        with self.assertRaises(recfile.Full):
            recfile.open(self.path, records=1)

    def test_a_path_of_bytes_and_one_by_a_link(self):
        (self.folder / "link").symlink_to(self.path)
        with recfile.open(os.fsencode(self.path), "c") as file:
            file[b"a"] = b"1"
        with recfile.open(self.folder / "link") as file:
            file[b"b"] = b"2"
        self.assertTrue((self.folder / "link").is_symlink())
        self.assertEqual(self.records(), {b"a": b"1", b"b": b"2"})

    def test_what_is_no_record_file(self):
        for content in (b"x" * 4096, b"x" * 100):
            self.path.write_bytes(content)
            for flag in "wrcn":
                with self.assertRaises(recfile.NotARecordFile):
                    recfile.open(self.path, flag)
            self.assertEqual(self.path.read_bytes(), content)
        with self.assertRaises(recfile.DeviceFault):
            recfile.open(self.folder)
        with self.assertRaises(recfile.NotFound):
            recfile.open(self.folder / "no" / "f.rec", "c")

    def test_one_program_has_it(self):
        file = self.open("c")
        for flag in "wrcn":
            with self.assertRaises(recfile.Locked) as caught:
                recfile.open(self.path, flag)
            self.assertIsInstance(caught.exception, BlockingIOError)
            self.assertEqual(caught.exception.call, "flock")
        file.close()
        recfile.open(self.path).close()

    def test_readers(self):
        self.make({b"a": b"1"})
        before = self.path.stat().st_mtime_ns
        with recfile.open(self.path, "r") as file, recfile.open(self.path, "r") as other:
            self.assertEqual((dict(file), len(other)), ({b"a": b"1"}, 1))
            for call in (file.begin, file.clear, lambda: file.__setitem__(b"a", b"2")):
                with self.assertRaises(recfile.ReadOnly):
                    call()
            with recfile.open(self.path) as writer:
                writer[b"a"] = b"2"
                self.assertEqual(file[b"a"], b"1")
            self.assertGreater(self.path.stat().st_mtime_ns, before)
        (self.folder / "f.rec-journal").write_bytes(b"")
        with self.assertRaises(recfile.NotClean):
            recfile.open(self.path, "r")
        with self.assertRaises(recfile.BadJournal):
            recfile.open(self.path)

    def test_a_log_of_commits(self):
        self.make({b"a": b"1"})
        log = self.folder / "f.rec-commits"
        log.write_bytes(b"commits 1 2 3\n")
        before = self.path.read_bytes()
        for flag in "rwc":
            with self.assertRaises(recfile.NotClean):
                recfile.open(self.path, flag)
        self.assertEqual((self.path.read_bytes(), log.read_bytes()), (before, b"commits 1 2 3\n"))
        recfile.open(self.path, "n").close()
        self.assertFalse(log.exists())
        log.write_bytes(b"")
        self.path.unlink()
        with self.assertRaises(recfile.BadJournal):
            recfile.open(self.path, "c")
        self.assertFalse(self.path.exists())

    def test_a_damaged_page(self):
        self.make({b"a": b"1"})
        with open(self.path, "r+b") as file:
            file.seek(4096)
            file.write(b"\x07")
        with self.assertRaises(recfile.Damaged) as caught:
            recfile.open(self.path)
        self.assertEqual(caught.exception.page, 1)

    def test_a_file_that_was_made_and_never_closed(self):
        file = self.open("c")
        file[b"a"] = b"1"
        file.discard()
        self.assertEqual(self.path.stat().st_size, 0)
        with self.assertRaises(recfile.NotARecordFile):
            recfile.open(self.path)
        with recfile.open(self.path, "c") as file:
            file[b"a"] = b"2"
        self.assertEqual(self.records(), {b"a": b"2"})


class Closing(FileCase):
    def test_an_exception_leaves_what_was_committed(self):
        with self.assertRaises(ZeroDivisionError):
            with recfile.open(self.path, "c") as file:
                file[b"kept"] = b"1"
                order = file.begin()
                order[b"lost"] = b"2"
                1 / 0
        self.assertTrue(order.ended)
        self.assertEqual(self.records(), {b"kept": b"1"})

    def test_after_the_end(self):
        file = self.open("c")
        order = file.begin()
        savepoint = order.savepoint()
        file.close()
        file.close()
        self.assertTrue(file.closed)
        for call in (file.begin, lambda: file[b"a"], lambda: list(file), lambda: len(file), file.entries, file.log_use,
                     lambda: file.transactions, file.__enter__, order.commit, order.abort, order.resume, order.rollback,
                     order.savepoint, order.held, order.status, order.__enter__, lambda: order.put(b"a", b"b"),
                     lambda: order.get(b"a"), lambda: list(order), savepoint.rollback, savepoint.release):
            with self.assertRaises(recfile.Closed):
                call()

    def test_discard(self):
        self.make({b"a": b"1"})
        file = self.open()
        file[b"a"] = b"2"
        order = file.begin()
        order[b"b"] = b"3"
        file.discard()
        file.discard()
        with self.assertRaises(recfile.Closed):
            order[b"a"]
        self.assertEqual(self.records(), {b"a": b"1"})

    def test_another_folder_loses_nothing(self):
        self.addCleanup(os.chdir, os.getcwd())
        os.chdir(self.folder)
        file = recfile.open("f.rec", "c")
        file[b"a"] = b"1"
        os.chdir("/")
        file.close()
        self.assertEqual(self.records(), {b"a": b"1"})

    def test_it_can_be_tried_again(self):
        self.make({b"a": b"1"})
        file = self.open()
        file[b"a"] = b"2"
        away = self.folder / "away"
        self.path.rename(away)
        for _ in range(2):
            with self.assertRaises(recfile.DeviceFault) as caught:
                file.close()
            self.assertEqual((caught.exception.call, caught.exception.filename), ("realpath", str(self.path)))
            self.assertFalse(file.closed)
            with self.assertRaises(recfile.Closed):
                file.begin()
        away.rename(self.path)
        file.close()
        self.assertEqual(self.records(), {b"a": b"2"})

    def test_a_full_disk(self):
        records = {b"k%02d" % i: b"2" for i in range(90)}
        before = signal.signal(signal.SIGXFSZ, signal.SIG_IGN)
        self.addCleanup(signal.signal, signal.SIGXFSZ, before)
        limit = resource.getrlimit(resource.RLIMIT_FSIZE)
        self.addCleanup(resource.setrlimit, resource.RLIMIT_FSIZE, limit)
        for size in (0, 4096, 5000, 8192, 12288, 40000, 90000):
            for is_new in (False, True):
                with self.subTest(size=size, is_new=is_new):
                    self.path.unlink(missing_ok=True)
                    if not is_new:
                        self.make({b"k%02d" % i: b"1" for i in range(40)}, order=1)
                    old = None if is_new else self.path.read_bytes()
                    file = self.open("x" if is_new else "w", order=1)
                    file.update(records)
                    resource.setrlimit(resource.RLIMIT_FSIZE, (size, limit[1]))
                    for _ in range(2):
                        with self.assertRaises(recfile.DeviceFault):
                            file.close()
                    resource.setrlimit(resource.RLIMIT_FSIZE, limit)
                    if is_new:
                        self.assertEqual(self.path.stat().st_size, 0)
                    elif not (self.folder / "f.rec-journal").exists():
                        self.assertEqual(self.path.read_bytes(), old)
                    file.close()
                    self.assertEqual(self.records(), records)
                    self.assertEqual(os.listdir(self.folder), ["f.rec"])


class Forgetting(FileCase):
    """A file that its program doesn't close is closed where it is lost, with a warning."""

    def test_what_is_lost_is_closed(self):
        file = recfile.open(self.path, "c")
        file[b"a"] = b"1"
        order = file.begin()
        order[b"b"] = b"2"
        with self.assertWarns(ResourceWarning) as caught:
            del file, order
            gc.collect()
        self.assertIn("f.rec", str(caught.warning))
        self.assertEqual(self.records(), {b"a": b"1"})

    def run_program(self, text, *words):
        return subprocess.run([sys.executable, "-c", text, self.path, *words], capture_output=True, text=True)

    def test_the_end_of_the_program_closes(self):
        for end, status in (("", 0), ("1 / 0", 1), ("raise SystemExit(3)", 3)):
            with self.subTest(end=end):
                self.path.unlink(missing_ok=True)
                ran = self.run_program("import recfile, sys\nfile = recfile.open(sys.argv[1], 'c')\nfile[b'a'] = b'1'\n"
                                       "order = file.begin()\norder[b'b'] = b'2'\n" + end)
                self.assertEqual(ran.returncode, status)
                self.assertEqual(self.records(), {b"a": b"1"})

    def test_a_handler_of_the_end_may_close_too(self):
        for line in ("atexit.register(lambda: file.close())\nfile = recfile.open(sys.argv[1], 'c')",
                     "file = recfile.open(sys.argv[1], 'c')\natexit.register(lambda: file.close())"):
            with self.subTest(line):
                self.path.unlink(missing_ok=True)
                ran = self.run_program("import atexit, recfile, sys\n" + line + "\nfile[b'a'] = b'1'")
                self.assertEqual((ran.returncode, ran.stderr), (0, ""))
                self.assertEqual(self.records(), {b"a": b"1"})

    def test_a_program_that_is_killed_loses_what_it_did(self):
        self.make({b"a": b"1"})
        ran = self.run_program("import os, recfile, signal, sys\nfile = recfile.open(sys.argv[1])\nfile[b'a'] = b'2'\n"
                               "os.kill(os.getpid(), signal.SIGKILL)")
        self.assertEqual(ran.returncode, -signal.SIGKILL)
        self.assertEqual(self.records(), {b"a": b"1"})

    def test_a_child_writes_nothing_at_its_end(self):
        ran = self.run_program("import os, recfile, sys\nfile = recfile.open(sys.argv[1], 'c')\nfile[b'a'] = b'1'\n"
                               "if os.fork() == 0:\n    sys.exit(7)\n"
                               "status = os.wait()[1]\nassert os.path.getsize(sys.argv[1]) == 0\n"
                               "file[b'b'] = b'2'\nfile.close()\nsys.exit(os.waitstatus_to_exitcode(status))")
        self.assertEqual((ran.returncode, ran.stderr), (7, ""))
        self.assertEqual(self.records(), {b"a": b"1", b"b": b"2"})

    def test_a_file_of_a_thread_that_has_ended(self):
        held = []
        thread = threading.Thread(target=lambda: held.append(recfile.open(self.path, "c")))
        thread.start()
        thread.join()
        with warnings.catch_warnings():
            warnings.simplefilter("ignore", ResourceWarning)
            held.clear()
            gc.collect()
        self.assertEqual(self.records(), {})


class Elsewhere(FileCase):
    def calls(self, file, order):
        return (file.begin, file.close, file.discard, order.commit, order.held, lambda: order[b"a"], lambda: list(file),
                lambda: order.put(b"a", b"b"), lambda: file.__setitem__(b"a", b"b"))

    def test_another_thread_is_refused(self):
        file = self.open("c")
        order = file.begin()
        order[b"a"] = b"1"
        told = []

        def work():
            for call in self.calls(file, order):
                try:
                    call()
                except recfile.WrongThread:
                    told.append(call)

        threads = [threading.Thread(target=work) for _ in range(4)]
        for thread in threads:
            thread.start()
        for thread in threads:
            thread.join()
        self.assertEqual(len(told), 36)
        order.commit()
        file.close()
        self.assertEqual(self.records(), {b"a": b"1"})

    def test_a_child_is_refused(self):
        file = self.open("c")
        order = file.begin()
        order[b"a"] = b"1"
        child = os.fork()
        if child == 0:
            refused = 0
            for call in self.calls(file, order):
                try:
                    call()
                except recfile.WrongProcess:
                    refused += 1
            os._exit(refused)
        self.assertEqual(os.waitstatus_to_exitcode(os.waitpid(child, 0)[1]), 9)
        order.commit()
        file.close()
        self.assertEqual(self.records(), {b"a": b"1"})

    def test_a_thread_that_never_ends(self):
        program = """
import threading, recfile, time
def work():
    file = recfile.memory()
    while True:
        with file.begin() as order:
            for i in range(50):
                order[b"%d" % i] = b"v"
            order.abort()
threading.Thread(target=work, daemon=True).start()
time.sleep(0.3)
"""
        self.assertEqual(subprocess.run([sys.executable, "-c", program]).returncode, 0)


class Packaging(unittest.TestCase):
    def test_types_go_with_it(self):
        folder = os.path.dirname(recfile.__file__)
        for name in ("py.typed", "_recfile.pyi"):
            self.assertTrue(os.path.exists(os.path.join(folder, name)), name)

    def test_all_that_is_offered_is_there(self):
        for name in recfile.__all__:
            self.assertTrue(hasattr(recfile, name), name)
        documented = (recfile.File, recfile.Transaction, recfile.Savepoint)
        missing = [f"{kind.__name__}.{name}" for kind in documented for name in vars(kind)
                   if not name.startswith("_") and callable(getattr(kind, name)) and not getattr(kind, name).__doc__]
        self.assertEqual(missing, [])


if __name__ == "__main__":
    unittest.main()
