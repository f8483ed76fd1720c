"""`python -m recfile` at a terminal: the program's shell with an edited line, its history, and completion; and in a pipe."""

import importlib.util
import os
import pty
import select
import subprocess
import sys
import time
import unittest
from pathlib import Path

from support import FileCase

PROGRAMS = Path(os.environ.get("RECFILE_PREFIX", "/usr")) / "bin"
UP = b"\x1b[A"
END = b"\x04"
INTERRUPT = b"\x03"
PROMPT = b"> "
HAS_READLINE = importlib.util.find_spec("readline") is not None


def surroundings(programs):
    return {**os.environ, "PATH": f"{programs}:/bin:/usr/bin", "TERM": "dumb"}


def end_of(key):
    """What the screen ends with once this is answered: nothing in particular, a prompt, or the key itself."""
    if key == END:
        return b""
    return PROMPT if key[-1:] in (b"\n", INTERRUPT) else key


def screen_of(words, keys):
    """What stands on a terminal after these keys, each typed once the last is answered, and the status."""
    child, terminal = pty.fork()
    if child == 0:
        os.execve(sys.executable, [sys.executable, "-m", "recfile", *words], surroundings(PROGRAMS))
    seen = b""

    def read(end):
        """Reads up to a prompt, or the echo of what is no whole line, or the end; ten seconds without any are too long."""
        nonlocal seen
        begun = len(seen)
        while not (end and len(seen) > begun and seen.endswith(end)) and select.select([terminal], [], [], 10)[0]:
            try:
                more = os.read(terminal, 65536)
            except OSError:
                return
            if not more:
                return
            seen += more

    read(PROMPT)
    for key in keys:
        if key == INTERRUPT:
            # Python loses a signal that comes between the echo of a key and its waiting for the next one.
            time.sleep(0.5)
        os.write(terminal, key)
        read(end_of(key))
    status = os.waitstatus_to_exitcode(os.waitpid(child, 0)[1])
    os.close(terminal)
    return seen.decode().replace("\r\n", "\n"), status


@unittest.skipUnless((PROGRAMS / "recfile").exists(), "there is no program recfile")
class Shell(FileCase):
    def screen(self, *keys):
        return screen_of([str(self.path)], [*keys, END])

    def test_a_session_is_that_of_the_program(self):
        self.make({b"a": b"x"})
        screen, status = self.screen(b"begin\n", b"put 1 b =y\n", b"log\n", b"commit 1\n")
        self.assertEqual(
            screen,
            "recfile> begin\nok 1\nrecfile [1]> put 1 b =y\nok none\nrecfile [1]> log\nok 1 2\n"
            "transaction 1, open: undo begins at 1\n     1            put b\n"
            "recfile [1]> commit 1\nok\nrecfile> \n1 transaction was committed, and is kept\n")
        self.assertEqual(status, 0)
        self.assertEqual(self.records(), {b"a": b"x", b"b": b"y"})

    @unittest.skipUnless(HAS_READLINE, "there is no readline")
    def test_a_name_is_completed(self):
        self.make({})
        screen, _ = self.screen(b"beg\t\n", b"cl\t 1 k\n")
        self.assertIn("recfile> begin \nok 1\n", screen.replace("begin\n", "begin \n"))
        self.assertIn("\nok none\n", screen)

    @unittest.skipUnless(HAS_READLINE, "there is no readline")
    def test_an_arrow_brings_back_a_line(self):
        self.make({})
        screen, _ = self.screen(b"begin\n", UP + b"\n")
        self.assertEqual(screen.count("ok "), 2)
        self.assertIn("\nok 2\nrecfile [1 2]> ", screen)

    def test_an_interrupt_ends_a_line_and_no_session(self):
        self.make({})
        screen, status = self.screen(b"begin\n", b"put 1 a", INTERRUPT, b"commit 1\n")
        self.assertIn("^C\nrecfile [1]> commit 1\nok\n", screen)
        self.assertEqual((status, self.records()), (0, {}))

    def test_a_file_that_is_missing(self):
        screen, status = screen_of([str(self.path)], [])
        self.assertTrue(screen.startswith("recfile: Device\n"), screen)
        self.assertEqual(status, 1)

    def test_a_pipe_is_the_program(self):
        self.make({b"a": b"x"})
        done = subprocess.run(
            [sys.executable, "-m", "recfile", str(self.path)], input=b"begin\nget 1 a\nfrob\n", capture_output=True,
            env=surroundings(PROGRAMS))
        self.assertEqual((done.stdout, done.stderr, done.returncode), (b"ok 1\nok =x\nbad UnknownCommand\n", b"", 0))

    def test_no_program(self):
        done = subprocess.run(
            [sys.executable, "-m", "recfile"], capture_output=True, env={**surroundings(self.folder), "PATH": str(self.folder)})
        self.assertEqual((done.stdout, done.returncode), (b"", 2))
        self.assertIn(b"not on the PATH", done.stderr)


if __name__ == "__main__":
    unittest.main()
