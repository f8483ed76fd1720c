"""The Python of the README, run in order; what it prints is what stands behind it."""

import contextlib
import io
import os
import re
import unittest
from pathlib import Path

from support import FileCase

README = Path(__file__).resolve().parent.parent / "README.md"


class Readme(FileCase):
    def test_it_prints_what_stands_there(self):
        blocks = re.findall(r"```python\n(.*?)```", README.read_text(), re.S)
        expected = re.findall(r"print\(.*\) +# (.*)", "".join(blocks))
        self.addCleanup(os.chdir, os.getcwd())
        os.chdir(self.folder)
        printed = io.StringIO()
        names = {}
        with contextlib.redirect_stdout(printed):
            for block in blocks:
                exec(block, names)
        self.assertEqual(printed.getvalue().splitlines(), expected)
        self.assertTrue(names["file"].closed)
        self.assertEqual(self.records(), {b"apple": b"green", b"fig": b"purple", b"plum": b"blue"})

    def records(self):
        self.path = self.folder / "fruit.rec"
        return super().records()


if __name__ == "__main__":
    unittest.main()
