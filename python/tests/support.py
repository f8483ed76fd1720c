"""What the tests have in common. They run over the package as it is installed, with `python3 -m unittest discover tests`."""

import os
import tempfile
import unittest
from pathlib import Path

import recfile

# Each closing syncs: in memory where the system has such a folder.
ROOM = "/dev/shm" if os.access("/dev/shm", os.W_OK) else None


class FileCase(unittest.TestCase):
    """A test with a folder of its own, and a path in it."""

    def setUp(self):
        folder = tempfile.TemporaryDirectory(dir=ROOM)
        self.addCleanup(folder.cleanup)
        self.folder = Path(os.path.realpath(folder.name))
        self.path = self.folder / "f.rec"

    def open(self, flag="w", **limits):
        """A file that is discarded at the end where it is still open."""
        file = recfile.open(self.path, flag, **limits)
        self.addCleanup(file.discard)
        return file

    def make(self, records, **limits):
        """A file with these records."""
        with recfile.open(self.path, "x", **limits) as file:
            file.update(records)

    def records(self):
        """What stands in the file on the disk."""
        with recfile.open(self.path, "r") as file:
            return dict(file)
