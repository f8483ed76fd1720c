"""Runs refused_memory.py in a process of its own, whose memory refuse.c refuses."""

import os
import shutil
import subprocess
import sys
import tempfile
import unittest
from pathlib import Path

HERE = Path(__file__).resolve().parent


@unittest.skipUnless(shutil.which("cc"), "there is no cc")
class RefusedMemory(unittest.TestCase):
    def test_refused_memory(self):
        room = tempfile.TemporaryDirectory()
        self.addCleanup(room.cleanup)
        hook = Path(room.name) / "refuse.so"
        subprocess.run(["cc", "-shared", "-fPIC", "-O1", "-o", hook, HERE / "refuse.c", "-ldl"], check=True)
        ran = subprocess.run([sys.executable, HERE / "refused_memory.py"], env={**os.environ, "LD_PRELOAD": str(hook)},
                             capture_output=True, text=True)
        self.assertEqual(ran.returncode, 0, ran.stderr)


if __name__ == "__main__":
    unittest.main()
