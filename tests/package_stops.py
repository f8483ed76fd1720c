"""Sessions of the Python package, stopped before each call by which they change a file or a name, and with each call failing.

    package_stops.py CRASH_LIBRARY    over the package as it is installed, with crash.c built as a library

After a stop the file opens with the old records or the new ones, and nothing stands beside it. A closing of which a call
failed has raised a DeviceFault, and is done when it is called again.
"""

import os
import subprocess
import sys
import tempfile
from pathlib import Path

import recfile

OLD = {b"k%02d" % i: b"old" for i in range(14)}
NEW = {**{b"k%02d" % i: b"new" for i in range(0, 14, 2)}, **{b"n%d" % i: b"v" * 90 for i in range(5)}}
FATES = ("noise", "1")
CLOSED, UNOPENED, GIVEN_UP, LATER = 0, 1, 10, 11  # how a session ends; LATER: closed at a later try


def session(path):
    """Puts new records in the place of the old ones, and closes the file, in three tries."""
    file = recfile.open(path, "c", order=2)
    file.clear()
    file.update(NEW)
    for failures in range(3):
        try:
            file.close()
        except recfile.DeviceFault:
            continue
        os._exit(LATER if failures else CLOSED)
    file.discard()
    os._exit(GIVEN_UP)


class Runs:
    """Sessions, each disturbed at one call by a variable of crash.c, from the first call until one isn't met."""

    def __init__(self, library, folder, variable, **others):
        self.path = folder / "f.rec"
        self.met = folder / "met"
        self.variable = variable
        self.environment = {**os.environ, "LD_PRELOAD": library, "MET": str(self.met), **others}

    def each(self, old):
        """Each session's number and status; before it there is a file of these bytes, or none."""
        number = 0
        while True:
            number += 1
            for path in self.path.parent.iterdir():
                path.unlink()
            if old is not None:
                self.path.write_bytes(old)
            ran = subprocess.run([sys.executable, __file__, "--session", self.path],
                                 env={**self.environment, self.variable: str(number)}, stderr=subprocess.DEVNULL)
            if not self.met.exists():
                assert ran.returncode == CLOSED, ran
                return
            self.met.unlink()
            yield number, ran.returncode

    def records(self):
        """What stands in the file, beside which nothing is left."""
        with recfile.open(self.path) as file:
            told = dict(file)
        beside = [name for name in os.listdir(self.path.parent) if name != "f.rec" and ".spare" not in name]
        assert beside == [], beside
        return told


def try_stops(library, folder, old):
    count = 0
    for fate in FATES:
        runs = Runs(library, folder, "STOP_AT", FATE=fate)
        for number, _ in runs.each(old):
            told = runs.records()
            assert told in (OLD, NEW), (fate, number, told)
            count += 1
    return count


def try_failures(library, folder, old):
    count = 0
    for variable in ("FAIL_AT", "FAIL_FROM"):
        runs = Runs(library, folder, variable)
        for number, status in runs.each(old):
            count += 1
            where = (variable, number, status)
            assert status in (CLOSED, LATER, UNOPENED, *([GIVEN_UP] if variable == "FAIL_FROM" else [])), where
            if status in (CLOSED, LATER):
                assert runs.records() == NEW, where
            elif old is not None:
                assert runs.records() == OLD or status == GIVEN_UP and runs.records() == NEW, where
            elif runs.path.exists() and variable == "FAIL_AT":
                assert runs.path.stat().st_size == 0, where
    return count


def main():
    if sys.argv[1] == "--session":
        session(sys.argv[2])
    library = os.path.abspath(sys.argv[1])
    room = "/dev/shm" if os.access("/dev/shm", os.W_OK) else None
    with tempfile.TemporaryDirectory(dir=room) as name:
        folder = Path(name)
        with recfile.open(folder / "f.rec", "x", order=2) as file:
            file.update(OLD)
        old = (folder / "f.rec").read_bytes()
        stops = try_stops(library, folder, old)
        failures = try_failures(library, folder, old) + try_failures(library, folder, None)
    print(f"packages: {stops} stops, {failures} failing calls ok")


if __name__ == "__main__":
    main()
