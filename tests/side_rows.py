"""What an opening of the built program makes of a side file, byte by byte: one of the pages 0 and 1 of a file of four pages,
with other bytes or another length, beside the file as a closing that was stopped leaves it. It is put back, or it is
BadJournal and both files stay as they are.

    python3 tests/side_rows.py [PROGRAM]
"""
import os
import pathlib
import struct
import subprocess
import sys
import tempfile

ROOT = pathlib.Path(__file__).resolve().parent.parent
PROGRAM = pathlib.Path(sys.argv[1] if len(sys.argv) > 1 else ROOT / "crates/recfile_program/out/recfile_program").resolve()
PAGE, BASIS, PRIME = 4096, 0xCBF29CE484222325, 0x100000001B3
PUT_BACK, BAD = "put back", "BadJournal"


def sum_on(total, text):
    for (word,) in struct.iter_unpack(">I", text):
        total = (total ^ word) * PRIME % 2**64
    return total


def with_sum(side):
    """The side file with the sum of its own bytes."""
    return side[:32] + struct.pack(">Q", sum_on(sum_on(BASIS, side[40:]), side[:32])) + side[40:]


def side_of(text, kept):
    """The side file of these pages of a file."""
    pages = [text[at : at + PAGE] for at in range(0, len(text), PAGE)]
    rest = BASIS
    for n, page in enumerate(pages):
        if n not in kept:
            rest = sum_on(rest, page)
    entries = b"".join(struct.pack(">I", n) + pages[n] for n in kept)
    front = b"BMKRJRNL" + struct.pack(">HHIIIQ", 2, 0, len(pages), len(kept), 0, rest)
    return with_sum(front + bytes(8) + entries)


def changed(side, bytes_at, summed):
    side = bytearray(side)
    for place, value in bytes_at:
        side[place] = value
    return with_sum(bytes(side)) if summed else bytes(side)


# Bytes with their places, whether the sum is made to fit them, and what an opening finds.
ROWS = [
    ([], False, PUT_BACK), ([], True, PUT_BACK),
    ([(48, 9)], False, BAD),
    # The first eight bytes; the version; bytes that are zero.
    ([(0, 0x43)], True, BAD), ([(9, 1)], True, BAD), ([(9, 3)], True, BAD), ([(11, 1)], True, BAD), ([(23, 1)], True, BAD),
    # The sum of the other pages.
    ([(24, 1)], True, BAD), ([(31, 0)], True, BAD),
    # How long the file was: shorter than the pages that are kept, and longer than the file is.
    ([(15, 1)], True, BAD), ([(15, 9)], True, BAD),
    # How many pages are kept.
    ([(19, 0)], True, BAD), ([(19, 1)], True, BAD), ([(19, 3)], True, BAD),
    # Their numbers: without page 0, one twice, one past the end.
    ([(43, 1), (4143, 0)], True, BAD), ([(4143, 0)], True, BAD), ([(4143, 4)], True, BAD), ([(43, 1), (4143, 2)], True, BAD),
]
LENGTHS = [0, 8, 39, 40, 4140, 8239, 8241, 12340]


def opened(file, side):
    """What an empty session makes of both: its status and fault, and what they are then; None where there is no file."""
    pathlib.Path("file").write_bytes(file)
    pathlib.Path("file-journal").write_bytes(side)
    done = subprocess.run([PROGRAM, "run", "file"], stdin=subprocess.DEVNULL, capture_output=True, timeout=60)
    left = pathlib.Path("file-journal")
    return done.returncode, done.stderr, pathlib.Path("file").read_bytes(), left.read_bytes() if left.exists() else None


def main():
    script = b"begin\nput 1 a =x\nput 1 b =y\nput 1 c =z\ncommit 1\n"
    subprocess.run([PROGRAM, "create", "--order", "1", "old"], check=True)
    subprocess.run([PROGRAM, "run", "old"], input=script, stdout=subprocess.DEVNULL, check=True)
    old = pathlib.Path("old").read_bytes()
    torn = old[:PAGE] + PAGE * b"\x08" + old[2 * PAGE :] + PAGE * b"\x00"
    side = side_of(old, [0, 1])
    rows = [(changed(side, bytes_at, summed), wanted) for bytes_at, summed, wanted in ROWS]
    rows += [(side[:length] + bytes(max(0, length - len(side))), BAD) for length in LENGTHS]
    for number, (beside, wanted) in enumerate(rows):
        right = (0, b"", old, None) if wanted == PUT_BACK else (1, b"recfile: BadJournal\n", torn, beside)
        found = opened(torn, beside)
        if found != right:
            raise SystemExit(f"side_rows: FAILED: row {number}: status {found[0]}, {found[1]}")
    print(f"side_rows: {len(rows)} passed, 0 failed")


with tempfile.TemporaryDirectory() as room:
    os.chdir(room)
    main()
    os.chdir(ROOT)
