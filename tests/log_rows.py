"""A log of commits that was spoiled: cut at each length, and with a bit flipped in each byte of its text. Where a whole line of
its units is none of a log, or its head is gone or that of another file, a session answers BadCommits and changes nothing; else
it finds what the whole units say.

    python3 log_rows.py PROGRAM    in a folder with `file` and `file-commits`
"""
import pathlib
import subprocess
import sys
import urllib.parse

FILE, LOG = pathlib.Path("file"), pathlib.Path("file-commits")


def records_of(listed):
    """The records of a list."""
    words = [line.split(" ") for line in listed.splitlines()[:-1]]
    return {urllib.parse.unquote_to_bytes(key): urllib.parse.unquote_to_bytes(record[1:]) for _, key, record in words}


def is_number(word):
    return word.isdigit() and int(word) < 2**32


def write_of(line):
    """The key and the record that a line writes, None where it writes nothing; it raises ValueError where no log has it."""
    match [word for word in line.removesuffix(b"\r").split(b" ") if word]:
        case [] | [b"begin"]:
            return None
        case [word, *_] if word.startswith(b"#"):
            return None
        case [b"commit", number] if is_number(number):
            return None
        case [b"put", number, key, record] if is_number(number) and record.startswith(b"="):
            write = urllib.parse.unquote_to_bytes(key), urllib.parse.unquote_to_bytes(record[1:])
            if len(write[0]) <= 16 and len(write[1]) <= 100:
                return write
        case [b"del", number, key] if is_number(number):
            write = urllib.parse.unquote_to_bytes(key), None
            if len(write[0]) <= 16:
                return write
    raise ValueError


def finished(log):
    """The lines of the units that are whole."""
    lines = log.split(b"\0")[0].split(b"\n")[:-1]
    ends = [i for i, line in enumerate(lines) if line.startswith(b"c")]
    return lines[: ends[-1] + 1] if ends else []


def found(log, head, old):
    """The records that a session finds, or None where it answers BadCommits."""
    lines = finished(log)
    if not lines or not lines[0].startswith(b"commits 1 "):
        return None
    new = dict(old)
    try:
        writes = [write for write in map(write_of, lines[1:]) if write]
    except ValueError:
        return None
    for key, record in writes:
        new.pop(key, None)
        if record is not None:
            new[key] = record
    return new if lines[0] == head or new == old else None


def fail(what, answer):
    raise SystemExit(f"log_rows: FAILED: {what}: status {answer.returncode} {answer.stdout} {answer.stderr}")


def expect(what, log, wanted):
    """Runs a session beside this log."""
    FILE.write_bytes(file)
    LOG.write_bytes(log)
    answer = subprocess.run([program, "run", "file"], input=b"list\n", capture_output=True)
    if wanted is None:
        same = FILE.read_bytes() == file and LOG.read_bytes() == log
        if (answer.returncode, answer.stderr, same) != (1, b"recfile: BadCommits\n", True):
            fail(what, answer)
    elif answer.returncode or LOG.exists() or records_of(answer.stdout.decode()) != wanted:
        fail(f"{what}: {wanted}", answer)


program = sys.argv[1]
file, log = FILE.read_bytes(), LOG.read_bytes()
text = log[: log.index(b"\0")]
head = text[: text.index(b"\n")]
LOG.unlink()
old = records_of(subprocess.run([program, "run", "file"], input="list\n", capture_output=True, text=True).stdout)
bad = 0
cases = [(f"cut at {length}", log[:length]) for length in range(len(text) + 2)]
for place, byte in enumerate(text):
    cases.append((f"byte {place}", log[:place] + bytes([byte ^ 1 << place % 8]) + log[place + 1 :]))
for what, spoiled in cases:
    wanted = found(spoiled, head, old)
    bad += wanted is None
    expect(what, spoiled, wanted)
print(f"{len(cases)} logs spoiled, {bad} of them refused")
