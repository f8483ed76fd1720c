"""The words of the built program: for each call its words, its script, what it writes, its fault and its status, over
files that it makes.

    python3 tests/program.py [PROGRAM]
"""
import os
import pathlib
import subprocess
import sys
import tempfile

ROOT = pathlib.Path(__file__).resolve().parent.parent
PROGRAM = pathlib.Path(sys.argv[1] if len(sys.argv) > 1 else ROOT / "crates/recfile_program/out/recfile_program").resolve()
USAGE = "Usage: recfile"
calls = 0


def fail(words, what):
    raise SystemExit(f"program: FAILED: recfile {words}: {what}")


def run(words, script=""):
    """Makes the call: its status, and what it wrote to standard output and to standard error."""
    global calls
    calls += 1
    done = subprocess.run([PROGRAM, *words.split()], input=script.encode(), capture_output=True, timeout=60)
    return done.returncode, done.stdout.decode(), done.stderr.decode()


def expect(words, script="", out="", err="", status=0):
    """Expects that of the call. Behind Device, and nothing else, stands why, which words.sh compares."""
    found_status, found_out, found_err = run(words, script)
    named, end, why = found_err.partition("\n")
    found = (found_status, found_out, named + end)
    if found != (status, out, err) or bool(why) != (err == "recfile: Device\n"):
        fail(words, f"{found} and {why!r}, and not {(status, out, err)}")


def expect_kept(path, words, script="", out="", err="", status=0):
    """Expects that of the call, and that the file has the bytes that it had."""
    bytes_before = pathlib.Path(path).read_bytes()
    expect(words, script, out, err, status)
    if pathlib.Path(path).read_bytes() != bytes_before:
        fail(words, f"{path} was changed")


def expect_usage(words, status):
    """Expects a fault of the words, or help, and nothing read and nothing made."""
    found, out, err = run(words, "begin\n")
    text, other = (out, err) if status == 0 else (err, out)
    if found != status or USAGE not in text or other:
        fail(words, f"status {found}, {out!r}, {err!r}")
    if pathlib.Path("no.rec").exists():
        fail(words, "a file was made")


def write_changed(path, text, *changes):
    """A file of these bytes with other ones at some places."""
    changed = bytearray(text)
    for place, value in changes:
        changed[place] = value
    pathlib.Path(path).write_bytes(changed)


# Three records at a, b and c, the replies, and what a check tells of their file of order 1.
THREE_RECORDS = "begin\nput 1 a =x\nput 1 b =y\nput 1 c =z\ncommit 1\n"
THREE_REPLIES = "ok 1\nok none\nok none\nok none\nok\n"
THREE_CHECKED = "order 1 height 2 records 3 pages 4 free 0\n"


def make_three(path):
    expect(f"create --order 1 {path}")
    expect(f"run {path}", THREE_RECORDS, THREE_REPLIES)
    expect_kept(path, f"check {path}", out=THREE_CHECKED)
    return pathlib.Path(path).read_bytes()


def two_sessions():
    """Committed changes are in the file afterwards, and those of open transactions aren't."""
    changes = "begin\nbegin\nbegin\nput 3 m =keep\ncommit 3\nput 1 a =x\nput 2 b =y\n"
    expect("create --order 2 two.rec")
    expect("check two.rec", out="order 2 height 0 records 0 pages 1 free 0\n")
    expect("run two.rec", changes, "ok 1\nok 2\nok 3\nok none\nok\nok none\nok none\n")
    expect("run two.rec", "list\n", "- m =keep\nok 1\n")
    expect("check two.rec", out="order 2 height 1 records 1 pages 2 free 0\n")
    expect_kept("two.rec", "create --order 2 two.rec", err="recfile: Device\n", status=1)
    expect("shell two.rec", "list", "- m =keep\nok 1\n")


def fruit():
    """A session, and its file with a byte of a page changed."""
    script = "begin\nbegin\nput 1 apple =red\nput 2 pear =yellow\ncommit 1\n"
    expect("create --order 2 fruit.rec")
    expect("dump fruit.rec", out="begin\ncommit 1\n")
    expect("run fruit.rec", script, "ok 1\nok 2\nok none\nok none\nok\n")
    expect("run fruit.rec", "list\n", "- apple =red\nok 1\n")
    expect("dump fruit.rec", out="begin\nput 1 apple =red\ncommit 1\n")
    expect("check fruit.rec", out="order 2 height 1 records 1 pages 2 free 0\n")
    write_changed("fruit.rec", pathlib.Path("fruit.rec").read_bytes(), (4096, ord("X")))
    for word in ("check", "dump"):
        expect_kept("fruit.rec", f"{word} fruit.rec", err="recfile: Damaged 1\n", status=1)


def a_dump_copies_a_file():
    """Every byte stands in a key and in a record. Keys that ascend leave 16 in each leaf and one above it: 14 times 17,
    and 18 in the last leaf, are 256 records in 15 leaves."""
    puts = "".join(f"put 1 %{byte:02x}k =a%{byte:02x}\n" for byte in range(256))
    expect("create --order 1 bytes.rec")
    expect("create --order 16 copy.rec")
    expect("run --strict bytes.rec", f"begin\n{puts}commit 1\n", "ok 1\n" + 256 * "ok none\n" + "ok\n")
    status, text, err = run("dump bytes.rec")
    if (status, err) != (0, "") or text.count("\n") != 258:
        fail("dump bytes.rec", (status, err))
    expect("run --strict copy.rec", text, "ok 1\n" + 256 * "ok none\n" + "ok\n")
    expect("dump copy.rec", out=text)
    expect("check copy.rec", out="order 16 height 2 records 256 pages 17 free 0\n")
    expect("run copy.rec", "begin\nget 1 %0ak\nget 1 %25k\nget 1 %ffk\n", "ok 1\nok =a%0A\nok =a%25\nok =a%FF\n")


# Words that ask for nothing.
FAULTY_WORDS = [
    "frob", "create", "create --order 2", "create --order 1 --order 2 no.rec", "run", "run no.rec more", "run --order 2 no.rec", "run --log 9 --log 9 no.rec",
    "run --strict --strict no.rec", "shell --order 2", "shell --strict --strict", "shell no.rec no.rec", "check",
    "check --records 1 no.rec", "check --strict no.rec", "dump", "dump --strict no.rec", "explain", "explain --strict no.rec",
    "copy", "copy no.rec", "copy no.rec no.rec no.rec", "copy --csv no.rec no.rec", "show", "show --svg --svg no.rec", "show --csv no.rec", "rescue", "rescue --csv no.rec", "load", "load --json no.rec",
    "dump --tsv --tsv no.rec", "memory no.rec",
]
HELP = ["--help", "create --help", "run --help", "shell --help", "check --help", "dump --help", "explain --help",
        "copy --help", "show --help", "rescue --help", "load --help", "memory --help"]
# Numbers beyond the ends of their ranges, and at them.
BEYOND = ["--records 0", "--records 1000001", "--log 1", "--log 4000001", "--begins 0", "--begins 1000001", "--begins -1", "--begins many"]


def words_that_ask_for_nothing():
    for words in FAULTY_WORDS:
        expect_usage(words, 2)
    for words in HELP:
        expect_usage(words, 0)
    beyond = [f"{word} {words}" for words in BEYOND for word in ("memory", "shell", "run no.rec")]
    for words in beyond + ["create --order 0 no.rec", "create --order 17 no.rec", "create --order two no.rec"]:
        status, out, err = run(words, "begin\n")
        if status != 2 or out or not err.startswith("error: "):
            fail(words, f"status {status}, {out!r}, {err!r}")


def numbers_at_the_ends_of_their_ranges():
    expect("memory --records 1 --log 2 --begins 1", "begin\nput 1 a =x\nput 1 b =x\nbegin\n",
           "ok 1\nok none\nno LogFull\nno BeginsSpent\n")
    expect("memory --begins 1000000 --log 4000000 --records 1", "begin\nput 1 a =x\nput 1 b =x\n", "ok 1\nok none\nno Full\n")
    expect("", "begin\nlist\n", "ok 1\nok 0\n")
    expect("--version", "begin\n", "recfile 1.0\n")
    expect("memory --strict", "#\nbegin\nget 1 a\ncommit 1", "ok 1\nok none\nok\n")
    expect("shell --records 1", "begin\nput 1 a =x\nput 1 b =x", "ok 1\nok none\nno Full\n")
    expect("shell --strict", "#\nbegin\nget 2 a\nbegin", "ok 1\nno NoSuchTx\n", "recfile: Refused 3\n", 3)
    expect("memory --strict", "begin\ncommit 1\ncommit 1", "ok 1\nok\nno NoSuchTx\n", "recfile: Refused 3\n", 3)


def files_that_are_not_opened():
    pathlib.Path("empty.rec").write_bytes(b"")
    pathlib.Path("short.rec").write_bytes(b"BMKRFILE")
    for word in ("run", "shell", "check", "dump"):
        for path in ("none.rec", "."):
            expect(f"{word} {path}", "begin\n", err="recfile: Device\n", status=1)
        for path in ("empty.rec", "short.rec"):
            expect_kept(path, f"{word} {path}", "begin\n", err="recfile: BadLength\n", status=1)


# Bytes that are put at a place in the file of three records, and the fault that the program names then.
DAMAGES = [
    (0, 0, "BadMagic"), (9, 9, "BadVersion 9"), (9, 1, "Damaged 3"), (11, 0, "BadOrder"), (11, 17, "BadOrder"),
    (24, 2, "NotClean"), (24, 3, "BadHeader"), (19, 4, "BadHeader"), (23, 4, "WrongCount"), (4105, 100, "Damaged 1"),
    (4099, 0, "Damaged 1"), (10192, 1, "Damaged 2"), (12539, 3, "Damaged 3"), (12539, 4, "Damaged 3"),
]


def damaged_files_are_named():
    text = make_three("three.rec")
    for place, value, fault in DAMAGES:
        write_changed("damaged.rec", text, (place, value))
        for word in ("check", "dump", "run"):
            expect_kept("damaged.rec", f"{word} damaged.rec", "begin\n", err=f"recfile: {fault}\n", status=1)
    expect_kept("three.rec", "run --records 2 three.rec", "begin\n", err="recfile: TooManyRecords\n", status=1)


def a_file_of_the_first_version():
    """A check leaves it as it is, and a session makes it one of the second. Byte 9 of page 0 is the version, and the sons
    of page 3 begin at its byte 108, and not at 244."""
    text = make_three("new.rec")
    write_changed("old.rec", text, (9, 1), (12399, 1), (12403, 2), (12535, 0), (12539, 0))
    expect_kept("old.rec", "check old.rec", out=THREE_CHECKED)
    expect("run old.rec")
    if pathlib.Path("old.rec").read_bytes() != text:
        fail("run old.rec", "the file is another")


def files_that_stay_as_they_are():
    """A script that is too long is not run, a session that changes nothing writes nothing, and a new file is not made over
    one that is there."""
    make_three("stays.rec")
    expect_kept("stays.rec", "run stays.rec", 131_073 * "begin\n#\n", err="recfile: ScriptTooLong\n", status=3)
    expect_kept("stays.rec", "run stays.rec", "begin\nput 1 a =w\nback 1 0\nget 1 a\n", "ok 1\nok =x\nok 1\nok =x\n")
    expect_kept("stays.rec", "run stays.rec", "begin\nbegin\nclaim 1 a\nclaim 2 d\ncommit 1\nclaim 2 a\n",
                "ok 1\nok 2\nok =x\nok none\nok\nok =x\n")
    expect_kept("stays.rec", "create --order 3 stays.rec", err="recfile: Device\n", status=1)
    expect_kept("stays.rec", "run --strict stays.rec", "# a batch\n\nbegin\nput 1 a =w\nput 2 b =w\ncommit 1\n",
                "ok 1\nok =x\nno NoSuchTx\n", "recfile: Refused 5\n", 3)
    expect_kept("stays.rec", "run --strict stays.rec", "begin\nput 1 a =w\nput 1 b w\ncommit 1\n",
                "ok 1\nok =x\nbad NoRecordMark\n", "recfile: Refused 3\n", 3)
    expect_kept("stays.rec", "run stays.rec")


def savepoints_have_a_greatest_depth():
    script = "begin\n" + 32 * "save 1\n" + "save 1\nrelease 1 0\nback 1 33\nrelease 1 32\nsave 1\nback 1 0\nrelease 1 1\nsave 1\n"
    replies = "".join(f"ok {n}\n" for n in range(1, 33))
    expect("memory", script, f"ok 1\n{replies}no TooDeep\nno NoSuchSave\nno NoSuchSave\nok\nok 32\nok 0\nno NoSuchSave\nok 1\n")


def a_thousand_records_go_back():
    puts = "".join(f"put 1 k{n} ={n}\n" for n in range(1000))
    expect("memory", f"begin\nsave 1\n{puts}log\nback 1 1\nlist\nlog\n",
           "ok 1\nok 1\n" + 1000 * "ok none\n" + "ok 1000 2000\nok 1000\nok 0\nok 2000 2000\n")


def a_rollback_over_a_thousand_records():
    """A third of the keys is put and taken out, a third taken out, and for a third another key comes."""
    numbers = range(1000, 2000)
    script = "".join(f"put 1 k{n} ={n}\n" for n in numbers) + "commit 1\nbegin\n"
    replies = 1000 * "ok none\n" + "ok\nok 2\n"
    for n in numbers:
        script += [f"put 2 k{n} =new\ndel 2 k{n}\n", f"del 2 k{n}\n", f"put 2 n{n} =new\n"][n % 3]
        replies += [f"ok ={n}\nok =new\n", f"ok ={n}\n", "ok none\n"][n % 3]
    records = "".join(f"- k{n} ={n}\n" for n in numbers)
    for word in ("memory", "shell"):
        expect(word, f"begin\n{script}back 2 0\nlist\nlog\n", f"ok 1\n{replies}ok 1333\n{records}ok 1000\nok 3666 3666\n")


def ten_thousand_transactions_are_open():
    """Each puts at a key of its own, asks for that of the next one, and ends: the even ones commit, the odd ones abort."""
    count = 10_000
    script = "".join(f"begin\nput {n} k{n} =v\n" for n in range(1, count + 1))
    replies = "".join(f"ok {n}\nok none\n" for n in range(1, count + 1))
    for n in range(1, count):
        script += f"put {n} k{n + 1} =w\n" + (f"abort {n}\n" if n % 2 else f"commit {n}\n")
        replies += f"no Held {n + 1}\n" + ("ok 1\n" if n % 2 else "ok\n")
    expect("memory", f"{script}log\nkeys {count}\n", f"{replies}ok 15000 15001\n- k{count}\nok 1\n")


def a_hundred_thousand_changes_go_back():
    """3,125 changes at ten keys behind each of 32 savepoints."""
    script, replies = "begin\n", "ok 1\n"
    for number in range(1, 33):
        script += "save 1\n" + "".join(f"put 1 {n % 10} =\n" for n in range(3125))
        replies += f"ok {number}\n" + (10 * "ok none\n" + 3115 * "ok =\n" if number == 1 else 3125 * "ok =\n")
    for number in reversed(range(1, 33)):
        script += f"back 1 {number}\n"
        replies += "ok 3125\n"
    expect("memory", f"{script}keys 1\nlist\nlog\n", f"{replies}ok 0\nok 0\nok 200000 200000\n")


def eighty_thousand_keys_come_in_random_order():
    """As one script they are too long for `memory`, so they come in a shell's lines."""
    count = 80_000
    puts = "".join(f"put 1 {n * 30_011 % count:05} =\n" for n in range(count))
    records = "".join(f"- {n:05} =\n" for n in range(count))
    expect("shell", f"begin\n{puts}commit 1\nlist\n", "ok 1\n" + count * "ok none\n" + f"ok\n{records}ok {count}\n")


ROWS = [
    two_sessions, fruit, a_dump_copies_a_file, words_that_ask_for_nothing, numbers_at_the_ends_of_their_ranges,
    files_that_are_not_opened, damaged_files_are_named, a_file_of_the_first_version, files_that_stay_as_they_are,
    savepoints_have_a_greatest_depth, a_thousand_records_go_back, a_rollback_over_a_thousand_records,
    ten_thousand_transactions_are_open, a_hundred_thousand_changes_go_back, eighty_thousand_keys_come_in_random_order,
]


def main():
    with tempfile.TemporaryDirectory() as room:
        os.chdir(room)
        for rows in ROWS:
            rows()
        os.chdir(ROOT)
    print(f"program: {calls} calls passed, 0 failed")


main()
