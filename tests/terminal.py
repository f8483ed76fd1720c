"""A shell at a terminal: a prompt with the open transactions, help, the form of a line that has none, arrow keys, the chains
of the log, what is kept at the end; the bar of a load; and a pipe gets none of that. Under rlwrap, where that is installed,
an arrow key gives a line back to be changed.

    python3 tests/terminal.py PROGRAM
"""
import fcntl
import os
import pathlib
import pty
import select
import shutil
import struct
import subprocess
import sys
import tempfile
import termios

PROMPT = b"> "
END = b"\x04"


def screen_of(program, words, keys, drawn=0):
    """What stands on a terminal after these keys, each typed once the last is answered, and the status; a prompt that is
    drawn more than once is there when so many seconds have brought no more."""
    child, terminal = pty.fork()
    if child == 0:
        if drawn:
            fcntl.ioctl(0, termios.TIOCSWINSZ, struct.pack("HHHH", 24, 80, 0, 0))
            os.environ.update({"TERM": "dumb", "INPUTRC": "/dev/null", "RLWRAP_HOME": "."})
        os.execv(program, ["recfile", *words])
    seen = b""

    def read(end):
        """Reads up to a prompt, or to the end; ten seconds without any are too long."""
        nonlocal seen
        begun = len(seen)
        while select.select([terminal], [], [], drawn if end and len(seen) > begun and seen.endswith(end) else 10)[0]:
            try:
                more = os.read(terminal, 65536)
            except OSError:
                return
            if not more:
                return
            seen += more

    read(PROMPT)
    for key in keys:
        os.write(terminal, key)
        read(b"" if key == END else PROMPT)
    status = os.waitstatus_to_exitcode(os.waitpid(child, 0)[1])
    os.close(terminal)
    return seen.decode().replace("\r\n", "\n"), status


def expect(what, seen, wanted):
    if seen != wanted:
        raise SystemExit(f"terminal: FAILED: {what}: {seen!r}, and not {wanted!r}")


def typed(program, words, lines):
    """The screen of a session of these lines, and the status; at the end Ctrl-D is typed."""
    return screen_of(program, words, [line.encode() + b"\n" for line in lines] + [END])


def ends(program):
    """What an end tells of the transactions."""
    screen, status = typed(program, ["shell", "a.rec"], ["begin", "begin", "begin", "put 2 b =y", "commit 2", "abort 7"])
    expect(
        "two that are open",
        screen,
        "recfile> begin\nok 1\nrecfile [1]> begin\nok 2\nrecfile [1 2]> begin\nok 3\nrecfile [1 2 3]> put 2 b =y\nok none\n"
        "recfile [1 2 3]> commit 2\nok\nrecfile [1 3]> abort 7\nno NoSuchTx\n"
        "recfile [1 3]> \n1 transaction was committed, and is kept\n2 transactions were open, and were taken back\n",
    )
    expect("their status", status, 0)
    screen, _ = typed(program, ["shell", "a.rec"], ["begin", "del 1 b", "abort 1"])
    expect("nothing", screen.split("recfile> ")[-1], "\nnothing was committed: the records are as they were\n")
    screen, _ = typed(program, ["shell", "--records", "9"], ["begin", "commit 1"])
    expect("no file", screen.split("\n")[-2], "nothing is kept, since there is no file")
    screen, status = typed(program, ["shell", "--strict", "a.rec"], ["begin", "frob"])
    expect("a refusal", (screen.split("\n")[-5:], status), (
        ["bad UnknownCommand", "recfile: Refused 2", "nothing was committed: the records are as they were",
         "1 transaction was open, and was taken back", ""], 3))
    screen, status = typed(program, ["shell", "--durable", "a.rec"], ["begin", "put 1 c =z", "commit 1", "begin", "del 2 c"])
    expect("a durable session", (screen.split("recfile [2]> ")[-1], status, os.path.exists("a.rec-commits")), (
        "\n1 transaction was committed, and is kept\n1 transaction was open, and was taken back\n", 0, False))
    screen, status = typed(program, ["shell", "--durable", "a.rec"], ["begin", "del 1 c", "flush", "commit 1", "flush", "begin"])
    expect("flushes", (screen, status), (
        "recfile> begin\nok 1\nrecfile [1]> del 1 c\nok =z\n"
        "recfile [1]> flush\na flush is only taken while no transaction is open\nbad UnknownCommand\n"
        "recfile [1]> commit 1\nok\nrecfile> flush\nok\nrecfile> begin\nok 1\n"
        "recfile [1]> \n1 transaction was committed, and is kept\n1 transaction was open, and was taken back\n", 0))
    screen, status = typed(program, ["shell", "missing.rec"], [])
    expect("no session", (screen.startswith("recfile: Device\n"), "kept" in screen, status), (True, False, 1))
    screen, _ = typed(program, ["shell"], ["begin"] * 10)
    expect("many that are open", screen.split("\n")[-4], "recfile [1 2 3 4 5 6 7 8 ..]> ")
    screen, status = screen_of(program, ["shell", "--help"], [])
    expect("help", ("kept" in screen, status), (False, 0))


def chains(program):
    """What log and show draw."""
    lines = ["show", "begin", "put 1 p =a", "save 1", "put 1 q%20 =b", "begin", "claim 2 r", "back 1 1", "log", "commit 1", "show"]
    screen, _ = typed(program, ["shell"], lines)
    log = screen[screen.index("> log\n") + 6:screen.index("recfile [1 2]> commit 1")]
    expect(
        "a partial rollback",
        log,
        "ok 4 6\n"
        "transaction 1, open: undo begins at 1\n"
        "     1            put p\n"
        "     2 -> 1       put q%20, taken back by 4\n"
        "     4 -> 2       takes back 2, undo goes on at 1\n"
        "transaction 2, open: undo begins at 3\n"
        "     3            claim r\n",
    )
    shown = screen[screen.index("> show\ntransaction") + 7:screen.rindex("recfile [2]> ")]
    expect("what show draws", shown, log[7:].replace("1, open: undo begins at 1", "1, ended"))
    expect("nothing to draw", screen.startswith("recfile> show\nrecfile> begin\n"), True)
    screen, _ = typed(program, ["shell"], ["begin", "del 1 a", "put 1 a =x", "del 1 a", "abort 1", "log"])
    expect(
        "an abort",
        screen[screen.index("> log\n") + 6:screen.rindex("recfile> ")],
        "ok 4 4\n"
        "transaction 1, ended\n"
        "     1            put a, taken back by 4\n"
        "     2 -> 1       del a, taken back by 3\n"
        "     3 -> 2       takes back 2, undo goes on at 1\n"
        "     4 -> 3       takes back 1, the first\n",
    )


def shown(seen):
    """The lines that stand on a terminal, which go back and write over what stands there; blank ones are left out."""
    lines = []
    for text in seen.split("\n"):
        line, at = [], 0
        for byte in text:
            if byte in "\r\b":
                at = 0 if byte == "\r" else at - 1
            else:
                line[at : at + 1] = byte
                at += 1
        lines.append("".join(line).rstrip())
    return [line for line in lines if line]


def wrapped(program):
    """A shell under rlwrap: the last line comes back at an arrow key, and is changed."""
    rlwrap = shutil.which("rlwrap")
    if not rlwrap:
        print("terminal: rlwrap isn't installed, and one row less is run")
        return
    subprocess.run([program, "create", "w.rec"], check=True)
    up, rubout = b"\x1b[A", b"\x7f"
    keys = [b"begin\n", b"put 1 a =x\n", up + rubout + b"y\n", b"commit 1\n", END]
    screen, status = screen_of(rlwrap, ["--no-warnings", program, "shell", "w.rec"], keys, drawn=1)
    expect("under rlwrap", (shown(screen), status), ([
        "recfile> begin", "ok 1", "recfile [1]> put 1 a =x", "ok none", "recfile [1]> put 1 a =y", "ok =x",
        "recfile [1]> commit 1", "ok", "recfile>", "1 transaction was committed, and is kept"], 0))


def loaded(program, words, lines):
    """What stands on a terminal while these lines are loaded."""
    terminal, device = pty.openpty()
    done = subprocess.run([program, "load", *words], input=lines, stderr=device)
    os.close(device)
    seen = b""
    while select.select([terminal], [], [], 0.2)[0]:
        try:
            seen += os.read(terminal, 65536)
        except OSError:
            break
    os.close(terminal)
    return seen.decode().replace("\r\n", "\n"), done.returncode


def bar(program):
    """The bar of a load."""
    lines = b"".join(b"key%d\trecord\n" % number for number in range(38))
    subprocess.run([program, "create", "l.rec"], check=True)
    screen, status = loaded(program, ["l.rec"], lines)
    pieces = [f"\r[{'#' * width}{'.' * (20 - width)}] {2 * width} of 40" for width in range(1, 21)]
    expect("a load", (screen, status), ("".join(pieces) + "\n", 0))
    screen, status = loaded(program, ["--records", "39", "l.rec"], b"new\tx\nlast\tx\n")
    bars = "\r[#####...............] 1 of 4\r[##########..........] 2 of 4\r[###############.....] 3 of 4\n"
    expect("a load that is refused", (screen, status), (bars + "recfile: Full in line 2\n", 3))
    screen, status = loaded(program, ["missing.rec"], lines)
    expect("a load of no file", (screen.startswith("recfile: Device\n"), status), (True, 1))
    done = subprocess.run([program, "load", "l.rec"], input=lines, capture_output=True)
    expect("a load in a pipe", (done.stdout, done.stderr, done.returncode), (b"", b"", 0))


def main():
    program = os.path.realpath(sys.argv[1])
    with tempfile.TemporaryDirectory() as room:
        os.chdir(room)
        subprocess.run([program, "create", "a.rec"], check=True)
        lines = [b"begin\n", b"put 1 a b c\n", b"put 1 a =x\n", b"help put\n", b"quit\n", b"get 1 \x1b[A\n", b"commit 1\n"]
        screen, status = screen_of(program, ["shell", "a.rec"], lines + [END])
        expect(
            "a session",
            screen,
            "recfile> begin\nok 1\n"
            "recfile [1]> put 1 a b c\n  put T KEY =RECORD  puts a record at a key, and answers what stood there\nbad WordCount\n"
            "recfile [1]> put 1 a =x\nok none\n"
            "recfile [1]> help put\n  put T KEY =RECORD  puts a record at a key, and answers what stood there\n"
            "recfile [1]> quit\nhelp tells the commands, and Ctrl-D ends the session\nbad UnknownCommand\n"
            "recfile [1]> get 1 ^[[A\nan escape sequence stands in that line, as of an arrow key: it isn't run\n"
            "recfile [1]> commit 1\nok\n"
            "recfile> \n1 transaction was committed, and is kept\n",
        )
        expect("its status", status, 0)
        ends(program)
        chains(program)
        bar(program)
        wrapped(program)
        screen, status = screen_of(program, ["shell"], [b"help\n", END])
        expect("the commands", [line.split()[0] for line in screen.split("\n")[1:-1]],
               "begin put del get claim save release back resume abort commit list from upto committed keys log flush show recfile> nothing".split())
        screen, status = screen_of(program, [], [])
        if "Usage: recfile" not in screen or "To begin: recfile create" not in screen or status != 0:
            raise SystemExit(f"terminal: FAILED: no word: {screen!r}, status {status}")
        done = subprocess.run([program, "shell", "a.rec"], input=b"help\nshow\nlist\nput 1\nlog\nbegin\n", capture_output=True)
        replies = b"bad UnknownCommand\nbad UnknownCommand\n- a =x\n- b =y\nok 2\nbad WordCount\nok 0 0\nok 1\n"
        expect("a pipe", (done.stdout, done.stderr), (replies, b""))
        done = subprocess.run([program], input=b"begin\n", capture_output=True)
        expect("a pipe without words", (done.stdout, done.stderr), (b"ok 1\n", b""))
    print("terminal: ok")


main()
