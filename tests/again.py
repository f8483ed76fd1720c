"""Runs a shell over a file with each growth of its memory refused in turn, alone: a line that is answered Memory is sent again, and
a rollback that Memory stops is resumed. The replies are then those of a run in which nothing is refused, and so is the
file. Called by refusals.sh: PROGRAM REFUSE.SO SCRIPT OLD FILE [OPTION..], where OLD is the file that the session begins with."""
import contextlib
import os
import shutil
import subprocess
import sys

program, preload, script, old, path, *options = sys.argv[1:]
lines = [line for line in open(script, "rb").read().splitlines() if line]
MET = os.path.abspath("met")


def start(refused):
    environment = dict(os.environ, MET=MET, REFUSE_GROWTH=str(refused), LD_PRELOAD=os.path.abspath(preload))
    shutil.copyfile(old, path)
    return subprocess.Popen([program, "shell", *options, path], env=environment, stdin=subprocess.PIPE, stdout=subprocess.PIPE, stderr=subprocess.PIPE)


def ask(shell, line):
    """The lines of the reply, or none where the session has ended."""
    reply = []
    try:
        shell.stdin.write(line + b"\n")
        shell.stdin.flush()
    except BrokenPipeError:
        return []
    while not reply or reply[-1].startswith(b"- "):
        more = shell.stdout.readline()
        if not more:
            return []
        reply.append(more)
    return reply


def settled(shell, line):
    """The reply once memory was there, with the changes that a stopped rollback had taken back."""
    reply, undone = ask(shell, line), 0
    while reply:
        words = reply[-1].split()
        if words == [b"no", b"Memory"]:
            reply = ask(shell, line)
        elif words[0] == b"stopped" and words[-1] == b"Memory":
            undone += int(words[1])
            line = b"resume " + line.split()[1]
            reply = ask(shell, line)
        elif undone and words[0] == b"ok":
            return [b"ok %d\n" % (int(words[1]) + undone)]
        else:
            return reply
    return []


def run(refused):
    shell = start(refused)
    replies = []
    for line in lines:
        reply = settled(shell, line)
        if not reply:
            break
        replies.append(reply)
    with contextlib.suppress(BrokenPipeError):
        shell.stdin.close()
    status = shell.wait()
    return status, replies, shell.stderr.read(), open(path, "rb").read()


if os.path.exists(MET):
    os.remove(MET)
status, wanted, faults, new = run(0)
assert status == 0, faults
number = again = 0
while True:
    number += 1
    if os.path.exists(MET):
        os.remove(MET)
    status, replies, faults, left = run(number)
    if not os.path.exists(MET):
        break
    if status != 0:
        continue
    again += 1
    if replies != wanted or left != new:
        sys.exit(f"again: growth {number}: {replies} in place of {wanted}, or the file is another")
print(f"refusals: {number - 1} refused and asked again, {again} to the same end")
