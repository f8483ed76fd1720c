"""The chains of the log through a partial rollback, picture by picture, as a person at a terminal sees them: each record of a
transaction points to the one before it. What is taken back stays in the log, and a record of its own says so and where the
undo goes on; so a record is taken back once, however often one goes back.
"""
import os
import pty
import subprocess


def next_screen(terminal):
    """What comes up to the next prompt."""
    seen = b""
    while not seen.endswith((b"recfile> ", b"]> ")):
        seen += os.read(terminal, 4096)
    return seen.decode().replace("\r\n", "\n")


def typed(lines):
    """Types these lines into a shell over an empty file in memory, and prints what the terminal shows."""
    child, terminal = pty.fork()
    if child == 0:
        os.execvp("recfile", ["recfile", "shell"])
    screen = next_screen(terminal)
    for line in lines:
        if line.startswith("--"):
            print(screen, end="", flush=True)
            print(f"\n\n{line}", flush=True)
            screen = ""
            continue
        os.write(terminal, line.encode() + b"\n")
        screen += next_screen(terminal)
    print(screen, flush=True)
    os.close(terminal)
    os.waitpid(child, 0)


typed("""-- two transactions, each with a chain of its own
begin
begin
put 1 apple =red
put 2 plum =blue
put 1 fig =brown
show
-- a savepoint, and two changes behind it
save 1
del 1 apple
put 1 lime =green
show
-- back to the savepoint: the newest change is taken back first, each by a record of its own
back 1 1
show
-- a further change stands on the last of them; going back to the beginning passes over what was taken back
put 1 nut =hard
back 1 0
show""".split("\n"))
