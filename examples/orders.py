# One program holds a shell and asks it line by line. Two orders are open over one file: the second wants the lamp that
# the first has taken (no Held 2), and backs out. See that it decides by the replies, that it orders the other lamp once the
# first has committed, and that the file has both orders.
import subprocess


class Shell:
    """A shell over a page file, which answers each line before the next is asked."""

    def __init__(self, path):
        self.process = subprocess.Popen(
            ["recfile", "shell", path], stdin=subprocess.PIPE, stdout=subprocess.PIPE, text=True, bufsize=1
        )

    def ask(self, line):
        """The reply to a line, whose reply is one line."""
        self.process.stdin.write(line + "\n")
        reply = self.process.stdout.readline().rstrip("\n")
        print(f"{line:26} {reply}", flush=True)
        return reply

    def begin(self):
        return int(self.ask("begin").split()[1])

    def close(self):
        """The status, once the shell has ended what was left open and has closed the file."""
        self.process.stdin.close()
        return self.process.wait()


def take(shell, tx, lamp, order):
    """Takes a lamp for an order, or backs out of the order. Whether it was taken."""
    if shell.ask(f"del {tx} {lamp}").startswith("no"):
        shell.ask(f"abort {tx}")
        return False
    shell.ask(f"put {tx} {order} ={lamp}")
    return True


subprocess.run(["recfile", "create", "--order", "4", "lamps.rec"], check=True)
shell = Shell("lamps.rec")
stock = shell.begin()
shell.ask(f"put {stock} lamp/red =1")
shell.ask(f"put {stock} lamp/green =1")
shell.ask(f"commit {stock}")

first, second = shell.begin(), shell.begin()
shell.ask(f"put {second} order/2 =open")
take(shell, first, "lamp/red", "order/1")
if not take(shell, second, "lamp/red", "order/2"):
    shell.ask(f"commit {first}")
    third = shell.begin()
    take(shell, third, "lamp/green", "order/2")
    shell.ask(f"commit {third}")
print("status", shell.close(), flush=True)
subprocess.run(["recfile", "dump", "lamps.rec"], check=True)
