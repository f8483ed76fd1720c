"""The shell of the program `recfile`, with a line that is edited, its history, and names that are completed.

    python -m recfile [FILE]

The program has to be on the PATH: it reads the lines, answers them and makes the prompt, so that all is as in `recfile shell`,
whose options it has too. Where the input is no terminal this is `recfile shell`, and nothing besides.
"""

from __future__ import annotations

import cmd
import os
import pty
import re
import shutil
import signal
import sys
import termios
from typing import List

_PROMPT = re.compile(rb"(?:^|\n)(recfile(?: \[[^\n]*\])?> )$")
_END = b"\x04"


class _Shell(cmd.Cmd):
    """A program at a terminal of its own, which gets the lines that are typed at ours."""

    def __init__(self, program: str, words: List[str]) -> None:
        super().__init__()
        self._child, self._terminal = pty.fork()
        if self._child == 0:
            _plain_terminal()
            os.execv(program, [program, "shell", *words])
        self._has_ended = False
        sys.stdout.write(self._answer())
        self._names = [] if self._has_ended else self._told_names()

    def _told_names(self) -> List[str]:
        os.write(self._terminal, b"help\n")
        return sorted({"help", *(line.split()[0] for line in self._answer().splitlines() if line.startswith("  "))})

    def _answer(self) -> str:
        """What the program writes up to its next prompt, or to its end."""
        seen = b""
        while True:
            found = _PROMPT.search(seen)
            if found:
                self.prompt = found[1].decode()
                return seen[:found.start(1)].decode(errors="replace")
            try:
                more = os.read(self._terminal, 65536)
            except OSError:
                more = b""
            if not more:
                self._has_ended = True
                return seen.decode(errors="replace")
            seen += more

    def onecmd(self, line: str) -> bool:
        """Hands a line on and prints its answer. True at the end of the session."""
        signal.pthread_sigmask(signal.SIG_BLOCK, {signal.SIGINT})
        os.write(self._terminal, _END if line == "EOF" else line.encode(errors="surrogateescape") + b"\n")
        sys.stdout.write(self._answer())
        signal.pthread_sigmask(signal.SIG_UNBLOCK, {signal.SIGINT})
        return self._has_ended

    def completenames(self, text: str, *ignored: object) -> List[str]:
        """The commands that begin so."""
        return [name for name in self._names if name.startswith(text)]

    def run(self) -> int:
        """Hands on what is typed, up to the end, and tells the program's status."""
        while not self._has_ended:
            try:
                self.cmdloop()
            except KeyboardInterrupt:
                print("^C")
        return os.waitstatus_to_exitcode(os.waitpid(self._child, 0)[1])


def _plain_terminal() -> None:
    """The program's own terminal neither echoes nor changes a byte; the one that we are at does."""
    modes = termios.tcgetattr(0)
    modes[0] &= ~(termios.ICRNL | termios.IXON)
    modes[1] &= ~termios.OPOST
    modes[3] &= ~(termios.ECHO | termios.ISIG | termios.IEXTEN)
    termios.tcsetattr(0, termios.TCSANOW, modes)


def main() -> int:
    """The shell, with the words of the command line; its status."""
    program = shutil.which("recfile")
    if program is None:
        print("recfile: the program recfile is not on the PATH, and this is its shell", file=sys.stderr)
        return 2
    if not (sys.stdin.isatty() and sys.stdout.isatty()):
        os.execv(program, [program, "shell", *sys.argv[1:]])
    return _Shell(program, sys.argv[1:]).run()


if __name__ == "__main__":
    sys.exit(main())
