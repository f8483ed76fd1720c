"""Ordered reads of the built program against a sorted list: seeded scripts of several transactions, over memory and over page
files of the orders 1, 2 and 16, in which every record that from, upto and committed answer is known.

    python3 tests/ordered.py [PROGRAM] [SEEDS]
"""
import pathlib
import random
import subprocess
import sys
import tempfile

ROOT = pathlib.Path(__file__).resolve().parent.parent
PROGRAM = pathlib.Path(sys.argv[1] if len(sys.argv) > 1 else ROOT / "crates/recfile_program/out/recfile_program").resolve()
SEEDS = int(sys.argv[2]) if len(sys.argv) > 2 else 60
ALPHABETS = [b"ab", b"\x00a\xff", b"abcdefgh", bytes(range(97, 123))]


def spelled(bytes_):
    return "".join(chr(byte) if 33 <= byte <= 126 and byte != 37 else f"%{byte:02X}" for byte in bytes_)


def old(record):
    return "ok none" if record is None else f"ok ={spelled(record)}"


class Script:
    """A script that grows by seeded lines, with the replies that it is to have."""

    def __init__(self, seed):
        self.by = random.Random(seed)
        self.alphabet, self.longest = self.by.choice(ALPHABETS), self.by.choice([1, 2, 3, 16])
        self.lines, self.replies = [], []
        # The records, who owns a key, what each open transaction has changed, oldest first, and how much before each savepoint.
        self.records, self.owners, self.changes, self.savepoints = {}, {}, {}, {}
        self.begun = 0
        for _ in range(self.by.choice([20, 100, 400])):
            self.grow()

    def say(self, line, *reply):
        self.lines.append(line)
        self.replies.extend(reply)

    def key(self):
        if self.records and self.by.random() < 0.4:
            return self.by.choice(sorted(self.records))
        return bytes(self.by.choices(self.alphabet, k=self.by.randint(1, self.longest)))

    def grow(self):
        chance = self.by.random()
        if not self.changes or chance < 0.05 and len(self.changes) < 3:
            self.begun += 1
            self.changes[self.begun], self.savepoints[self.begun] = [], [0]
            self.say("begin", f"ok {self.begun}")
        elif chance < 0.60:
            self.change(self.by.choice(list(self.changes)), self.key(), chance < 0.45)
        elif chance < 0.68:
            self.end(self.by.choice(list(self.changes)), chance < 0.64)
        elif chance < 0.72:
            self.back(self.by.choice(list(self.changes)))
        elif chance < 0.92:
            self.read(self.key(), self.by.choice([0, 1, 1, 2, 3, 50]), self.by.random() < 0.5)
        else:
            key = self.key()
            self.say(f"committed {spelled(key)}", old(self.committed(key)))

    def change(self, tx, key, is_put):
        record = bytes([self.by.randint(65, 90)]) * self.by.choice([0, 1, 3, 40, 100]) if is_put else None
        line = f"put {tx} {spelled(key)} ={spelled(record)}" if is_put else f"del {tx} {spelled(key)}"
        before = self.records.get(key)
        if self.owners.get(key, tx) != tx:
            self.say(line, f"no Held {self.owners[key]}")
        elif not is_put and before is None:
            self.say(line, "no Absent")
        else:
            self.say(line, old(before))
            self.changes[tx].append((key, before))
            self.owners[key] = tx
            self.restore(key, record)

    def restore(self, key, record):
        self.records.pop(key, None)
        if record is not None:
            self.records[key] = record

    def back(self, tx):
        """To a savepoint, or sets one."""
        places = self.savepoints[tx]
        if self.by.random() < 0.5 and len(places) < 32:
            self.say(f"save {tx}", f"ok {len(places)}")
            places.append(len(self.changes[tx]))
        else:
            number = self.by.randrange(len(places))
            del places[number + 1 :]
            self.say(f"back {tx} {number}", f"ok {self.take_back(tx, places[number])}")

    def take_back(self, tx, place):
        """Takes back what was changed since, the newest first. How many changes that were."""
        undone = self.changes[tx][place:]
        for key, before in reversed(undone):
            self.restore(key, before)
        del self.changes[tx][place:]
        kept = {key for key, _ in self.changes[tx]}
        self.owners = {key: owner for key, owner in self.owners.items() if owner != tx or key in kept}
        return len(undone)

    def end(self, tx, is_kept):
        if is_kept:
            self.say(f"commit {tx}", "ok")
        else:
            self.say(f"abort {tx}", f"ok {self.take_back(tx, 0)}")
        del self.changes[tx], self.savepoints[tx]
        self.owners = {key: owner for key, owner in self.owners.items() if owner != tx}

    def committed(self, key):
        of_key = [before for changed, before in self.changes.get(self.owners.get(key), []) if changed == key]
        return of_key[0] if of_key else self.records.get(key)

    def read(self, key, count, is_up):
        keys = sorted((other for other in self.records if (other >= key if is_up else other <= key)), reverse=not is_up)[:count]
        self.say(f"{'from' if is_up else 'upto'} {spelled(key)} {count}", *map(self.entry, keys), f"ok {len(keys)}")

    def entry(self, key):
        owner = f" @{self.owners[key]}" if key in self.owners else ""
        return f"- {spelled(key)} ={spelled(self.records[key])}{owner}"


def run(words, script):
    done = subprocess.run([PROGRAM, *words], input="\n".join(script.lines) + "\n", capture_output=True, text=True, timeout=60)
    return done.stdout.splitlines()


def expect(name, got, script):
    if got != script.replies:
        at = next((i for i, (one, other) in enumerate(zip(got, script.replies)) if one != other), min(len(got), len(script.replies)))
        raise SystemExit(f"ordered: FAILED: {name}: reply line {at + 1} is {got[at : at + 1]}, and not {script.replies[at : at + 1]}")


def main():
    with tempfile.TemporaryDirectory() as room:
        for seed in range(SEEDS):
            script = Script(seed)
            expect(f"seed {seed} in memory", run(["memory"], script), script)
            for order in (1, 2, 16):
                path = f"{room}/{seed}_{order}.rec"
                subprocess.run([PROGRAM, "create", "--order", str(order), path], check=True)
                expect(f"seed {seed} of order {order}", run(["run", path], script), script)
    print(f"ordered: {4 * SEEDS} runs answer as a sorted list does")


main()
