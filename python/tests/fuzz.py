"""Random calls for so many seconds: fuzz.py [SECONDS [SEED]].

In rounds of even number several transactions work beside a model, which must answer the same; in those of odd number the
words are mostly wrong, and nothing but named exceptions may come of it.
"""

import random
import sys
import time

import recfile

KEYS = [b"", b"k" * 17, *(b"k%d" % i for i in range(12))]


class Model:
    """Records, and for each open transaction its changes, each with what stood before it, and its savepoints."""

    def __init__(self):
        self.records = {}
        self.changes = {}
        self.savepoints = {}

    def begin(self, transaction):
        self.changes[transaction] = []
        self.savepoints[transaction] = []

    def owner(self, key):
        return next((it for it, changes in self.changes.items() if any(key == one for one, _ in changes)), None)

    def refusal(self, transaction, key):
        if not 1 <= len(key) <= 16:
            return recfile.LongKey if key else recfile.EmptyKey
        return None if self.owner(key) in (None, transaction) else recfile.Held

    def change(self, transaction, key, record):
        """Puts a record, takes one out where it is None. What stood there."""
        before = self.records.get(key)
        self.changes[transaction].append((key, before))
        self.set(key, record)
        return before

    def committed(self, key):
        owned = self.changes.get(self.owner(key), [])
        return next((before for changed, before in owned if changed == key), self.records.get(key))

    def set(self, key, record):
        if record is None:
            self.records.pop(key, None)
        else:
            self.records[key] = record

    def back(self, transaction, length):
        changes = self.changes[transaction]
        undone = len(changes) - length
        while len(changes) > length:
            self.set(*changes.pop())
        return undone

    def end(self, transaction):
        del self.changes[transaction], self.savepoints[transaction]


class Beside:
    """A file beside a model: each method makes one random call on both."""

    def __init__(self, rng):
        self.rng = rng
        self.file = recfile.memory()
        self.model = Model()

    def begin(self):
        self.model.begin(self.file.begin())

    def on_key(self):
        """A put, a removal, a claim or a look-up."""
        transaction, key = self.rng.choice(list(self.model.changes)), self.rng.choice(KEYS)
        record = bytes(self.rng.randrange(256) for _ in range(self.rng.choice((0, 1, 30, 100))))
        what = self.rng.choice(("put", "put", "remove", "claim", "get"))
        refusal = self.model.refusal(transaction, key)
        if refusal is None and what == "remove" and key not in self.model.records:
            refusal = recfile.Absent
        call = getattr(transaction, what)
        try:
            answer = call(key, record) if what == "put" else call(key)
        except recfile.Refused as fault:
            assert type(fault) is refusal, (fault, refusal)
            assert not isinstance(fault, recfile.Held) or fault.owner == self.model.owner(key).number
            return
        assert refusal is None, refusal
        if what == "get":
            assert answer == self.model.records.get(key)
        else:
            after = {"put": record, "remove": None, "claim": self.model.records.get(key)}[what]
            assert answer == self.model.change(transaction, key, after)

    def savepoint(self):
        transaction = self.rng.choice(list(self.model.changes))
        if len(self.model.savepoints[transaction]) < 32:
            savepoint = transaction.savepoint()
            self.model.savepoints[transaction].append((savepoint, len(self.model.changes[transaction])))

    def back(self):
        """A rollback to a savepoint, or its release."""
        transaction = self.rng.choice(list(self.model.changes))
        savepoints = self.model.savepoints[transaction]
        if not savepoints:
            assert transaction.rollback() == self.model.back(transaction, 0)
            return
        place = self.rng.randrange(len(savepoints))
        savepoint, length = savepoints[place]
        if self.rng.random() < 0.3:
            savepoint.release()
            del savepoints[place:]
        else:
            assert savepoint.rollback() == self.model.back(transaction, length)
            del savepoints[place + 1:]

    def end(self):
        transaction = self.rng.choice(list(self.model.changes))
        if self.rng.random() < 0.5:
            transaction.commit()
        else:
            assert transaction.abort() == self.model.back(transaction, 0)
        self.model.end(transaction)

    def look(self):
        model = self.model
        told = [(it.key, it.record, it.owner) for it in self.file.entries()]
        owners = {key: model.owner(key) for key in model.records}
        assert told == [(key, model.records[key], owners[key] and owners[key].number) for key in sorted(model.records)]
        assert len(self.file) == len(told)
        low, high = sorted(self.rng.choices(KEYS, k=2))
        inside = [it for it in told if low <= it[0] < high]
        assert [(it.key, it.record, it.owner) for it in self.file.entries(low, high, reverse=True)] == inside[::-1]
        for key in KEYS[2:]:
            assert self.file.committed(key) == model.committed(key)
        for transaction, changes in model.changes.items():
            assert transaction.held() == sorted({key for key, _ in changes})
            assert transaction.status()[2:4] == (len(model.savepoints[transaction]), len(changes))

    def run(self, calls):
        self.begin()
        for _ in range(calls):
            several = [self.on_key] * 8 + [self.savepoint, self.back, self.begin, self.look]
            call = self.rng.choice(several + [self.end] * (len(self.model.changes) > 1))
            if call != self.begin or len(self.model.changes) < 5:
                call()
        self.look()
        self.file.close()


def any_word(rng):
    return rng.choice((b"", b"k", b"k%d" % rng.randrange(6), b"x" * 16, b"x" * 17, b"\0", "text", None, 5, 2**40, -1, [],
                       bytearray(b"k"), object(), float("nan")))


def wrong_words(rng, calls):
    """Calls with whatever words, on whatever is there, also after its end."""
    file = recfile.memory(records=rng.choice((3, 50)), log=rng.choice((8, 60, 400)), begins=rng.choice((2, 30)))
    things = [file]
    names = ("begin", "savepoint", "rollback", "release", "abort", "commit", "resume", "status", "held", "put", "get", "claim",
             "remove", "pop", "update", "entries", "keys", "items", "values", "first", "last", "committed", "log_use", "clear", "__setitem__", "__getitem__", "__delitem__",
             "__contains__", "__len__", "__iter__", "__enter__", "close")
    for _ in range(calls):
        thing, name = rng.choice(things), rng.choice(names)
        if not hasattr(thing, name) or (name == "close" and rng.random() < 0.95):
            continue
        words = [any_word(rng) for _ in range(rng.choice((0, 1, 1, 2, 2)))]
        try:
            made = getattr(thing, name)(*words)
        except (recfile.Error, recfile.Misuse, TypeError, ValueError, AttributeError):
            continue
        if isinstance(made, (recfile.Transaction, recfile.Savepoint)):
            things.append(made)
    file.close()


def main():
    end = time.monotonic() + float(sys.argv[1] if len(sys.argv) > 1 else 10)
    seed = first = int(sys.argv[2]) if len(sys.argv) > 2 else 1
    while time.monotonic() < end:
        rng = random.Random(seed)
        try:
            if seed % 2 == 0:
                Beside(rng).run(150)
            else:
                wrong_words(rng, 150)
        except BaseException:
            print(f"fuzz: seed {seed}", file=sys.stderr)
            raise
        seed += 1
    print(f"fuzz: {seed - first} rounds of 150 calls")


if __name__ == "__main__":
    main()
