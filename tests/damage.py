"""Damaged page files: show draws each and rescue reads each, whatever stands in it, and neither changes it; rescue gives
back each record of each page of the tree that has the bytes that it had.

    python3 tests/damage.py PROGRAM ROOM [COUNT [SEED]]
"""
import pathlib
import random
import struct
import subprocess
import sys
import urllib.parse

PAGE = 4096
WIDTHS = {1: 32, 2: 100}


def decoded(page, order, version):
    """The keys with their records, and the sons, of a page of a whole file."""
    kind, count = page[0], struct.unpack(">H", page[2:4])[0]
    width = 18 + WIDTHS[version]
    elements = []
    for i in range(count):
        place = page[8 + width * i : 8 + width * (i + 1)]
        elements.append((place[1 : 1 + place[0]], place[18 : 18 + place[17]]))
    at = 8 + width * 2 * order
    sons = struct.unpack(f">{count + 1}I", page[at : at + 4 * (count + 1)]) if kind == 2 else ()
    return elements, sons


def spelled(page, order, version):
    """The same node of a page of version 2 in another version."""
    elements, sons = decoded(page, order, 2)
    width = 18 + WIDTHS[version]
    text = bytes([page[0], 0]) + struct.pack(">H", len(elements)) + bytes(4)
    for key, record in elements:
        text += bytes([len(key)]) + key.ljust(16, b"\0") + bytes([len(record)]) + record.ljust(WIDTHS[version], b"\0")
    text = text.ljust(8 + width * 2 * order, b"\0")
    return (text + struct.pack(f">{len(sons)}I", *sons)).ljust(PAGE, b"\0")


def tree_of(pages):
    """The numbers of the pages of a whole file's tree, with their elements."""
    version, order, _, root = struct.unpack(">HHII", pages[0][8:20])
    found, left = {}, [root] if root else []
    while left:
        number = left.pop()
        found[number], sons = decoded(pages[number], order, version)
        left += sons
    return found


def cut(text):
    return [text[at : at + PAGE] for at in range(0, len(text), PAGE)]


def old_file(text):
    """The same file in the first version."""
    pages = cut(text)
    order = pages[0][11]
    numbers = tree_of(pages)
    pages[0] = pages[0][:9] + b"\1" + pages[0][10:]
    return b"".join(spelled(page, order, 1) if n in numbers else page for n, page in enumerate(pages))


def some_bytes(chance, count):
    return bytes(chance.randrange(256) for _ in range(count))


def flip(chance, text):
    for _ in range(chance.choice([1, 1, 1, 2, 8])):
        at = chance.randrange(len(text))
        text[at] = chance.choice([text[at] ^ 1 << chance.randrange(8), chance.randrange(256)])


def spoil_header(chance, text):
    at = chance.choice([0, 7, 8, 9, 10, 11, 12, 14, 15, 16, 18, 19, 20, 22, 23, 24, 25, chance.randrange(PAGE)])
    text[at] = chance.choice([0, 1, 2, 3, 16, 17, 255, chance.randrange(256)])


def spoil_node(chance, text):
    """A byte of the head, of the first places or of the sons of a page."""
    page = PAGE * chance.randrange(len(text) // PAGE)
    at = page + chance.choice([0, 1, 2, 3, 4, 8, 9, 25, 26, 108, 126, 244, 247, 248, 251, 480, 483, 487, 3784, 3787, 3791])
    text[at] = chance.choice([0, 1, 2, 3, 4, 5, 17, 33, 101, 255])


def blank_page(chance, text):
    page = PAGE * chance.randrange(len(text) // PAGE)
    text[page : page + PAGE] = bytes(PAGE)


def fill_page(chance, text):
    page = PAGE * chance.randrange(len(text) // PAGE)
    text[page : page + PAGE] = some_bytes(chance, PAGE)


def copy_page(chance, text):
    to, page = (PAGE * chance.randrange(len(text) // PAGE) for _ in range(2))
    text[to : to + PAGE] = text[page : page + PAGE]


def swap_pages(chance, text):
    one, other = (PAGE * chance.randrange(len(text) // PAGE) for _ in range(2))
    text[one : one + PAGE], text[other : other + PAGE] = text[other : other + PAGE], text[one : one + PAGE]


def tear(chance, text):
    """Bytes from a place on to another are zero, or any."""
    at = chance.randrange(len(text))
    count = chance.randrange(1, 3 * PAGE)
    more = chance.choice([bytes(count), some_bytes(chance, count)])
    text[at : at + count] = more[: max(0, len(text) - at)]


def shorten(chance, text):
    del text[chance.choice([chance.randrange(len(text)), PAGE * chance.randrange(len(text) // PAGE + 1)]) :]


def lengthen(chance, text):
    text += some_bytes(chance, chance.choice([1, PAGE, PAGE + 7]))


DAMAGES = [flip, flip, spoil_header, spoil_node, spoil_node, blank_page, fill_page, copy_page, swap_pages, tear, shorten, lengthen]


def damaged(chance, text):
    text = bytearray(text)
    for _ in range(chance.choice([1, 1, 1, 2, 3])):
        if len(text) >= PAGE:
            chance.choice(DAMAGES)(chance, text)
    return bytes(text)


def run(program, *words):
    done = subprocess.run([program, *words], stdin=subprocess.DEVNULL, capture_output=True, timeout=60)
    if done.returncode not in (0, 1):
        raise SystemExit(f"damage: FAILED: {words}: status {done.returncode}: {done.stderr[-500:]}")
    return done


def saved_in(script):
    """The records of a dump."""
    lines = script.split(b"\n")
    if lines[0] != b"begin" or lines[-2:] != [b"commit 1", b""]:
        raise SystemExit("damage: FAILED: that is no dump")
    records = {}
    for line in lines[1:-2]:
        put, one, key, record = line.split(b" ")
        if (put, one, record[:1]) != (b"put", b"1", b"="):
            raise SystemExit(f"damage: FAILED: {line}")
        records[urllib.parse.unquote_to_bytes(key)] = urllib.parse.unquote_to_bytes(record[1:])
    return records


def make_files(program, room):
    """Files of several orders and sizes, with free pages that have old records, in both versions."""
    files = []
    for order, count, gone in [(1, 0, 0), (1, 3, 0), (1, 60, 30), (2, 200, 120), (3, 90, 10), (16, 20, 0), (16, 900, 300)]:
        path = room / f"whole_{order}_{count}.rec"
        subprocess.run([program, "create", "--order", str(order), path], check=True)
        lines = ["begin"] + [f"put 1 k{i * 7919 % count:05} =v{i % 17 * 'x'}" for i in range(count)]
        lines += ["commit 1", "begin"] + [f"del 2 k{i:05}" for i in range(gone)] + ["commit 2", ""]
        subprocess.run([program, "run", path], input="\n".join(lines).encode(), stdout=subprocess.DEVNULL, check=True)
        text = path.read_bytes()
        files += [text, old_file(text)]
    return files


def expect_whole(program, path, text):
    """Of a whole file rescue writes what dump does, and tells nothing."""
    path.write_bytes(text)
    rescued = run(program, "rescue", path)
    if rescued.returncode or rescued.stderr or rescued.stdout != run(program, "dump", path).stdout:
        raise SystemExit(f"damage: FAILED: rescue of a whole file: {rescued.stderr[:500]}")


def expect_saved(program, path, before, after):
    """Each record of a page that has its bytes is given back, unless a damaged page has one at its key."""
    path.write_bytes(after)
    for words in (["show"], ["show", "--svg"], ["explain"]):
        run(program, *words, path)
    rescued = run(program, "rescue", path)
    if path.read_bytes() != after:
        raise SystemExit("damage: FAILED: the file was changed")
    saved = saved_in(rescued.stdout) if rescued.stdout else {}
    pages, old = cut(after), cut(before)
    for number, elements in tree_of(old).items():
        if number >= len(pages) or pages[number] != old[number]:
            continue
        if rescued.returncode:
            raise SystemExit(f"damage: FAILED: nothing is saved: {rescued.stderr[-500:]}")
        for key, record in elements:
            other = any(key in page for n, page in enumerate(pages) if n != number)
            if saved.get(key) != record and not (key in saved and other):
                raise SystemExit(f"damage: FAILED: the record at {key} of page {number} isn't saved")


def main():
    program, room = sys.argv[1], pathlib.Path(sys.argv[2])
    count, seed = (int(word) for word in (sys.argv[3:] + ["300", "1"][len(sys.argv) - 3 :])[:2])
    files = make_files(program, room)
    path = room / "damaged.rec"
    for text in files:
        expect_whole(program, path, text)
    for i in range(count):
        chance = random.Random(seed * 1_000_003 + i)
        before = chance.choice(files)
        try:
            expect_saved(program, path, before, damaged(chance, before))
        except SystemExit:
            print(f"damage: file {i} of seed {seed} is {path}")
            raise
    print(f"damage: {len(files)} whole and {count} damaged files: ok")


main()
