"""The orders of a file in pages of ten, by the prefix of their keys: pages.py FILE.

See that a page is what the range has next, and that the last one has the order of a transaction that is open, which may yet go
back.
"""

import itertools
import sys

import recfile


def pages(file, prefix, size):
    """The records whose keys begin so, in lists of that size."""
    entries = itertools.takewhile(lambda entry: entry.key.startswith(prefix), file.entries(prefix))
    while True:
        page = list(itertools.islice(entries, size))
        if not page:
            return
        yield page


def main(path):
    with recfile.open(path, "x") as file:
        file.update({b"order/%03d" % number: b"open" for number in range(1, 26)})
        file.update({b"line/001/lamp": b"2", b"stock/lamp": b"3"})
        order = file.begin()
        order[b"order/026"] = b"open"
        for number, page in enumerate(pages(file, b"order/", 10), 1):
            still_open = sum(entry.owner is not None for entry in page)
            more = f", of which {still_open} may yet go back" if still_open else ""
            print(f"page {number}: {page[0].key.decode()} to {page[-1].key.decode()}{more}")
        order.abort()


if __name__ == "__main__":
    main(sys.argv[1])
