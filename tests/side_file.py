"""What side_files.sh does to a file and its side file: `tear` writes any bytes over the pages that are kept, and behind the old
end; `spoil` changes a byte of a page that isn't; `first_version` makes the side file one of the first version."""
import struct
import sys

PAGE, ENTRY, WORD = 4096, 4100, 0x100000001B3


def sum_on(total, data):
    for (word,) in struct.iter_unpack(">I", data):
        total = (total ^ word) * WORD % 2**64
    return total


what, path, side_path = sys.argv[1:]
side = open(side_path, "rb").read()
length, kept = struct.unpack_from(">II", side, 12)
entries = side[40:]
numbers = [struct.unpack_from(">I", entries, ENTRY * i)[0] for i in range(kept)]
if what == "first_version":
    front = side[:8] + struct.pack(">HHIII", 1, 0, length, kept, 0)
    total = sum_on(sum_on(0xCBF29CE484222325, entries), front)
    open(side_path, "wb").write(front + struct.pack(">Q", total) + entries)
    sys.exit()
with open(path, "r+b") as file:
    if what == "tear":
        for n in numbers:
            file.seek(PAGE * n)
            file.write(bytes((7 * n + i) % 251 for i in range(PAGE)))
        file.seek(PAGE * length)
        file.write(b"torn" * 1500)
    else:
        other = next(n for n in range(length) if n not in numbers)
        file.seek(PAGE * other + 100)
        byte = file.read(1)[0]
        file.seek(PAGE * other + 100)
        file.write(bytes([byte ^ 1]))
