"""Stock and orders: stock.py FILE.

Two orders are open over one stock. A line that can't be had goes back to the savepoint before it, and the rest of the order
stays; an order that is called off backs out, and the other loses nothing. See that both are told of the lamp that the first
has taken, and that the third order gets the one that is left.
"""

import sys

import recfile


def take(order, number, item, wanted):
    """Takes so many of an item for an order. What keeps it from that, or None."""
    try:
        with order.savepoint():
            order[b"line/%d/%s" % (number, item)] = b"%d" % wanted
            have = int(order.get(b"stock/" + item, b"0"))
            if have < wanted:
                raise LookupError("is short")
            order[b"stock/" + item] = b"%d" % (have - wanted)
    except recfile.Held as why:
        return f"is held by {why.owner}"
    except LookupError as why:
        return str(why)
    return None


def fill(order, number, lines):
    order[b"order/%d" % number] = b"open"
    for item, wanted in lines:
        why = take(order, number, item, wanted)
        if why:
            print(f"order {number}: {item.decode()} {why}")


def main(path):
    with recfile.open(path, "x", order=8) as file:
        file.update({b"stock/lamp": b"3", b"stock/chair": b"1", b"stock/bed": b"0"})
        first, second = file.begin(), file.begin()
        fill(first, 1, [(b"lamp", 2), (b"chair", 1)])
        fill(second, 2, [(b"lamp", 1), (b"bed", 1)])
        print(f"order 2 is called off: {second.abort()} change")
        first.commit()
        with file.begin() as third:
            fill(third, 3, [(b"lamp", 1)])
        for entry in file.entries():
            print(entry.key.decode(), entry.record.decode())


if __name__ == "__main__":
    main(sys.argv[1])
