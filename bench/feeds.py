"""Lines of feeds for programs of examples/, for `delta text --frames`.

python3 feeds.py watch | merge | join ITEMS

For watch one feed of so many readings, from 0 to 199; for merge and join two feeds of so many items each, which come
item by item in turn, and of which those of join have the same keys.
"""
import sys


def watch(items):
    for i in range(items):
        yield from ("item", "F int %d" % (7 * i % 200), "cut")
    yield "end"


def merge(items):
    for i in range(items):
        for side, number in (("L", 2 * i), ("R", 2 * i + 1)):
            yield from ("%s item" % side, "%s F int %d" % (side, number), "%s cut" % side)
    yield from ("L end", "R end")


def join(items):
    for i in range(items):
        for side in "LR":
            yield from ("%s item" % side, "%s F F int %d" % (side, i), "%s F cut" % side, "%s F int %d" % (side, i), "%s cut" % side)
    yield from ("L end", "R end")


FEEDS = {"watch": watch, "merge": merge, "join": join}

if __name__ == "__main__":
    if len(sys.argv) != 3 or sys.argv[1] not in FEEDS or not sys.argv[2].isdecimal():
        sys.exit(__doc__)
    sys.stdout.writelines(line + "\n" for line in FEEDS[sys.argv[1]](int(sys.argv[2])))
