"""Where the instructions of a run go, by function and by kind.

valgrind --tool=callgrind --callgrind-out-file=FILE delta run over.delta < FRAMES
python3 shares.py FILE ITEMS

What the allocator costs is charged to the function that asks it.
"""
import re
import sys
from collections import defaultdict

ALLOCATOR = re.compile(r"(rattle_(re|de)?alloc|malloc|free|realloc|calloc|_int_.*|malloc_consolidate|unlink_chunk.*|sysmalloc|tcache.*)('\d+)?$")
KINDS = [
    ("types", r"stream_type|derivative|Ty\+Destruct|holding::left|left_boxed|in_place::(behind|event)"),
    ("prefixes", r"stream_prefix|Prefix\+Destruct|parts::copied|nothing_yet|copy_box|in_place::joining"),
    ("frames that are read", r"event_frame"),
    ("events as prefixes, and canonical words", r"event_word"),
    ("the session", r"delta_session"),
    ("the walk of rewritings", r"template_state"),
    ("code that is reached", r"delta_code::(starting|begun|way|entering|framing|still|seeing|free)"),
    ("the step over the state", r"delta_code"),
    ("parts of machines", r"machine_parts"),
    ("vectors and boxes", r"std_alloc|Vec|Box"),
]


def read(file):
    """Cost of each function by itself with the allocator's for it, and its calls of the allocator."""
    names, cost, calls = {}, defaultdict(int), defaultdict(int)
    here = called = None
    count = 0

    def named(word):
        number, name = re.match(r"\((\d+)\)(?: (.*))?$", word).groups()
        return names.setdefault(number, name)

    for line in open(file):
        if line.startswith("fn="):
            here = named(line[3:].rstrip())
        elif line.startswith("cfn="):
            called = named(line[4:].rstrip())
        elif line.startswith("calls="):
            count = int(line[6:].split()[0])
        elif re.match(r"[+\-*\d]", line):
            inside = ALLOCATOR.match(here)
            if count and ALLOCATOR.match(called) and not inside:
                calls[plain(here)] += count
                cost[plain(here)] += int(line.split()[1])
            elif not count and not inside:
                cost[plain(here)] += int(line.split()[1])
            count = 0
    return cost, calls


def plain(name):
    return re.sub(r"'\d+$", "", name)


def main(file, items):
    cost, calls = read(file)
    total, kinds = sum(cost.values()), defaultdict(int)
    for name, n in cost.items():
        kinds[next((kind for kind, words in KINDS if re.search(words, name)), "all else")] += n
    print("%d instructions, %.0f an item; the allocator is called %.0f times an item" % (total, total / items, sum(calls.values()) / items))
    for kind, n in sorted(kinds.items(), key=lambda x: -x[1]):
        print("%5.1f %% %8.0f  %s" % (100 * n / total, n / items, kind))
    for name, n in sorted(cost.items(), key=lambda x: -x[1])[:30]:
        print("%5.1f %% %8.0f %6.1f  %s" % (100 * n / total, n / items, calls[name] / items, name[:100]))


if __name__ == "__main__":
    if len(sys.argv) != 3 or not sys.argv[2].isdecimal():
        sys.exit(__doc__)
    main(sys.argv[1], int(sys.argv[2]))
