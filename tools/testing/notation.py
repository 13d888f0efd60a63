"""Bytes as the tables of rows write them down.

    frames H, item, F int 3      the header of version 1, and the frames of two events
    frames2 H, F int 1           the same in version 2
    lines item, F int 3          a line for each event
    bytes H 0015 20*3 "cat" 0a   the header, digits, a byte three times, and letters
    first 7 of NAME              a front of the text with that name
    NAME with ff at 7            that text with another byte there
    NAME                         that text
    load 1 100000                the frames of a load: pairs of a key and the value (7 * key + 1) mod 1000
    kept 1 100000                the frames of those of its keys whose values are above 500
"""

import re
from itertools import takewhile

HEADERS = {1: b"DEV1", 2: b"DEV2"}
STEPS = {"L": 1, "R": 2, "F": 3}
LEAVES = {"one": 0x10, "int": 0x11, "inl": 0x12, "inr": 0x13, "cut": 0x14, "item": 0x15, "end": 0x16}
PART = re.compile(r'(?:"(?P<letters>[^"]*)"|(?P<header>H)|(?P<digits>(?:[0-9a-f]{2})+))(?:\*(?P<times>\d+))?(?:\s+|$)')


def packed(steps):
    """Steps as version 2 has them: two bits each, four to a byte, the first in the highest bits."""
    fours = (steps[at : at + 4] for at in range(0, len(steps), 4))
    return bytes(sum(step << 6 - 2 * place for place, step in enumerate(four)) for four in fours)


def number(text):
    """A number as a frame has it."""
    return int(text).to_bytes(8, "big", signed=True)


def frame(event, version=1):
    """The frame of an event, which is given as its line."""
    words = event.split()
    steps = [STEPS[word] for word in takewhile(STEPS.get, words)]
    leaf, *numbers = words[len(steps) :]
    path = bytes(steps) if version == 1 else packed(steps)
    return bytes([len(steps), *path, LEAVES[leaf]]) + b"".join(map(number, numbers))


def listed(text):
    """The parts of a text that commas separate."""
    return [it.strip() for it in text.split(",") if it.strip()]


def frames(text, version):
    """The frames of events that commas separate, where H is the header."""
    return b"".join(HEADERS[version] if it == "H" else frame(it, version) for it in listed(text))


def lines(text):
    """The lines of events that commas separate."""
    return "".join(f"{it}\n" for it in listed(text)).encode()


def digits(text):
    """The bytes of hexadecimal digits, of letters in quotes and of H, each as often as is said behind it."""
    found, at = b"", 0
    while at < len(text):
        part = PART.match(text, at)
        if not part:
            raise ValueError(f"these are no bytes: {text[at:]}")
        once = HEADERS[1] if part["header"] else bytes.fromhex(part["digits"] or "")
        found += (once + (part["letters"] or "").encode()) * int(part["times"] or 1)
        at = part.end()
    return found


def load(text):
    """The frames of a load that is told by its start and the number of its items."""
    start, items = map(int, text.split())
    pieces = [frame("item") + b"\2\3\3\x11", frame("F cut") + b"\1\3\x11", frame("cut")]
    pairs = ((key, (7 * key + start) % 1000) for key in range(items))
    each = (pieces[0] + number(key) + pieces[1] + number(value) + pieces[2] for key, value in pairs)
    return HEADERS[1] + b"".join(each) + frame("end")


def kept(text):
    """The frames of the keys of such a load whose values are above 500."""
    start, items = map(int, text.split())
    keys = (key for key in range(items) if (7 * key + start) % 1000 > 500)
    each = (frame("item") + b"\1\3\x11" + number(key) + frame("cut") for key in keys)
    return HEADERS[1] + b"".join(each) + frame("end")


NOTATIONS = {
    "frames": lambda text: frames(text, 1),
    "frames2": lambda text: frames(text, 2),
    "lines": lines,
    "bytes": digits,
    "load": load,
    "kept": kept,
}


def value(text, named):
    """The bytes that a text of a row writes down, where others have names."""
    notation, _, rest = text.partition(" ")
    if notation in NOTATIONS:
        return NOTATIONS[notation](rest.strip())
    front = re.fullmatch(r"first (\d+) of (\S+)", text)
    if front:
        return named[front[2]][: int(front[1])]
    changed = re.fullmatch(r"(\S+) with ([0-9a-f]{2}) at (\d+)", text)
    if changed:
        bytes_, at = named[changed[1]], int(changed[3])
        return bytes_[:at] + bytes.fromhex(changed[2]) + bytes_[at + 1 :]
    return named[text]
