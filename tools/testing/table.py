"""Reads the tables of rows: command lines, what they are given, and what has to come of them.

A table is a list of entries. An entry is a word at the start of a line. What it says stands behind the word, or in the
lines below it, which begin with four spaces. Lines that begin with # are remarks. Two kinds of entries stand alone:

    text NAME     gives bytes a name. A command with NAME among its words finds a file of that name with these bytes.
    row NAME      begins a row, to which the entries below it belong.

These are the entries of a row:

    each A  B     makes a row of each line below it. There stand values for the names A and B, two spaces or more apart,
                  which are put in for these names wherever they stand in the row. Where the first value is such as
                  `0 to 3`, each of these numbers makes a row.
    file NAME     a file that is there.
    words         the words of a command, or of several with | between them, each of which reads what the one before it
                  writes. A word that begins with examples/ is a file of this repository. The entries up to the next
                  `words` are about this command. The commands of a row come in turn, in one folder.
    in            what the command reads. Where nothing is said, it may not read.
    pieces N      says that this comes N bytes at a time.
    turns IN OUT  what comes in turns. A line below it is a turn: what comes -> what is due before more comes.
                  Behind the last turn the input ends; if the last line is `stays open`, the command has to end first.
    out           what it writes, without what it wrote at its turns. Where nothing is said, it may not write.
    fails         what fails. `input`: the read behind all that comes. `output`, or `notes` for standard error: each
                  write (`full`), each write since nobody reads (`closed`), the write behind N bytes (`after N`).
    ends N NOTE   its status, and what it tells on standard error behind `delta: `.
    left NAME     what a file then holds, or `any`. All other files have to be as they were.

Bytes are written down as notation.py says; IN and OUT are `frames`, `frames2`, `lines` or `bytes` of that page. Lines
below an entry are a text, each with its line end. A line `1000 to 2000: TEXT` is as many lines, each with its number in
the place of #.
"""

import itertools
import re
import shlex
from dataclasses import dataclass, field
from pathlib import Path

from testing import notation

TOOLS = Path(__file__).resolve().parent.parent
TABLES = TOOLS / "rows"
EXAMPLES = TOOLS.parent / "examples"
COLUMNS = re.compile(r"\s{2,}")
RANGE = re.compile(r"(\d+) to (\d+)")
NUMBERED = re.compile(r"(\d+) to (\d+): (.*)")


@dataclass
class Command:
    """A command line, what it is given, and what it has to write, tell and leave."""

    pipe: list
    given: bytes | None = None
    piece: int | None = None
    turns: list | None = None
    stays_open: bool = False
    fails: dict = field(default_factory=dict)
    output: bytes = b""
    status: int | None = None
    note: bytes = b""
    left: dict = field(default_factory=dict)

    def is_unread(self):
        """Whether it isn't to read anything."""
        return self.given is None and self.turns is None


@dataclass
class Row:
    """A name, files that are there, and commands that come in turn."""

    name: str
    files: dict
    commands: list


@dataclass
class Entry:
    """A word of a table, what stands behind it, and the lines below it."""

    word: str
    rest: str
    below: list

    def with_values(self, values):
        """The same with values in the place of names."""
        if not values:
            return self
        names = re.compile(r"\b(" + "|".join(values) + r")\b")
        rest, *below = (names.sub(lambda it: values[it[0]], line) for line in (self.rest, *self.below))
        return Entry(self.word, rest, below)


def entries(table):
    """The entries of a table."""
    found = []
    for line in table.splitlines():
        if not line.strip() or line.startswith("#"):
            continue
        if line.startswith("    "):
            found[-1].below.append(line[4:])
        else:
            word, _, rest = line.partition(" ")
            found.append(Entry(word, rest.strip(), []))
    return found


def numbered(line):
    """The lines for which a line stands."""
    many = NUMBERED.fullmatch(line)
    return [many[3].replace("#", str(it)) for it in range(int(many[1]), int(many[2]) + 1)] if many else [line]


def bytes_of(text, below, named):
    """The bytes that an entry gives, by what stands behind it or by the lines below it."""
    if below:
        return "".join(f"{it}\n" for line in below for it in numbered(line)).encode()
    return notation.value(text, named)


def choices(entry):
    """The values of the names of an `each`: of each line, and of each number where the first value is a range."""
    names = COLUMNS.split(entry.rest)
    for line in entry.below:
        first, *others = COLUMNS.split(line.strip()) if len(names) > 1 else [line.strip()]
        numbers = RANGE.fullmatch(first)
        for it in range(int(numbers[1]), int(numbers[2]) + 1) if numbers else [first]:
            values = [str(it), *others]
            yield dict(zip(names, values + [""] * (len(names) - len(values)), strict=True))


def turn(line, ways):
    """What comes at a turn, and what has to be written then."""
    comes, _, goes = line.partition("->")
    return tuple(notation.value(f"{way} {it.strip()}", {}) for way, it in zip(ways, (comes, goes)))


def add_file(row, entry, named):
    """Adds a file."""
    name, _, rest = entry.rest.partition(" ")
    row.files[name] = bytes_of(rest.strip(), entry.below, named)


def add_command(row, entry, named):
    """Adds a command, and files for those of its words that are names of texts."""
    words = [str(EXAMPLES.parent / it) if it.startswith("examples/") else it for it in shlex.split(entry.rest)]
    pipe = [list(it) for is_bar, it in itertools.groupby(words, "|".__eq__) if not is_bar]
    row.commands.append(Command(pipe or [[]]))
    row.files |= {it: named[it] for it in words if it in named and it not in row.files}


def add_input(row, entry, named):
    """Says what a command reads."""
    row.commands[-1].given = bytes_of(entry.rest, entry.below, named)


def add_pieces(row, entry, _named):
    """Says of how many bytes the pieces are that come."""
    row.commands[-1].piece = int(entry.rest)


def add_turns(row, entry, _named):
    """Says what comes in turn, and what has to be written then."""
    lines = [it for it in entry.below if it.strip() != "stays open"]
    row.commands[-1].stays_open = len(lines) < len(entry.below)
    row.commands[-1].turns = [turn(it, entry.rest.split()) for it in lines]


def add_output(row, entry, named):
    """Says what a command has to write."""
    row.commands[-1].output = bytes_of(entry.rest, entry.below, named)


def add_fault(row, entry, _named):
    """Says what of a command's surroundings fails, and how."""
    where, _, how = entry.rest.partition(" ")
    row.commands[-1].fails[where] = how.strip()


def add_end(row, entry, _named):
    """Says how a command has to end."""
    status, _, note = entry.rest.partition(" ")
    row.commands[-1].status = int(status)
    row.commands[-1].note = f"delta: {note.strip()}\n".encode() if note.strip() else b""


def add_left(row, entry, named):
    """Says what a file has to hold behind a command."""
    name, _, rest = entry.rest.partition(" ")
    row.commands[-1].left[name] = None if rest.strip() == "any" else bytes_of(rest.strip(), entry.below, named)


PARTS = {
    "file": add_file,
    "words": add_command,
    "in": add_input,
    "pieces": add_pieces,
    "turns": add_turns,
    "out": add_output,
    "fails": add_fault,
    "ends": add_end,
    "left": add_left,
}


def rows_of(template, named):
    """The rows that the entries of one row stand for."""
    each = [list(choices(it)) for it in template if it.word == "each"]
    for chosen in itertools.product(*each):
        values = {name: value for line in chosen for name, value in line.items()}
        first, *others = (it.with_values(values) for it in template if it.word != "each")
        row = Row(first.rest, {}, [])
        for entry in others:
            try:
                PARTS[entry.word](row, entry, named)
            except (LookupError, ValueError) as error:
                raise SystemExit(f"the row {row.name}: {entry.word} {entry.rest}: {error!r}") from error
        yield row


def read_tables():
    """The rows of all tables, by their names."""
    named, templates = {}, []
    for path in sorted(TABLES.glob("*.txt")):
        for entry in entries(path.read_text()):
            if entry.word == "text":
                name, _, rest = entry.rest.partition(" ")
                named[name] = bytes_of(rest.strip(), entry.below, named)
            elif entry.word == "row":
                templates.append([entry])
            else:
                templates[-1].append(entry)
    rows = {}
    for row in itertools.chain.from_iterable(rows_of(it, named) for it in templates):
        if row.name in rows:
            raise ValueError(f"two rows have the name {row.name}")
        rows[row.name] = row
    return rows
