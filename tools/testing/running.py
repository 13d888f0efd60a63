"""Runs the commands of a row, and tells what comes otherwise than it has to."""

import os
import select
import signal
import socket
import stat
import subprocess
import sys
import tempfile
import threading
import time
from contextlib import ExitStack, contextmanager, suppress
from dataclasses import dataclass
from pathlib import Path

# Seconds after which a command is stopped, and after which an answer that isn't there is missed.
LONGEST = 60
LATEST = 15

# Seconds in which nothing more may come behind an answer.
QUIET = 0.1

# What stands in the input of a command that isn't to read any.
UNREAD = b"DEV1"

# Runs a program whose files take so many bytes and no more.
LIMITED = """
import os, resource, signal, sys
signal.signal(signal.SIGXFSZ, signal.SIG_IGN)
resource.setrlimit(resource.RLIMIT_FSIZE, (int(sys.argv[1]),) * 2)
os.execv(sys.argv[2], sys.argv[2:])
"""


@dataclass
class Came:
    """What came of a command."""

    output: bytes
    note: bytes
    status: int


def shown(bytes_, other):
    """Bytes as hexadecimal digits; of many, some round the first at which others differ."""
    if len(bytes_) <= 64:
        return bytes_.hex() or "nothing"
    start = max(0, len(os.path.commonprefix([bytes_, other])) - 16)
    return f"..{bytes_[start : start + 48].hex()}.., from byte {start} on of {len(bytes_)}"


def difference(what, awaited, came):
    """The line that tells of other bytes than were awaited."""
    return f"{what} {shown(came, awaited)}; awaited {shown(awaited, came)}"


def is_on_disk(file):
    """Whether a file is no pipe, no socket and no device."""
    return stat.S_ISREG(os.fstat(file.fileno()).st_mode)


def opened_pipe(held):
    """The end of a pipe from which bytes come, and the one into which they go."""
    end, start = os.pipe()
    return held.enter_context(open(end, "rb", 0)), held.enter_context(open(start, "wb", 0))


def put(start, bytes_):
    """Puts bytes into a pipe, as long as somebody reads."""
    with suppress(BrokenPipeError):
        while bytes_:
            bytes_ = bytes_[start.write(bytes_) :]


def put_pieces(start, given, size):
    """Puts bytes into a pipe, so many at a time, and ends it."""
    with start:
        for at in range(0, len(given), size):
            put(start, given[at : at + size])


def fed_input(given, size, held):
    """The end of a pipe into which bytes are put meanwhile, so many at a time."""
    end, start = opened_pipe(held)
    feeder = threading.Thread(target=put_pieces, args=(start, given, size or len(given) or 1))
    feeder.start()
    held.callback(feeder.join)
    return end


def failing_input(given, held):
    """A socket that gives these bytes and then fails, as its other end was closed with something unread."""
    here, there = (held.enter_context(it) for it in socket.socketpair())
    there.sendall(b"unread")
    here.sendall(given)
    here.close()
    return there


def unread_input(held):
    """A file that isn't to be read."""
    file = held.enter_context(tempfile.TemporaryFile())
    file.write(UNREAD)
    file.seek(0)
    return file


def opened_input(command, held):
    """What a command reads from, and for one that takes turns the pipe that leads there."""
    if command.turns is not None:
        return opened_pipe(held)
    if command.is_unread():
        return unread_input(held), None
    if "input" in command.fails:
        return failing_input(command.given, held), None
    return fed_input(command.given, command.piece, held), None


def opened_output(way, held):
    """What a command writes to, and where that is read, unless it fails in such a way that nothing comes."""
    if way == "full":
        return held.enter_context(open("/dev/full", "wb")), None
    if way.startswith("after"):
        file = held.enter_context(tempfile.TemporaryFile())
        return file, file
    end, start = opened_pipe(held)
    if way == "closed":
        end.close()
        return start, None
    return start, end


def started(program, command, folder, source, output, notes):
    """The processes of a command, each of which reads what the one before writes."""
    sizes = [it.split()[-1] for it in command.fails.values() if it.startswith("after")]
    limits = [sys.executable, "-I", "-S", "-c", LIMITED, *sizes] if sizes else []
    processes = []
    for words in command.pipe:
        target = output if words is command.pipe[-1] else subprocess.PIPE
        line = [*limits, program, *words]
        ends = {"stdin": source, "stdout": target, "stderr": notes}
        processes.append(subprocess.Popen(line, cwd=folder, start_new_session=True, **ends))
        if not is_on_disk(source):
            source.close()
        source = processes[-1].stdout
    for file in (output, notes):
        if not is_on_disk(file):
            file.close()
    return processes


@contextmanager
def stopped(processes, seconds):
    """Stops processes after some seconds."""
    timer = threading.Timer(seconds, kill, [processes])
    timer.start()
    try:
        yield
    finally:
        timer.cancel()


def kill(processes):
    """Ends processes that haven't ended yet, and what they started."""
    for process in processes:
        if process.poll() is None:
            os.killpg(process.pid, signal.SIGKILL)


def answer(end, length):
    """What is written: as many bytes as are awaited, if they come in time, and what comes at once behind them."""
    found, latest = b"", time.monotonic() + LATEST
    while True:
        wait = QUIET if len(found) >= length else latest - time.monotonic()
        is_ready = select.select([end], [], [], max(0, wait))[0]
        more = os.read(end.fileno(), 1 << 16) if is_ready else b""
        if not more:
            return found
        found += more


def talk(turns, start, end):
    """Goes through turns, and tells of the first at which something else is written."""
    for place, (comes, goes) in enumerate(turns, 1):
        put(start, comes)
        came = answer(end, len(goes))
        if came != goes:
            return [difference(f"at turn {place} it writes", goes, came)]
    return []


def written(file, processes):
    """What was written: to a pipe, or to a file once all have ended."""
    if file is None:
        return b""
    if is_on_disk(file):
        status(processes)
        file.seek(0)
    return file.read()


def status(processes):
    """The status of the last process that didn't end with 0, or else 0."""
    return next((it for it in reversed([it.wait() for it in processes]) if it), 0)


def run(program, command, folder):
    """What came of a command, and what went wrong meanwhile."""
    with ExitStack() as held:
        source, start = opened_input(command, held)
        output, end = opened_output(command.fails.get("output", ""), held)
        notes, told = opened_output(command.fails.get("notes", ""), held)
        processes = started(program, command, folder, source, output, notes)
        with stopped(processes, LATEST if command.stays_open else LONGEST):
            wrong = talk(command.turns, start, end) if start else []
            if wrong:
                kill(processes)
            elif start and not command.stays_open:
                start.close()
            came = Came(written(end, processes), written(told, processes), status(processes))
        if command.is_unread() and os.lseek(source.fileno(), 0, os.SEEK_CUR):
            wrong = ["it reads of an input that it isn't to read"]
        return came, wrong


def awaited_note(command):
    """What a command has to tell, as far as it can."""
    way = command.fails.get("notes", "")
    if way.startswith("after"):
        return command.note[: int(way.split()[-1])]
    return b"" if way else command.note


def differences(command, came):
    """What of a command came otherwise."""
    if came.output != command.output:
        yield difference("it writes", command.output, came.output)
    if came.status != command.status:
        end = f"it ends with {came.status}" if came.status >= 0 else f"it is ended by signal {-came.status}"
        yield f"{end}; awaited {command.status}"
    note = awaited_note(command)
    if came.note != note:
        yield f"it tells {came.note.decode(errors='replace')!r}; awaited {note.decode()!r}"


def file_differences(folder, files):
    """Which files are otherwise than they have to be."""
    found = {path.name: path.read_bytes() for path in Path(folder).iterdir()}
    for name in sorted(found.keys() | files.keys()):
        if name not in files:
            yield f"it leaves a file {name}"
        elif name not in found:
            yield f"it leaves no file {name}"
        elif found[name] != files[name]:
            yield difference(f"the file {name} holds", files[name], found[name])


def command_faults(program, command, folder, files):
    """What is wrong with a command, which then has left some files."""
    came, wrong = run(program, command, folder)
    if wrong:
        return wrong
    for name, bytes_ in command.left.items():
        path = Path(folder, name)
        files[name] = path.read_bytes() if bytes_ is None and path.exists() else bytes_ or b""
    return [*differences(command, came), *file_differences(folder, files)]


def row_faults(program, row):
    """What is wrong with the first command of a row that isn't answered as it has to be, behind its words."""
    with tempfile.TemporaryDirectory() as folder:
        files = dict(row.files)
        for name, bytes_ in files.items():
            Path(folder, name).write_bytes(bytes_)
        for command in row.commands:
            wrong = command_faults(program, command, folder, files)
            if wrong:
                return [" | ".join(" ".join(it) for it in command.pipe), *wrong]
    return []
