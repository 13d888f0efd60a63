"""Runs examples/checkpoints over a feed, and kills it at random moments, until it has ended by itself.

What its files then hold, one behind the other, has to be what one run writes.
"""

import os
import random
import signal
import subprocess
import tempfile
import time
from pathlib import Path

from testing import notation
from testing.running import difference

EXAMPLES = Path(__file__).resolve().parent.parent.parent / "examples"

# A program of sums: what is lost, or comes twice, shows in all that comes later.
EXAMPLE = EXAMPLES / "sums.delta"

# How often the items of the example's feed come, and how many lines are a part, which differs from start to start.
TIMES = 60
SIZES = (2, 3, 4)

# It is killed so often at most, each time after fewer parts than so many, at some moment of the next one.
KILLS = 20
PARTS = 10


def repeated(times):
    """The lines of the example's feed, whose items come so many times."""
    *items, last = EXAMPLE.with_suffix(".lines").read_text().splitlines()
    return [*items * times, last]


def begin(program, folder, lines, size, **others):
    """Starts it over the lines of a feed, so many of which are a part, in a group of processes of its own."""
    words = [EXAMPLES / "checkpoints", EXAMPLE, folder, str(size)]
    with tempfile.TemporaryFile() as feed:
        feed.write("".join(f"{it}\n" for it in lines).encode())
        feed.seek(0)
        environment = os.environ | {"DELTA": program}
        return subprocess.Popen(words, stdin=feed, env=environment, start_new_session=True, **others)


def part_time(program, folder):
    """How many seconds a part takes."""
    lines, size = repeated(5), max(SIZES)
    began = time.monotonic()
    begin(program, folder, lines, size).wait()
    return (time.monotonic() - began) * size / len(lines)


def last_place(folder):
    """The place in the feed of the last checkpoint."""
    return max((int(it.stem) for it in folder.glob("*.state")), default=0)


def await_place(process, folder, place):
    """Waits until there is a checkpoint at a place or behind it, or the process has ended."""
    while process.poll() is None and last_place(folder) < place:
        time.sleep(0.002)


def status_or_kill(process, seconds):
    """Its status where it ends in so many seconds, and else none: it is killed then."""
    try:
        return process.wait(seconds)
    except subprocess.TimeoutExpired:
        os.killpg(process.pid, signal.SIGKILL)
        process.wait()
        return None


def status_of_start(program, folder, lines, moments, seconds):
    """Its status where it ends by itself, and none where it is killed: behind some parts, while it makes another."""
    size, parts, moment = moments.choice(SIZES), moments.randrange(PARTS), moments.uniform(0, seconds)
    end, start = os.pipe()
    with open(end, "rb") as watch:
        process = begin(program, folder, lines, size, pass_fds=[start])
        os.close(start)
        await_place(process, folder, last_place(folder) + size * parts)
        status = status_or_kill(process, moment)
        # All that it started has the other end of this pipe, which ends once they are gone.
        watch.read()
        return status


def whole_output(program, lines):
    """What one run writes over the lines of a feed."""
    frames = notation.frames(",".join(["H", *lines]), 1)
    return subprocess.run([program, "run", EXAMPLE], input=frames, stdout=subprocess.PIPE).stdout


def killed(program, seed):
    """How often it was killed, and what is wrong then."""
    lines, moments = repeated(TIMES), random.Random(seed)
    with tempfile.TemporaryDirectory() as top:
        seconds, folder = part_time(program, f"{top}/short"), Path(top, "long")
        kills, status = 0, None
        while status is None and kills < KILLS:
            status = status_of_start(program, folder, lines, moments, seconds)
            kills += status is None
        if status is None:
            status = begin(program, folder, lines, max(SIZES)).wait()
        written = b"".join(it.read_bytes() for it in sorted(folder.glob("*.frames")))
    awaited, wrong = whole_output(program, lines), []
    if status != 0:
        wrong.append(f"it ends with {status}; awaited 0")
    if written != awaited:
        wrong.append(difference("its files hold", awaited, written))
    return kills, wrong
