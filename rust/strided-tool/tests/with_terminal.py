"""The progress line: on a terminal while work takes long, and nowhere else. usage: with_terminal.py TOOL"""

import fcntl
import io
import os
import pty
import struct
import subprocess
import termios
import time
from concurrent.futures import ThreadPoolExecutor
from threading import Timer

import numpy as np

from harness import HERE, TOOL, check, content, done, finish, path, put, run

COLUMNS = 80
# What the tool writes to empty the row that the cursor is in.
EMPTY = "\r\x1b[2K"
PAUSE = 0.2
STARTS = 65536
# Another name of standard input, too long for a row.
STDIN = "starts-" + "x" * 2 * COLUMNS + ".npy"

GATHER = """kind = gather
element = i32
operand.extents = 2, 2, 2, 2, 2, 2, 2, 2
index.extents = STARTS, TIMES, 8
index.strides = 8, 0, 1
dest.extents = STARTS, TIMES
dest.strides = row-major
offset_dims =
collapsed_slice_dims = 0, 1, 2, 3, 4, 5, 6, 7
start_index_map = 0, 1, 2, 3, 4, 5, 6, 7
index_vector_dim = 2
slice_sizes = 1, 1, 1, 1, 1, 1, 1, 1
""".replace("STARTS", str(STARTS))

SCATTER = """kind = scatter
element = i32
index.extents = TIMES
index.strides = 0
updates.extents = TIMES
updates.strides = 0
dest.extents = 3
update_window_dims =
inserted_window_dims = 0
scatter_dims_to_operand_dims = 0
index_vector_dim = 1
"""

READ = ["gather", "--any-shape", "--job", "read.job", "--operand", "operand.npy", "--starts"]
CUT = ["scatter", "--any-shape", "--job", "cut.job", "--starts", "start.npy", "--updates", "update.npy", "--grid", "grid.npy"]


def terminal():
    """Two ends of a terminal."""
    ours, theirs = pty.openpty()
    fcntl.ioctl(theirs, termios.TIOCSWINSZ, struct.pack("HHHH", 24, COLUMNS, 0, 0))
    return ours, theirs


def feed(pipe, data):
    """Writes in four parts, with pauses."""
    size = -(-len(data) // 4)
    with pipe:
        for begin in range(0, len(data), size or 1):
            pipe.write(data[begin:begin + size])
            pipe.flush()
            time.sleep(PAUSE)


def drain(pipe):
    """Reads everything, with pauses at the beginning."""
    parts = []
    for _ in range(4):
        parts.append(pipe.read(1 << 14))
        time.sleep(PAUSE if parts[-1] else 0)
    return b"".join(parts) + pipe.read()


def everything(end):
    parts = []
    try:
        while part := os.read(end, 1 << 16):
            parts.append(part)
    except OSError:
        pass  # So a terminal says that its other end is closed.
    os.close(end)
    return b"".join(parts).decode()


def tried(ends, arguments, given=b""):
    """The tool's exit status, what it prints, and what it says to a terminal or a pipe, of which `ends` makes two ends."""
    ours, theirs = ends()
    command = [TOOL, *map(str, arguments)]
    process = subprocess.Popen(command, cwd=HERE.name, stdin=subprocess.PIPE, stdout=subprocess.PIPE, stderr=theirs)
    os.close(theirs)
    limit = Timer(120, process.kill)
    limit.start()
    with process, ThreadPoolExecutor() as pool:
        said = pool.submit(everything, ours)
        pool.submit(feed, process.stdin, given)
        printed = drain(process.stdout)
    limit.cancel()
    return process.returncode, printed, said.result()


def left(shown):
    """What is left on the terminal in the end."""
    rows = shown.replace("\r\n", "\n").split("\n")
    return "\n".join(row.split(EMPTY)[-1] for row in rows)


def lines(shown, words):
    """The different lines that were drawn with these words at their beginning."""
    return {line for line in shown.replace("\n", EMPTY).split(EMPTY) if line.startswith(words)}


def long_work(stages, arguments, given=b""):
    """The same run on a terminal and with a pipe, at the same time; what it prints, and the stages without a line that moves."""
    with ThreadPoolExecutor() as pool:
        on_terminal = pool.submit(tried, terminal, arguments, given)
        off_it = pool.submit(tried, os.pipe, arguments, given)
    status, printed, shown = on_terminal.result()
    said = off_it.result()[2]
    what = arguments[0]
    check(status == 0, f"{what} ended with {status}: {left(shown)!r}")
    check(all(line.startswith("strided: ") for line in said.splitlines()), f"{what} says to a pipe {said!r}")
    check((status, printed, left(shown)) == off_it.result(), f"{what} says {said!r}, and on a terminal {left(shown)!r}")
    seen = {words: lines(shown, words) for words in stages}
    check(all(len(line) <= COLUMNS for line in set().union(*seen.values())), f"{what}: a line is longer than its row")
    return printed, [words for words in stages if len(seen[words]) < 2]


def long_enough(work, size):
    """Work of a size, and of twice and four times the size where it did not take long enough to show its lines."""
    for times in [1, 2, 4]:
        lacking = work(times * size)
        if not lacking:
            break
    check(not lacking, f"{work.__name__}: no line that moves: {lacking}")


def make(name, text, times):
    put(name + ".txt", text.replace("TIMES", str(times)))
    done("job", "make", name + ".txt", name + ".job")


def scene():
    os.symlink("/dev/stdin", path(STDIN))
    np.save(path("operand.npy"), np.arange(256, dtype="<i4"))
    np.save(path("starts.npy"), np.random.default_rng(1).integers(-1, 3, size=(STARTS, 8), dtype="<i8"))
    np.save(path("start.npy"), np.ones(1, dtype="<i8"))
    np.save(path("update.npy"), np.full(1, 3, dtype="<i4"))
    np.save(path("grid.npy"), np.full(3, 5, dtype="<i4"))


def gathered(times):
    """A file that comes slowly, starts that are used many times, and an output that is taken slowly."""
    make("read", GATHER, times)
    stages = ["reading starts-xx", f"gathering {STARTS * times} cells", "writing /dev/stdout"]
    printed, lacking = long_work(stages, READ + [STDIN, "--out", "/dev/stdout"], content("starts.npy"))
    cells = np.load(path("starts.npy")).clip(0, 1) @ 2 ** np.arange(8)
    check(printed and (np.load(io.BytesIO(printed)) == cells[:, None]).all(), f"the cells of {times} times the starts")
    return lacking


def added(times):
    """One update that is added many times."""
    make("cut", SCATTER, times)
    printed, lacking = long_work([f"adding {times} updates"], CUT + ["--out", "/dev/stdout"])
    grid = np.load(io.BytesIO(printed)).tolist() if printed else None
    check(grid == [5, (5 + 3 * times + 2**31) % 2**32 - 2**31, 5], f"the grid of {times} updates: {grid}")
    return lacking


def zeros(shape):
    """A file in Fortran order."""
    np.lib.format.open_memmap(path("zeros.npy"), mode="w+", dtype="<i4", shape=shape, fortran_order=True)


def drawn(times):
    zeros({1: (4096, 4096), 2: (4096, 8192), 4: (8192, 8192)}[times])
    return long_work(["drawing", "writing the picture"], ["show", "zeros.npy", "/dev/stdout", "--cell", 1])[1]


def compared(times):
    zeros((2048, 2048 * times))
    return long_work(["comparing"], ["compare", "zeros.npy", "zeros.npy"])[1]


def refused_after_a_line():
    """After a line has gone, a message stands alone in its row."""
    make("read", GATHER + "operand.offset = 1\n", 1)
    given = content("starts.npy")
    arguments = READ + [STDIN, "--out", "o.npy"]
    status, _, shown = tried(terminal, arguments, given)
    check(status == 1 and lines(shown, "reading starts-xx"), f"refused after long work: {status} {shown!r}")
    check((status, "", left(shown)) == run(*arguments, input=given), f"refused after long work: {left(shown)!r}")


def short_work():
    """Work that is short, but not done at once, shows no line at any time."""
    make("read", GATHER, 4)
    arguments = READ + ["starts.npy", "--out", "/dev/null"]
    status, _, shown = tried(terminal, arguments)
    check((status, "", shown.replace("\r\n", "\n")) == run(*arguments), f"short work: {shown!r}")


def main():
    scene()
    short_work()
    refused_after_a_line()
    long_enough(gathered, 320)
    long_enough(added, 400_000_000)
    long_enough(drawn, 1)
    long_enough(compared, 1)
    finish("the tool on a terminal")


main()
