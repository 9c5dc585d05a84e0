"""The tool beside other runs and programs that use its output, and ended by signals. usage: with_others.py TOOL"""

import contextlib
import fcntl
import glob
import os
import shutil
import signal
import subprocess
import time
from threading import Timer

import numpy as np

from harness import HERE, TOOL, check, content, done, finish, left_behind, path, put, refused, run

HARBOUR = os.path.join(os.path.dirname(os.path.abspath(__file__)), "../../../harbour")
PAIRS = 40
LIMIT = 30
# Elements of a grid that takes a while to write.
MANY = 1 << 24

MANY_TEXT = f"""kind = scatter
element = i32
index.extents = 1
updates.extents = 1
dest.extents = {MANY}
update_window_dims =
inserted_window_dims = 0
scatter_dims_to_operand_dims = 0
index_vector_dim = 1
"""


def cut(ship, grid="bed.npy", out="bed.npy", starts=None):
    """The arguments that put a ship's log on a grid."""
    return ["scatter", "--job", f"{ship}.job", "--starts", starts or f"{ship}_starts.npy", "--updates", f"{ship}_cuts.npy",
            "--grid", grid, "--out", out]


def scene():
    for name in glob.glob(os.path.join(HARBOUR, "*.npy")):
        shutil.copy(name, HERE.name)
    for ship in ["north", "south"]:
        done("job", "make", os.path.join(HARBOUR, f"{ship}.txt"), f"{ship}.job")
    done("job", "make", os.path.join(HARBOUR, "berth.txt"), "berth.job")
    os.mkfifo(path("pipe.npy"))


def fresh():
    """A basin that nothing has been put on; its content."""
    shutil.copy(path("basin.npy"), path("bed.npy"))
    return content("bed.npy")


def begin(*arguments, **options):
    """A run that is not waited for, and is killed where it takes too long."""
    process = subprocess.Popen([TOOL, *arguments], cwd=HERE.name, stderr=subprocess.PIPE, **options)
    limit = Timer(LIMIT, process.kill)
    limit.daemon = True
    limit.start()
    return process


def after(*ships):
    """The basin after these ships, one after the other."""
    basin = np.load(path("basin.npy"))
    grid = basin.copy()
    for ship in ships:
        done(*cut(ship, "basin.npy", "alone.npy"))
        added = np.load(path("alone.npy")) - basin
        check(added.sum() == np.load(path(f"{ship}_cuts.npy")).sum(), f"the sum of {ship}'s cuts")
        grid += added
    return grid


def at_once(times, *ships):
    """Ships on one file at once: no one's cuts are lost."""
    wanted = after(*ships)
    for number in range(times):
        fresh()
        runs = [begin(*cut(ship)) for ship in ships]
        said = [each.communicate(timeout=LIMIT)[1].decode() for each in runs]
        statuses = [each.returncode for each in runs]
        check(statuses == [0] * len(ships), f"{ships}, {number}: {statuses} {said}")
        check((np.load(path("bed.npy")) == wanted).all(), f"{ships}, {number}: cuts are lost")
        check(not left_behind(), f"{ships}, {number}: {left_behind()}")


def is_locked(name):
    with open(path(name), "rb") as file:
        try:
            fcntl.flock(file, fcntl.LOCK_EX | fcntl.LOCK_NB)
        except BlockingIOError:
            return True
    return False


def until(holds, what):
    end = time.monotonic() + LIMIT
    while not (found := holds()) and time.monotonic() < end:
        pass
    check(found, f"waited in vain: {what}")


@contextlib.contextmanager
def holding(out="bed.npy", grid="bed.npy"):
    """A run that has claimed its output and waits for its starts, which come through a pipe."""
    holder = begin(*cut("north", grid, out, "pipe.npy"))
    try:
        if os.path.exists(path(out)):
            until(lambda: is_locked(out), "the lock")
        yield holder
    finally:
        holder.kill()
        holder.communicate()


def fed(holder):
    """Gives a run the starts that it waits for; its exit status, and what it says."""
    with open(path("pipe.npy"), "wb") as pipe:
        pipe.write(content("north_starts.npy"))
    said = holder.communicate(timeout=LIMIT)[1].decode()
    return holder.returncode, said


def without_waiting():
    """--no-wait, of every command that writes."""
    before = fresh()
    words = ["bed.npy: another run is writing it", "--no-wait", "nothing was done"]
    with holding() as holder:
        refused(3, words, *cut("south"), "--no-wait")
        refused(3, words, "gather", "--job", "berth.job", "--operand", "basin.npy", "--starts", "berth_start.npy", "--out",
                "bed.npy", "--no-wait")
        refused(3, words, "show", "basin.npy", "bed.npy", "--no-wait")
        refused(3, words, "job", "make", os.path.join(HARBOUR, "north.txt"), "bed.npy", "--no-wait")
        os.symlink("bed.npy", path("link.npy"))
        refused(3, ["link.npy: another run"], *cut("south", "link.npy", "link.npy"), "--no-wait")
        check(content("bed.npy") == before, "a run that would not wait has changed the grid")
        done(*cut("south", out="elsewhere.npy"), "--no-wait")
        status, said = fed(holder)
        check(status == 0, f"the holder: {status} {said}")
    done(*cut("south"), "--no-wait")
    check((np.load(path("bed.npy")) == after("north", "south")).all(), "the grid after the holder and one that did not wait")


def killed_holder():
    """A holder that is killed blocks nobody, neither who waits nor who comes."""
    fresh()
    with holding() as holder:
        waits = begin("-q", *cut("south"))
        line = waits.stderr.readline().decode()
        check(line == "strided: waiting for bed.npy, which another run is writing\n", f"waiting: {line}")
        holder.send_signal(signal.SIGKILL)
        holder.wait()
        rest = waits.communicate(timeout=LIMIT)[1].decode()
        check(waits.returncode == 0 and rest == "", f"the one that waited: {waits.returncode} {rest}")
    with holding() as holder:
        holder.send_signal(signal.SIGKILL)
        holder.wait()
        done(*cut("north"), "--no-wait")
    check((np.load(path("bed.npy")) == after("north", "south")).all(), "the grid after killed holders")


def written_meanwhile():
    """What another program, which takes no lock, writes meanwhile is not lost."""
    def replaced():
        shutil.copy2(path("bed.npy"), path("other.npy"))
        os.replace(path("other.npy"), path("bed.npy"))

    def rewritten():
        data = content("bed.npy")
        put("bed.npy", data[:-1] + b"\x01")

    def touched():
        os.utime(path("bed.npy"), ns=(0, os.stat(path("bed.npy")).st_mtime_ns + 1))

    def grown():
        times = os.stat(path("bed.npy"))
        put("bed.npy", content("bed.npy") + b"x")
        os.utime(path("bed.npy"), ns=(times.st_atime_ns, times.st_mtime_ns))

    # The grid is read after the starts: one that has grown is refused for that, where it is also the output.
    in_place = [(change, "bed.npy") for change in [replaced, rewritten, touched]]
    for change, grid in [*in_place, (rewritten, "basin.npy"), (grown, "basin.npy")]:
        fresh()
        with holding(grid=grid) as holder:
            change()
            now = content("bed.npy")
            status, said = fed(holder)
        check(status == 2 and "bed.npy: another program has changed it meanwhile" in said, f"{change}: {status} {said}")
        check(content("bed.npy") == now, f"{change}: it is lost")
    with holding("made.npy", "basin.npy") as holder:
        # It opens the pipe once it has claimed its output.
        with open(path("pipe.npy"), "wb") as pipe:
            put("made.npy", "made by another")
            pipe.write(content("north_starts.npy"))
        said = holder.communicate(timeout=LIMIT)[1].decode()
        check(holder.returncode == 2 and "made.npy: another program" in said, f"made meanwhile: {holder.returncode} {said}")
    check(content("made.npy") == b"made by another", "what was made meanwhile is lost")
    check(not left_behind(), f"left behind: {left_behind()}")


def ended_waiting():
    """Signals to a run that waits for the lock."""
    for number in [signal.SIGINT, signal.SIGTERM, signal.SIGHUP]:
        before = fresh()
        with open(path("bed.npy"), "rb") as file:
            fcntl.flock(file, fcntl.LOCK_EX)
            waits = begin(*cut("south"))
            waits.stderr.readline()
            waits.send_signal(number)
            waits.communicate(timeout=LIMIT)
        check(waits.returncode == -number, f"{number} while it waits: {waits.returncode}")
        check(content("bed.npy") == before and not left_behind(), f"{number} while it waits: {left_behind()}")
    fresh()
    with open(path("bed.npy"), "rb") as file:
        fcntl.flock(file, fcntl.LOCK_EX)
        waits = begin(*cut("south"), preexec_fn=lambda: signal.signal(signal.SIGHUP, signal.SIG_IGN))
        waits.stderr.readline()
        waits.send_signal(signal.SIGHUP)
        time.sleep(0.2)
    said = waits.communicate(timeout=LIMIT)[1].decode()
    check(waits.returncode == 0, f"a signal that is ignored, as under nohup: {waits.returncode} {said}")


def stopped_writing(before):
    """A run that is stopped while its new file is there. Where the machine is busy the stop may come too late: then once more."""
    for _ in range(10):
        writes = begin("scatter", "--job", "many.job", "--starts", "one_start.npy", "--updates", "one_cut.npy", "--grid",
                       "many.npy", "--out", "many.npy")
        until(lambda: left_behind() or writes.poll() is not None, "a new file beside")
        writes.send_signal(signal.SIGSTOP)
        if left_behind():
            break
        writes.send_signal(signal.SIGCONT)
        writes.communicate(timeout=LIMIT)
        with open(path("many.npy"), "wb") as file:
            file.write(before)
    return writes


def ended_writing():
    """Signals to a run that writes: it is stopped while its new file is there, and ended from there."""
    put("many.txt", MANY_TEXT)
    done("job", "make", "many.txt", "many.job")
    np.save(path("many.npy"), np.zeros(MANY, dtype="<i4"))
    np.save(path("one_start.npy"), np.array([5], dtype="<i8"))
    np.save(path("one_cut.npy"), np.array([7], dtype="<i4"))
    before = content("many.npy")
    for number in [signal.SIGINT, signal.SIGTERM]:
        writes = stopped_writing(before)
        check(left_behind(), f"{number}: it was stopped too late")
        writes.send_signal(number)
        writes.send_signal(signal.SIGCONT)
        said = writes.communicate(timeout=LIMIT)[1].decode()
        check(writes.returncode == -number, f"{number} while it writes: {writes.returncode} {said}")
        check(content("many.npy") == before, f"{number} while it writes: the old file is not whole")
        check(not left_behind(), f"{number} while it writes: {left_behind()}")
        for name in left_behind():
            os.remove(path(name))


def ended_by_limit():
    """A limit on the size of files, as the shell sets it, with the signal that ends a program."""
    before = fresh()
    for out in ["bed.npy", "limited.npy"]:
        arguments = ["-c", 'ulimit -f 8; exec "$@"', "sh", TOOL, *cut("south", out=out)]
        refused(2, [f"{out}: cannot write it", "File too large"], *arguments, tool="/bin/sh")
        check(not left_behind(), f"the limit: {left_behind()}")
        for name in left_behind():
            os.remove(path(name))
    check(content("bed.npy") == before, "a limit leaves the old file")
    check(not os.path.exists(path("limited.npy")), "a limit leaves no part of an output")


def main():
    # A shell starts what runs in the background with SIGINT ignored, which the runs would keep to.
    for number in [signal.SIGHUP, signal.SIGINT, signal.SIGQUIT, signal.SIGTERM]:
        signal.signal(number, signal.SIG_DFL)
    scene()
    at_once(PAIRS, "north", "south")
    at_once(PAIRS // 4, "north", "south", "north")
    without_waiting()
    killed_holder()
    written_meanwhile()
    ended_waiting()
    ended_writing()
    ended_by_limit()
    finish("the tool beside other runs")


main()
