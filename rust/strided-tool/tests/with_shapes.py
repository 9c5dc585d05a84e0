"""Files that are not the job's, calls without a job, calls that take long, and memory. usage: with_shapes.py TOOL"""

import os
import subprocess

import numpy as np

from harness import HERE, TOOL, check, content, done, finish, path, peak, put, refused, run

ROWS, COLUMNS = 80, 120

LOG = """kind = scatter
element = i32
index.extents = 53, 2
index.strides = row-major
updates.extents = 53, 3, 5
updates.strides = row-major
dest.extents = 80, 120
dest.strides = row-major
update_window_dims = 1, 2
inserted_window_dims =
scatter_dims_to_operand_dims = 0, 1
index_vector_dim = 1
"""

# Single cells, at as many starts as there are updates.
CELLS = """kind = scatter
element = i32
index.extents = COUNT
index.strides = STRIDE
updates.extents = COUNT
updates.strides = STRIDE
dest.extents = 5
update_window_dims =
inserted_window_dims = 0
scatter_dims_to_operand_dims = 0
index_vector_dim = 1
"""

WINDOW = """kind = gather
element = i32
operand.extents = 80, 120
operand.strides = row-major
index.extents = 2
dest.extents = 12, 30
dest.strides = row-major
offset_dims = 0, 1
collapsed_slice_dims =
start_index_map = 0, 1
index_vector_dim = 0
slice_sizes = 12, 30
"""

LISTS = ["--update-window-dims", "1,2", "--scatter-dims-to-operand-dims", "0,1", "--index-vector-dim", 1]
READ = ["--offset-dims", "0,1", "--start-index-map", "[0, 1]", "--index-vector-dim", 0, "--slice-sizes", "12,30"]
FILES = ["--starts", "starts.npy", "--updates", "cuts.npy", "--grid", "bed.npy", "--out", "bed.npy"]


def log(count):
    """Starts and cuts of so many places, and what they leave of a grid of zeros."""
    rng = np.random.default_rng(count)
    starts = np.stack([rng.integers(-3, ROWS + 3, count), rng.integers(-3, COLUMNS + 3, count)], axis=1)
    cuts = rng.integers(0, 900, (count, 3, 5)).astype("<i4")
    bed = np.zeros((ROWS, COLUMNS), dtype="<i4")
    for (row, column), cut in zip(starts.clip(0, [ROWS - 3, COLUMNS - 5]), cuts):
        bed[row:row + 3, column:column + 5] += cut
    return starts.astype("<i8"), cuts, bed


def save(starts, cuts, bed=np.zeros((ROWS, COLUMNS), dtype="<i4")):
    for name, array in [("starts", starts), ("cuts", cuts), ("bed", bed)]:
        np.save(path(name + ".npy"), array)


def make(name, text, **changes):
    for old, new in changes.items():
        text = text.replace(old, str(new))
    put(name + ".txt", text)
    done("job", "make", name + ".txt", name + ".job")


def longer_log():
    """54 cuts, or 52, for a job of 53: no cut is left out without a word, whichever file is the wrong one."""
    make("log", LOG)
    wanted = "the job's updates is 53 x 3 x 5, last axis fastest; nothing was done"
    right = log(53)
    for count in [52, 54]:
        other = log(count)
        for starts, cuts, words in [
                (right[0], other[1], [f"cuts.npy: its shape is {count} x 3 x 5, last axis fastest, and", wanted]),
                (other[0], right[1], [f"starts.npy: its shape is {count} x 2, last axis fastest", "the job's index is 53 x 2"])]:
            save(starts, cuts)
            before = content("bed.npy")
            for quiet in [[], ["-q"]]:
                refused(2, [*words, "--any-shape"], *quiet, "scatter", "--job", "log.job", *FILES)
            check(content("bed.npy") == before, f"{count} for 53: the grid is changed")
    save(*right[:2])
    done("-q", "scatter", "--job", "log.job", *FILES)
    check((np.load(path("bed.npy")) == right[2]).all(), "53 cuts for a job of 53")
    save(*log(54)[:2])
    done("-q", "scatter", "--any-shape", "--job", "log.job", *FILES)
    check((np.load(path("bed.npy")) == bed_of_first(53)).all(), "54 cuts for a job of 53, whose layout counts")


def bed_of_first(count):
    """What the first cuts of a log of 54 leave."""
    starts, cuts, _ = log(54)
    save(starts[:count], cuts[:count])
    done("-q", "scatter", *LISTS, *FILES)
    return np.load(path("bed.npy"))


def one_axis():
    make("cells", CELLS, COUNT=3, STRIDE=1)
    for starts, cuts, grid, words in [(3, 4, 5, "cuts.npy: its shape is 4, and the job's updates is 3;"),
                                      (2, 3, 5, "starts.npy: its shape is 2, and the job's index is 3;"),
                                      (3, 3, 6, "bed.npy: its shape is 6, and the job's dest is 5;")]:
        save(np.zeros(starts, dtype="<i8"), np.ones(cuts, dtype="<i4"), np.zeros(grid, dtype="<i4"))
        refused(2, [words], "-q", "scatter", "--job", "cells.job", *FILES)
    save(np.zeros((3, 1), dtype="<i8"), np.ones(3, dtype="<i4"), np.zeros(5, dtype="<i4"))
    refused(2, ["its shape is 3 x 1, and the job's index is 3"], "scatter", "--job", "cells.job", *FILES)


def other_order():
    """A file in the other order than the job's view, in every place; one axis of more than one cell has no order."""
    starts, cuts, bed = log(53)
    turned = [(np.asfortranarray(starts), cuts, None, "starts.npy: its shape is 53 x 2, first axis fastest"),
              (starts, np.asfortranarray(cuts), None, "cuts.npy: its shape is 53 x 3 x 5, first axis fastest"),
              (starts, cuts, np.zeros((ROWS, COLUMNS), dtype="<i4", order="F"), "bed.npy: its shape is 80 x 120, first axis fastest")]
    for starts_file, cuts_file, grid, words in turned:
        save(starts_file, cuts_file, *([] if grid is None else [grid]))
        before = content("bed.npy")
        refused(2, [words, "last axis fastest; nothing was done"], "-q", "scatter", "--job", "log.job", *FILES)
        check(content("bed.npy") == before, f"{words}: the grid is changed")
        done("-q", "scatter", *LISTS, *FILES)
        check((np.load(path("bed.npy")) == bed).all(), f"{words}: without a job its order counts")
    make("window", WINDOW)
    np.save(path("start.npy"), np.array([0, 18], dtype="<i8"))
    np.save(path("bed.npy"), np.asfortranarray(bed))
    call = ["gather", "--job", "window.job", "--starts", "start.npy", "--out", "window.npy", "--operand"]
    refused(2, ["bed.npy: its shape is 80 x 120, first axis fastest, and the job's operand is 80 x 120, last"], "-q", *call, "bed.npy")
    np.save(path("bed.npy"), bed)
    np.save(path("dest.npy"), np.zeros((30, 12), dtype="<i4"))
    refused(2, ["dest.npy: its shape is 30 x 12, last", "the job's dest is 12 x 30, last"], *call, "bed.npy", "--dest", "dest.npy")
    done("-q", *call, "bed.npy")
    check((np.load(path("window.npy")) == bed[:12, 18:48]).all(), "the window by its job")


def without_a_job():
    """A log of any length, none and one among them, in either element."""
    for count in [0, 1, 54, 1000]:
        starts, cuts, bed = log(count)
        for element in ["<i4", "<f8"]:
            save(starts, cuts.astype(element), np.zeros((ROWS, COLUMNS), dtype=element))
            _, _, err = run("scatter", *LISTS, *FILES)
            check(f"added {count * 15} updates ({count} x 3 x 5)" in err, f"a log of {count}: {err}")
            check((np.load(path("bed.npy")) == bed.astype(element)).all(), f"a log of {count} without a job")
    np.save(path("start.npy"), np.array([0, 18], dtype="<i8"))
    for order in "CF":
        np.save(path("bed.npy"), np.array(bed, order=order))
        done("gather", *READ, "--operand", "bed.npy", "--starts", "start.npy", "--out", "window.npy")
        window = np.load(path("window.npy"))
        check((window == bed[:12, 18:48]).all() and window.flags.c_contiguous == (order == "C"), f"a window without a job, {order}")


def refused_without_a_job():
    starts, cuts, _ = log(54)
    save(starts, cuts[:53])
    before = content("bed.npy")
    refused(1, ["the call: refused by 7 ShapeMismatch", "the extents [53] outside update_window_dims, and the index has [54]"],
            "scatter", *LISTS, *FILES)
    refused(1, ["the call: refused by 6 InvalidAxis", "update_window_dims names axis 7"], "scatter", "--update-window-dims", "7,2",
            *LISTS[2:], *FILES)
    refused(1, ["refused by 5 RankMismatch"], "scatter", *LISTS[2:], *FILES)
    save(starts, cuts.astype("<f8"))
    refused(2, ["cuts.npy: it holds f64, and the grid is of i32", "astype('<i4')"], "scatter", *LISTS, *FILES)
    save(starts.astype("<i4"), cuts)
    refused(2, ["starts.npy: it holds i32, and starts are i64"], "scatter", *LISTS, *FILES)
    save(starts, cuts, np.zeros((ROWS, COLUMNS), dtype="<i8"))
    refused(2, ["bed.npy: it holds i64; grids are of i32 or f64"], "scatter", *LISTS, *FILES)
    save(starts, cuts)
    check(content("bed.npy") == before, "the grid stays")
    np.save(path("floats.npy"), np.zeros((12, 30)))
    refused(2, ["floats.npy: it holds f64, and the operand is of i32"], "gather", *READ, "--operand", "bed.npy", "--starts",
            "start.npy", "--dest", "floats.npy", "--out", "w.npy")
    for arguments, words in [
            (["scatter", *LISTS[:4], *FILES], "--index-vector-dim"), (["scatter", *FILES], "--index-vector-dim"),
            (["scatter", "--job", "log.job", *LISTS, *FILES], "cannot be used with"),
            (["scatter", "--any-shape", *LISTS, *FILES], "cannot be used with"),
            (["scatter", "--update-window-dims", "1;2", *LISTS[2:], *FILES], "`1;2` is not a whole number"),
            (["gather", *READ[:6], "--operand", "bed.npy", "--starts", "start.npy", "--out", "w.npy"], "--slice-sizes")]:
        status, _, err = run(*arguments)
        check(status == 2 and words in err, f"{arguments}: {status} {err}")
    check(content("bed.npy") == before, "the grid stays after usage")
    for lists, words in [(["--offset-dims", "0,5", *READ[2:]], "6 InvalidAxis (a = 5, b = 2)"),
                         ([*READ[:6], "--slice-sizes", "12,121"], "the window has 121 cells along axis 1"),
                         ([*READ[:6], "--slice-sizes", "12"], "slice_sizes has 1 entries, and the operand has 2 axes"),
                         (["--offset-dims", ",".join(map(str, range(17))), *READ[2:]], "refused by 2 RankTooLarge")]:
        refused(1, [words], "gather", *lists, "--operand", "bed.npy", "--starts", "start.npy", "--out", "w.npy")
    check(not os.path.exists(path("w.npy")), "a refused gather writes nothing")


def long_calls():
    """More than 2^36 updates are added where --yes is given; a run with it is begun, and ended here."""
    save(np.zeros(1, dtype="<i8"), np.ones(1, dtype="<i4"), np.zeros(5, dtype="<i4"))
    before = content("bed.npy")
    for count, words in [(2**36 + 1, "68719476737 updates (68719476737), which at a nanosecond each take 2 minutes"),
                         (2**40, "take 19 minutes"), (2**45, "take 10 hours"), (2**48, "take 4 days"), (2**62, "take 147 years")]:
        make("many", CELLS, COUNT=count, STRIDE=0)
        refused(2, ["many.job: it has", words, "nothing was done\n--yes"], "-q", "scatter", "--any-shape", "--job", "many.job", *FILES)
    for count, yes in [(2**36, []), (2**62, ["--yes"])]:
        make("many", CELLS, COUNT=count, STRIDE=0)
        command = [TOOL, "scatter", "--any-shape", "--job", "many.job", *yes, *FILES]
        begun = subprocess.Popen(command, cwd=HERE.name, stderr=subprocess.DEVNULL)
        try:
            begun.wait(1)
        except subprocess.TimeoutExpired:
            pass
        check(begun.poll() is None, f"{count} updates with {yes}: {begun.returncode}")
        begun.terminate()
        begun.wait()
    check(content("bed.npy") == before, "a run that was ended leaves the grid")


def memory():
    """A large grid is held once, whatever is done with it."""
    side, little = 5000, 16 << 20
    grid = 4 * side * side
    for order in [False, True]:
        np.lib.format.open_memmap(path("bed.npy"), mode="w+", dtype="<i4", shape=(side, side), fortran_order=order)
        starts, cuts, _ = log(54)
        np.save(path("starts.npy"), starts)
        np.save(path("cuts.npy"), cuts)
        held = peak("scatter", *LISTS, *FILES)
        check(held <= grid + little, f"a scatter on {grid} bytes holds {held}")
        held = peak("gather", *READ, "--operand", "bed.npy", "--starts", "start.npy", "--out", "window.npy")
        check(held <= grid + little, f"a gather from {grid} bytes holds {held}")


def main():
    longer_log()
    one_axis()
    other_order()
    without_a_job()
    refused_without_a_job()
    long_calls()
    memory()
    finish("the tool on files of other shapes and without a job")


main()
