"""A scatter with a chart under its updates beside NumPy, what is told of it, and charts that are refused.
usage: with_chart.py TOOL [SEED] [COUNT]"""

import fcntl
import os
import random
import signal
import subprocess
import sys

import numpy as np

from harness import HERE, TOOL, check, content, done, finish, left_behind, path, peak, put, refused, run
from reference import SCATTER, options, random_scatter, scatter, values

RULES = {"i32": ["add", "lowest", "highest", "replace"]}
RULES["f64"] = [*RULES["i32"], "ceiling:0.5", "ceiling:-inf", "ceiling:nan"]
ORDERS = {"C": np.ascontiguousarray, "F": np.asfortranarray}

# Single cells of a grid of one axis.
LISTS = ["--inserted-window-dims", 0, "--scatter-dims-to-operand-dims", 0, "--index-vector-dim", 1]
# Windows of a grid of two axes.
WINDOWS = ["--update-window-dims", "1,2", "--scatter-dims-to-operand-dims", "0,1", "--index-vector-dim", 1]
LOG = ["--starts", "starts.npy", "--updates", "updates.npy"]
CHART = ["--chart", "chart.npy"]
GRID = ["--grid", "grid.npy"]


def save(starts, updates, chart, grid=None):
    np.save(path("starts.npy"), np.asarray(starts, dtype="<i8"))
    np.save(path("updates.npy"), updates)
    np.save(path("chart.npy"), chart)
    np.save(path("grid.npy"), chart if grid is None else grid)


def small(element="<i4"):
    """Three updates, of which one is moved inward, on a chart of five cells; the grid holds something else."""
    save([0, 0, 9], np.array([3, 4, 5], dtype=element), np.array([10, 20, 30, 40, 50], dtype=element),
         np.full(5, -7, dtype=element))


def windows(chart, grid=None, count=1, element="<i4"):
    """Updates of 3 rows and 5 columns on a chart of two axes; what they leave."""
    rng = np.random.default_rng(count)
    cuts = rng.integers(-900, 900, (count, 3, 5)).astype(element)
    starts = np.stack([rng.integers(-3, chart.shape[0], count), rng.integers(-3, chart.shape[1], count)], axis=1)
    save(starts, cuts, chart, grid)
    wanted = chart.copy()
    for (row, column), cut in zip(starts.clip(0, np.array(chart.shape) - [3, 5]), cuts):
        wanted[row:row + 3, column:column + 5] += cut
    return wanted


def left(*arguments, out="out.npy"):
    """The grid that a run with a chart leaves."""
    done("scatter", *arguments, *LOG, *CHART, "--out", out)
    return np.load(path(out))


def same(result, wanted, order, what):
    """Bit for bit, and in this order where the axes have one."""
    ordered = result.flags.c_contiguous if order == "C" else result.flags.f_contiguous
    check(result.dtype == wanted.dtype and result.shape == wanted.shape and result.tobytes() == wanted.tobytes() and ordered,
          f"{what}: {result} and not {wanted}")


def two_axes():
    """A chart in both orders, for a grid in both orders and for none, of both elements."""
    rng = np.random.default_rng(3)
    for element in ["<i4", "<f8"]:
        base = rng.integers(5000, 9000, (30, 40)).astype(element)
        for chart, grid in [(chart, grid) for chart in ORDERS for grid in [*ORDERS, None]]:
            held = None if grid is None else ORDERS[grid](rng.integers(-9, 9, base.shape).astype(element))
            wanted = windows(ORDERS[chart](base), held, 25, element)
            before = content("chart.npy")
            result = left(*WINDOWS, *([] if grid is None else GRID))
            same(result, wanted, grid or chart, f"{element}, a chart in {chart} order, the grid in {grid}")
            check(content("chart.npy") == before, "the chart is as it was")


def in_place():
    """The output may be the file of the grid: whatever it held, it becomes the chart with the updates."""
    chart = np.arange(1200, dtype="<i4").reshape(30, 40)
    for order in ORDERS:
        wanted = windows(chart, ORDERS[order](np.full_like(chart, 77)), 25)
        for _ in range(2):
            same(left(*WINDOWS, *GRID, out="grid.npy"), wanted, order, f"in place, in {order} order")


def beside_loops(seed, count):
    """Windows of all kinds in either order by each rule, with NaN, infinities and zeros: bit for bit where nothing is added."""
    rng = random.Random(seed)
    for number in range(count):
        element = rng.choice(["i32", "f64"])
        spec, index, updates, dest = random_scatter(rng, element)
        rule = rng.choice(RULES[element])
        orders = [rng.choice(list(ORDERS)) for _ in range(4)]
        grid = values(rng, element, dest.array.size).reshape(dest.array.shape)
        arrays = [ORDERS[order](array).reshape(array.shape, order="A")
                  for order, array in zip(orders, (index.array, updates.array, dest.array, grid))]
        wanted = arrays[2].copy(order="K")
        scatter(*arrays[:2], wanted, spec, rule)
        save(*arrays)
        given = rng.choice([[], GRID])
        result = left("--rule", rule, *options(spec), *given)
        if element == "f64" and rule.startswith(("add", "ceiling")):
            for array in (result, wanted):
                array[np.isnan(array)] = np.nan
        same(result, wanted, orders[3 if given else 2], f"seed {seed} case {number}, {rule} of {element}, {given}")


def bits():
    """A chart's NaNs have bits of their own, and keep them where nothing lands; so do zeros, and cells that no update changes."""
    chart = np.array([0x7ff8dead00000001, 0xfff800000000beef, 1 << 63, 0, 0x7ff8000000000000, 0x3ff0000000000000],
                     dtype="<u8").view("<f8")
    for grid in [[], GRID]:
        save([5], np.array([2.0]), chart, np.ones(6))
        for rule, last in [("add", 3.0), ("replace", 2.0), ("highest", 2.0), ("lowest", 1.0), ("ceiling:2.5", 2.5)]:
            result = left("--rule", rule, *LISTS, *grid)
            check(result[:5].tobytes() == chart[:5].tobytes() and result[5] == last, f"{rule}, {grid}: {result.view('<u8')}")
        save([0, 1, 2], np.array([1.0, -np.inf, 0.0]), chart, np.ones(6))
        for rule in ["lowest", "highest"]:
            result = left("--rule", rule, *LISTS, *grid)
            check(result.tobytes() == chart.tobytes(), f"{rule} on NaN, {grid}: {result.view('<u8')}")
        small_nan = np.array([0x7ff0000000000001], dtype="<u8").view("<f8")
        save([], np.zeros(0), small_nan, np.ones(1))
        check(left(*LISTS, *grid).tobytes() == small_nan.tobytes(), f"a signalling NaN, {grid}")


def without_updates():
    """An empty log leaves the chart; so do windows without cells. A chart without cells is copied as well."""
    for element in ["<i4", "<f8"]:
        chart = np.arange(12).astype(element).reshape(3, 4)
        for order in ORDERS:
            for grid in [[], GRID]:
                for starts, cuts in [(np.zeros((0, 2)), (0, 3, 4)), (np.zeros((5, 2)), (5, 0, 4)),
                                     (np.full((2, 2), 99), (2, 3, 0))]:
                    save(starts, np.zeros(cuts, dtype=element), ORDERS[order](chart), np.full_like(chart, 9))
                    same(left(*WINDOWS, *grid), chart, "C" if grid else order, f"no updates, {cuts} of {element}, {grid}")
        for shape in [(0, 4), (3, 0)]:
            save(np.zeros((0, 2)), np.zeros((0, 0, 0), dtype=element), np.zeros(shape, dtype=element))
            check(left(*WINDOWS).shape == shape and left(*WINDOWS, *GRID).shape == shape, f"no cells, {shape}")
    small()
    np.save(path("starts.npy"), np.zeros(0, dtype="<i8"))
    np.save(path("updates.npy"), np.zeros(0, dtype="<i4"))
    done("scatter", *LISTS, *LOG, *CHART, "--out", "out.npy")
    check(content("out.npy") == content("chart.npy"), "an empty log: the file is the chart's")


def other_bytes():
    """A chart whose elements are the other way round."""
    for element in ["i4", "f8"]:
        small(f"<{element}")
        wanted = left(*LISTS)
        np.save(path("chart.npy"), np.load(path("chart.npy")).astype(f">{element}"))
        for grid in [[], GRID]:
            result = left(*LISTS, *grid)
            check(result.dtype == f"<{element}" and (result == wanted).all(), f">{element}, {grid}: {result}")


def told():
    """What is said of the chart, of the grid and of the windows."""
    for element in ["<i4", "<f8"]:
        small(element)
        for rule, grid, words in [
                ([], [], "copied the chart chart.npy and added 3 updates (3) to the copy"),
                ([], GRID, "copied the chart chart.npy into the grid grid.npy and added 3 updates (3) to it"),
                (["--rule", "lowest"], [], "copied the chart chart.npy and put 3 updates (3) on the copy by lowest"),
                (["--rule", "replace"], GRID,
                 "copied the chart chart.npy into the grid grid.npy and put 3 updates (3) on it by replace")]:
            call = ["scatter", *rule, *LISTS, *LOG, *CHART, *grid, "--out", "out.npy"]
            said = f"strided: {words}; it is in out.npy\nstrided: 1 of 3 windows was moved inward\n"
            check(run(*call) == (0, "", said), f"{rule}, {grid}: {run(*call)}")
            listed = f"{said}strided: window [2]: start [9] moved to [4]\n"
            check(run(*call, "--verbose") == (0, "", listed), f"{rule}, {grid}, listed: {run(*call, '--verbose')}")
            check(run("-q", *call) == (0, "", ""), f"{rule}, {grid}, quiet")
            refused(2, ["--verbose lists windows, and --quiet says nothing"], "-q", *call, "--verbose")
    np.save(path("starts.npy"), np.zeros(3, dtype="<i8"))
    _, _, said = run("scatter", *LISTS, *LOG, *CHART, "--out", "out.npy", "--verbose")
    check("0 of 3 windows were moved inward" in said, f"none was moved: {said}")
    help_text = done("scatter", "--help")
    for words in ["--chart <NPY>", "<--grid <NPY>|--chart <NPY>>", "A stored job copies no chart"]:
        check(words in help_text, f"help: {words}")


def stays(status, words, *arguments, grids=([], GRID)):
    """A run that is refused, with an output of its own and in place: nothing is written."""
    before = content("grid.npy"), content("chart.npy")
    for grid in grids:
        for out in ["none.npy", "grid.npy"]:
            for quiet in [[], ["-q"]]:
                refused(status, words, *quiet, "scatter", *arguments, *LOG, *grid, "--out", out)
    check((content("grid.npy"), content("chart.npy")) == before and not os.path.exists(path("none.npy")),
          f"{arguments}: something was written")


def other_shapes():
    """A chart of another shape than the grid's: both are named, and nothing is written."""
    for element in ["<i4", "<f8"]:
        grid = np.zeros((4, 6), dtype=element)
        for shape, in_words in [((5, 6), "5 x 6"), ((4, 7), "4 x 7"), ((6, 4), "6 x 4"), ((3, 5), "3 x 5"), ((24,), "24"),
                                ((4, 6, 1), "4 x 6 x 1"), ((), "no axes"), ((0, 6), "0 x 6")]:
            save([[0, 0]], np.ones((1, 3, 5), dtype=element), np.ones(shape, dtype=element), grid)
            words = [f"strided: the call: refused by 7 ShapeMismatch (a = 2, b = {len(shape)}): ",
                     f"\nthe chart is {in_words}, and the grid is 4 x 6; give a chart of the grid's shape, "
                     "or leave out --grid for a grid of the chart's\n"]
            for rule in [[], ["--rule", "lowest"]]:
                stays(1, words, *rule, *WINDOWS, *CHART, grids=[GRID])
    # Before what is wrong with the lists.
    stays(1, ["refused by 7 ShapeMismatch (a = 2, b = 2)"], *LISTS, *CHART, grids=[GRID])


def other_elements():
    """A chart of another element than the grid's, and a chart that is no grid; without a grid the chart's element is the call's."""
    for ours, theirs, name, other in [("<i4", "<f8", "i32", "f64"), ("<f8", "<i4", "f64", "i32")]:
        small(ours)
        np.save(path("chart.npy"), np.zeros(5, dtype=theirs))
        stays(2, [f"strided: chart.npy: it holds {other}, and the grid is of {name}; convert it in NumPy with .astype('{ours}')\n"],
              *LISTS, *CHART, grids=[GRID])
        stays(2, [f"strided: updates.npy: it holds {name}, and the chart is of {other}; convert it in NumPy"], *LISTS, *CHART,
              grids=[[]])
        small(ours)
        np.save(path("updates.npy"), np.zeros(3, dtype=theirs))
        stays(2, [f"strided: updates.npy: it holds {other}, and the grid is of {name}"], *LISTS, *CHART, grids=[GRID])
        small(ours)
        np.save(path("chart.npy"), np.zeros(5, dtype="<i8"))
        stays(2, [f"strided: chart.npy: it holds i64, and the grid is of {name}"], *LISTS, *CHART, grids=[GRID])
        stays(2, ["strided: chart.npy: it holds i64; grids are of i32 or f64"], *LISTS, *CHART, grids=[[]])
        np.save(path("chart.npy"), np.zeros(5, dtype="<f4"))
        stays(2, ["strided: chart.npy: "], *LISTS, *CHART)
        small(ours)
        np.save(path("starts.npy"), np.zeros(3, dtype="<i4"))
        stays(2, ["strided: starts.npy: it holds i32, and starts are i64"], *LISTS, *CHART)
    small()
    stays(2, ["strided: chart.npy: it holds i32, and ceiling:1 is a rule for f64 alone"], "--rule", "ceiling:1", *LISTS, *CHART,
          grids=[[]])
    stays(2, ["strided: grid.npy: it holds i32, and ceiling:1 is a rule for f64 alone"], "--rule", "ceiling:1", *LISTS, *CHART,
          grids=[GRID])


def beside_a_job():
    """A stored job copies no chart, and takes none."""
    small()
    put("cut.txt", SCATTER)
    done("job", "make", "cut.txt", "cut.job")
    words = ["strided: cut.job: a stored job copies no chart, and --chart cannot be used with --job; nothing was done",
             "give the axis lists in place of the job: `strided job show` prints them"]
    stays(2, words, "--job", "cut.job", *CHART)
    stays(2, words, "--job", "cut.job", "--any-shape", *CHART)
    stays(2, words, "--job", "cut.job", "--chart", "absent.npy")
    stays(2, ["absent.job: a stored job copies no chart"], "--job", "absent.job", *CHART)
    stays(2, ["a stored job adds"], "--job", "cut.job", "--rule", "add", *CHART)
    for base in [["--job", "cut.job"], LISTS]:
        status, _, said = run("scatter", *base, *LOG, "--out", "none.npy")
        check(status == 2 and "<--grid <NPY>|--chart <NPY>>" in said, f"neither grid nor chart: {said}")
    done("scatter", "--job", "cut.job", *LOG, *GRID, "--out", "out.npy")
    check(np.load(path("out.npy")).tolist() == [0, -7, -7, -7, -2], "a stored job goes on with what the grid holds")


def over_the_chart():
    """An output that is the chart is refused, by whatever name; the chart stays."""
    small()
    os.makedirs(path("folder"), exist_ok=True)
    if not os.path.lexists(path("link.npy")):
        os.symlink("chart.npy", path("link.npy"))
    before = content("chart.npy")
    words = "it is also --chart, which would be lost; give the output another name"
    for grid in [[], GRID, ["--grid", "chart.npy"]]:
        for out in ["chart.npy", "./chart.npy", "folder/../chart.npy", "link.npy", path("chart.npy")]:
            refused(2, [f"strided: {out}: {words}"], "scatter", *LISTS, *LOG, *CHART, *grid, "--out", out)
            refused(2, [words], "scatter", *LISTS, *LOG, "--chart", "link.npy", *grid, "--out", out)
    check(content("chart.npy") == before and os.path.islink(path("link.npy")), "the chart stays")
    # To be read it may have two parts.
    wanted = [17, 20, 30, 40, 55]
    check(left(*LISTS, "--grid", "chart.npy").tolist() == wanted, "a chart that is the grid too")
    check(left(*LISTS, "--grid", "link.npy").tolist() == wanted, "a chart that is the grid by another name")


def bad_files():
    """Charts that cannot be read."""
    small()
    whole = content("chart.npy")
    for name, data in [("short.npy", whole[:-1]), ("long.npy", whole + b"\0"), ("empty.npy", b""), ("text.npy", b"10 20 30\n")]:
        put(name, data)
        stays(2, [f"strided: {name}: "], *LISTS, "--chart", name)
    stays(2, ["strided: absent.npy: cannot open it"], *LISTS, "--chart", "absent.npy")
    stays(2, ["strided: folder: "], *LISTS, "--chart", "folder")
    stays(2, ["strided: absent.npy: cannot open it"], *LISTS, *CHART, grids=[["--grid", "absent.npy"]])


def refused_by_the_library():
    """The lists are refused as without a chart, and the views of a chart's call are told by their names."""
    for element in ["<i4", "<f8"]:
        small(element)
        stays(1, ["the call: refused by 6 InvalidAxis (a = 7, b = 1)", "inserted_window_dims names axis 7"], *CHART,
              "--inserted-window-dims", 7, *LISTS[2:])
        stays(1, ["the call: refused by 5 RankMismatch"], *CHART, *LISTS[2:])
        stays(1, ["the call: refused by 6 InvalidAxis (a = 2, b = 2)", "index_vector_dim is 2"], *CHART, *LISTS[:4],
              "--index-vector-dim", 2)
        many = ",".join(["0"] * 17)
        stays(1, ["the call: refused by 6 InvalidAxis (a = 0, b = 1)", "inserted_window_dims names axis 0 twice"], *CHART,
              "--inserted-window-dims", many, *LISTS[2:])
        save([0, 0], np.zeros(3, dtype=element), np.zeros(5, dtype=element))
        stays(1, ["the call: refused by 7 ShapeMismatch (a = 1, b = 1)", "the updates have the extents [3] outside"], *LISTS,
              *CHART)
        save([0], np.zeros(1, dtype=element), np.zeros([1] * 9, dtype=element), np.zeros([1] * 10, dtype=element))
        stays(1, ["the call: refused by 2 RankTooLarge (a = 9, b = 8)", "it is the chart that has 9 axes"], *LISTS, *CHART)
        save(np.zeros([1] * 9), np.zeros(1, dtype=element), np.zeros(5, dtype=element))
        stays(1, ["the call: refused by 2 RankTooLarge (a = 9, b = 8)", "it is the index that has 9 axes"], *LISTS, *CHART)


def locks():
    """The output is locked as by other scatters; the chart is not, and a run that is ended leaves everything."""
    small()
    call = ["scatter", *LISTS, *LOG, *CHART, *GRID, "--out", "grid.npy", "--no-wait"]
    before = content("grid.npy")
    with open(path("grid.npy"), "rb") as held:
        fcntl.flock(held, fcntl.LOCK_EX)
        refused(3, ["grid.npy"], *call)
        check(content("grid.npy") == before, "a run that would not wait")
    with open(path("chart.npy"), "rb") as held:
        fcntl.flock(held, fcntl.LOCK_EX)
        done(*call)
    check(np.load(path("grid.npy")).tolist() == [17, 20, 30, 40, 55], "beside a lock of the chart")
    before = content("grid.npy")
    os.mkfifo(path("pipe.npy"))
    waiting = [TOOL, *map(str, ["scatter", *LISTS, *LOG, "--chart", "pipe.npy", *GRID, "--out", "grid.npy"])]
    with subprocess.Popen(waiting, cwd=HERE.name, stderr=subprocess.PIPE) as begun, open(path("pipe.npy"), "wb") as pipe:
        # It has opened the pipe, and so has claimed its output.
        refused(3, ["grid.npy"], *call)
        pipe.write(content("chart.npy")[:-1])
        pipe.flush()
        begun.send_signal(signal.SIGTERM)
        check(begun.wait(30) == -signal.SIGTERM, f"ended by {begun.returncode}")
    check(content("grid.npy") == before and not left_behind(), "a run that was ended")


def two_ships():
    """The chart is copied by the first ship's run alone: the second goes on, and in both orders one grid is left."""
    chart = np.arange(1200, dtype="<i4").reshape(30, 40)
    logs = {}
    for ship, count in [("north", 30), ("south", 40)]:
        windows(chart, count=count)
        logs[ship] = np.load(path("starts.npy")), np.load(path("updates.npy"))
    grids = []
    for first, second in [("north", "south"), ("south", "north")]:
        save(*logs[first], chart, np.full_like(chart, 5))
        left(*WINDOWS, *GRID, out="grid.npy")
        save(*logs[second], chart, np.load(path("grid.npy")))
        done("scatter", *WINDOWS, *LOG, *GRID, "--out", "grid.npy")
        grids.append(content("grid.npy"))
    check(grids[0] == grids[1], "the two orders")
    total = sum(int(cuts.sum()) for _, cuts in logs.values())
    check(np.load(path("grid.npy")).sum() - chart.sum() == total, "the sum of both logs")
    alone = left(*WINDOWS, *GRID, out="grid.npy")
    check(alone.sum() - chart.sum() == logs["north"][1].sum(), "with the chart once more the second log alone is left")


def memory():
    """A large chart is held once beside the grid."""
    side, little = 4000, 16 << 20
    size = 4 * side * side
    for order in [False, True]:
        windows(np.zeros((9, 9), dtype="<i4"))
        for name, turned in [("chart.npy", order), ("grid.npy", not order)]:
            np.lib.format.open_memmap(path(name), mode="w+", dtype="<i4", shape=(side, side), fortran_order=turned)
        for grid in [[], GRID]:
            held = peak("scatter", *WINDOWS, *LOG, *CHART, *grid, "--out", "out.npy")
            check(held <= 2 * size + little, f"a chart of {size} bytes, {grid}: {held}")


def main():
    seed = int(sys.argv[2]) if len(sys.argv) > 2 else 1
    count = int(sys.argv[3]) if len(sys.argv) > 3 else 200
    two_axes()
    in_place()
    beside_loops(seed, count)
    bits()
    without_updates()
    other_bytes()
    told()
    other_shapes()
    other_elements()
    beside_a_job()
    over_the_chart()
    bad_files()
    refused_by_the_library()
    locks()
    two_ships()
    memory()
    finish("a chart under the tool's scatter")


main()
