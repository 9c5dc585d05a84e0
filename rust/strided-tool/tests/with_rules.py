"""A scatter by each rule beside NumPy, what is told of it, and rules that are refused. usage: with_rules.py TOOL [SEED] [COUNT]"""

import os
import random
import sys

import numpy as np

from harness import check, content, done, finish, path, put, refused, run
from reference import SCATTER, job_text, options, random_scatter, scatter

RULES = {"i32": ["add", "lowest", "highest", "replace"]}
RULES["f64"] = [*RULES["i32"], "ceiling:0.5", "ceiling:-1e16", "ceiling:inf", "ceiling:-inf", "ceiling:nan", "ceiling:-0.0"]

# Single cells of a grid of one axis.
LISTS = ["--inserted-window-dims", 0, "--scatter-dims-to-operand-dims", 0, "--index-vector-dim", 1]
FILES = ["--starts", "starts.npy", "--updates", "updates.npy", "--grid", "grid.npy"]


def save(starts, updates, grid):
    np.save(path("starts.npy"), np.asarray(starts, dtype="<i8"))
    np.save(path("updates.npy"), updates)
    np.save(path("grid.npy"), grid)


def small(element="<i4"):
    save([0, 0, 9], np.array([12, 7, 60], dtype=element), np.array([10, 20, 30, 40, 50], dtype=element))


def left(*rule, out="out.npy"):
    """The grid that a run leaves."""
    done("scatter", *rule, *LISTS, *FILES, "--out", out)
    return np.load(path(out))


def by_numpy(rule, grid, starts, updates):
    """The same by NumPy's own functions, which differ on NaN and on zeros of two signs alone."""
    grid, places = grid.copy(), starts.clip(0, grid.size - 1)
    if rule == "replace":
        grid[places] = updates
    else:
        {"add": np.add, "lowest": np.minimum, "highest": np.maximum}[rule].at(grid, places, updates)
    return grid


def beside_numpy():
    """Many updates on few cells, whole numbers, so that every sum is exact."""
    rng = np.random.default_rng(7)
    for element, reach in [("<i4", 2**31), ("<f8", 2**30)]:
        for size, count in [(1, 500), (40, 500), (300, 500), (5, 0), (7, 1)]:
            grid, updates = (rng.integers(-reach, reach, extent).astype(element) for extent in (size, count))
            starts = rng.integers(-3, size + 3, count)
            save(starts, updates, grid)
            for rule in RULES["i32"]:
                wanted = by_numpy(rule, grid, starts, updates)
                check((left("--rule", rule) == wanted).all(), f"{rule} of {element}, {count} updates on {size} cells")


def beside_loops(seed, count):
    """Windows of all kinds in either order, with NaN, infinities and zeros: bit for bit where nothing is added."""
    rng = random.Random(seed)
    for number in range(count):
        element = rng.choice(["i32", "f64"])
        spec, index, updates, dest = random_scatter(rng, element)
        rule = rng.choice(RULES[element])
        orders = [rng.choice([np.ascontiguousarray, np.asfortranarray]) for _ in range(3)]
        arrays = [order(view.array).reshape(view.array.shape, order="A") for order, view in zip(orders, (index, updates, dest))]
        wanted = arrays[2].copy(order="K")
        scatter(*arrays[:2], wanted, spec, rule)
        save(*arrays)
        done("scatter", "--rule", rule, *options(spec), *FILES, "--out", "out.npy")
        result = np.load(path("out.npy"))
        what = f"seed {seed} case {number}, {rule} of {element}: {result} and not {wanted}"
        if element == "f64" and rule.startswith(("add", "ceiling")):
            for array in (result, wanted):
                array[np.isnan(array)] = np.nan
        check(result.tobytes() == wanted.tobytes() and result.flags.f_contiguous == wanted.flags.f_contiguous, what)


def nan_and_zeros():
    """Each rule on a grid of NaN and zeros of both signs; the NaNs have bits of their own."""
    one, minus = 0x3ff0000000000000, 1 << 63
    held, updates = (np.array(bits, dtype="<u8").view("<f8") for bits in (
        [0x7ff8dead00000001, one, minus, 0], [one, 0xfff800000000beef, 0, minus]))
    save([0, 1, 2, 3], updates, held)
    for rule in ["lowest", "highest"]:
        check(left("--rule", rule).tobytes() == held.tobytes(), f"{rule}: a NaN or a zero of the other sign changes nothing")
    check(left("--rule", "replace").tobytes() == updates.tobytes(), "replace: the updates bit for bit")
    for limit in ["nan", "NaN", "inf", "5"]:
        result = left("--rule", f"ceiling:{limit}")
        check(np.isnan(result[:2]).all() and (result[2:] == 0).all(), f"ceiling:{limit}: {result}")


def limits():
    """The limit holds at every update, and is read as a decimal number with a sign."""
    save([0, 0, 1], np.array([9.0, -2.0, 0.25]), np.array([1.0, 1.0, 99.0]))
    for limit, wanted in [("5", [3, 1.25, 99]), ("5.0", [3, 1.25, 99]), ("-3", [-5, -3, 99]), ("+.5e1", [3, 1.25, 99]),
                          ("1", [-1, 1, 99]), ("inf", [8, 1.25, 99]), ("nan", [8, 1.25, 99]), ("-inf", [-np.inf, -np.inf, 99])]:
        for rule in [["--rule", f"ceiling:{limit}"], [f"--rule=ceiling:{limit}"]]:
            result = left(*rule)
            check(result.tolist() == wanted, f"{rule}: {result} and not {wanted}")


def told():
    """What is said is true of the rule."""
    for element in ["<i4", "<f8"]:
        small(element)
        for rule, words in [([], "added 3 updates (3) to the grid grid.npy; it is in out.npy"),
                            (["--rule", "add"], "added 3 updates (3) to the grid grid.npy; it is in out.npy"),
                            (["--rule", "lowest"], "put 3 updates (3) on the grid grid.npy by lowest; it is in out.npy"),
                            (["--rule", "replace"], "put 3 updates (3) on the grid grid.npy by replace; it is in out.npy")]:
            call = ["scatter", *rule, *LISTS, *FILES, "--out", "out.npy"]
            said = f"strided: {words}\nstrided: 1 of 3 windows was moved inward\n"
            check(run(*call) == (0, "", said), f"{rule}: {run(*call)}")
            check(run("-q", *call) == (0, "", ""), f"{rule}, quiet")
    _, _, said = run("scatter", "--rule", "ceiling:60", *LISTS, *FILES, "--out", "out.npy")
    check("by ceiling:60; it is" in said, f"ceiling: {said}")
    for words in ["--rule <RULE>", "lowest ", "ceiling:LIMIT", "A stored job adds", "NaN"]:
        check(words in done("scatter", "--help"), f"help: {words}")


def unknown_rules():
    """Texts that are no rule, and a ceiling on a grid of i32: nothing is written, and the grid stays."""
    small()
    for rule, words in [
            ("lowset", "`lowset` is no rule; give add, lowest, highest, replace, or ceiling:LIMIT"), ("", "--rule"),
            ("Lowest", "`Lowest` is no rule"), ("2", "`2` is no rule"), ("lowest:3", "lowest has no limit; only ceiling has one"),
            ("ceiling", "a ceiling has a limit; give it as ceiling:2.5"), ("ceiling:", "`` is not a number"),
            ("ceiling:deep", "`deep` is not a number"), ("ceiling:2,5", "`2,5` is not a number"),
            ("ceiling:1e999", "`1e999` is too large for an f64"),
            ("ceiling:2.5", "grid.npy: it holds i32, and ceiling:2.5 is a rule for f64 alone; nothing was done")]:
        stays(2, [words], "--rule", rule, *LISTS)
    stays(2, ["ceiling:-3 is a rule for f64 alone"], "--rule", "ceiling:-3", *LISTS)
    # Before what the library would refuse of the lists.
    stays(2, ["a rule for f64 alone"], "--rule", "ceiling:1", *LISTS[2:])
    save([0, 0, 9], np.zeros(3), np.zeros(5, dtype="<i8"))
    stays(2, ["grid.npy: it holds i64; grids are of i32 or f64"], "--rule", "lowest", *LISTS)


def stays(status, words, *arguments):
    """A run that is refused, with an output of its own and in place."""
    before = content("grid.npy")
    for out in ["none.npy", "grid.npy"]:
        refused(status, words, "scatter", *arguments, *FILES, "--out", out)
        refused(status, words, "-q", "scatter", *arguments, *FILES, "--out", out)
    check(content("grid.npy") == before and not os.path.exists(path("none.npy")), f"{arguments}: something was written")


def beside_a_job():
    """A stored job adds, and takes no rule, not even that."""
    small()
    put("cut.txt", SCATTER)
    done("job", "make", "cut.txt", "cut.job")
    for rule in RULES["f64"]:
        stays(2, ["cut.job: a stored job adds, and --rule", "cannot be used with --job; nothing was done",
                  "give the axis lists in place of the job: `strided job show` prints them"], "--rule", rule, "--job", "cut.job")
    stays(2, ["is no rule"], "--rule", "most", "--job", "cut.job")
    stays(2, ["absent.job: a stored job adds"], "--rule", "lowest", "--job", "absent.job")
    done("scatter", "--job", "cut.job", *FILES, "--out", "out.npy")
    check((np.load(path("out.npy")) == left("--rule", "add", out="again.npy")).all(), "a stored job adds")


def refused_by_the_library():
    """The library's refusals are the same by every rule."""
    for element in ["i32", "f64"]:
        small({"i32": "<i4", "f64": "<f8"}[element])
        for rule in RULES[element]:
            stays(1, ["the call: refused by 6 InvalidAxis (a = 7, b = 1)", "inserted_window_dims names axis 7"], "--rule", rule,
                  "--inserted-window-dims", 7, *LISTS[2:])
            stays(1, ["the call: refused by 5 RankMismatch"], "--rule", rule, *LISTS[2:])
    save([0, 0], np.array([1, 2, 3], dtype="<i4"), np.zeros(5, dtype="<i4"))
    stays(1, ["the call: refused by 7 ShapeMismatch"], "--rule", "highest", *LISTS)
    save([0, 0, 0], np.zeros(3), np.zeros(5, dtype="<i4"))
    stays(2, ["updates.npy: it holds f64, and the grid is of i32"], "--rule", "highest", *LISTS)


def two_ships():
    """Two logs on one grid in both orders: by like rules one grid, and two where both replace a cell."""
    rng = np.random.default_rng(9)
    ships = {name: (rng.integers(-2, 42, 60), rng.integers(-900, 900, 60).astype("<i4")) for name in ["north", "south"]}
    basin = rng.integers(-500, 500, 40).astype("<i4")
    for rule, same in [("add", True), ("lowest", True), ("highest", True), ("replace", False)]:
        grids = []
        for order in [["north", "south"], ["south", "north"]]:
            np.save(path("grid.npy"), basin)
            for ship in order:
                save(*ships[ship], np.load(path("grid.npy")))
                left("--rule", rule, out="grid.npy")
            grids.append(content("grid.npy"))
        check((grids[0] == grids[1]) == same, f"{rule}: the two orders")


def soundings():
    """Windows of two axes on a basin, in place, by the shape of the files alone."""
    rng = np.random.default_rng(11)
    basin = rng.integers(5000, 9000, (30, 40)).astype("<i4")
    cuts = rng.integers(5000, 9000, (25, 3, 5)).astype("<i4")
    starts = np.stack([rng.integers(-3, 33, 25), rng.integers(-3, 43, 25)], axis=1)
    lists = ["--update-window-dims", "1,2", "--scatter-dims-to-operand-dims", "0,1", "--index-vector-dim", 1]
    for rule, function in [("lowest", np.minimum), ("highest", np.maximum), ("replace", lambda held, cut: cut)]:
        wanted = basin.copy()
        for (row, column), cut in zip(starts.clip(0, [27, 35]), cuts):
            wanted[row:row + 3, column:column + 5] = function(wanted[row:row + 3, column:column + 5], cut)
        save(starts, cuts, basin)
        done("-q", "scatter", "--rule", rule, *lists, *FILES, "--out", "grid.npy")
        check((np.load(path("grid.npy")) == wanted).all(), f"soundings by {rule}")


def main():
    seed = int(sys.argv[2]) if len(sys.argv) > 2 else 1
    count = int(sys.argv[3]) if len(sys.argv) > 3 else 200
    beside_numpy()
    beside_loops(seed, count)
    nan_and_zeros()
    limits()
    told()
    unknown_rules()
    beside_a_job()
    refused_by_the_library()
    two_ships()
    soundings()
    finish("the rules of the tool's scatter")


main()
