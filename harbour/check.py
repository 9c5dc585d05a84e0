"""The harbour beside NumPy: the inputs made again, and the grids that harbour/run has left. usage: check.py GRIDS"""

import os
import subprocess
import sys
import tempfile

import numpy as np

HERE = os.path.dirname(os.path.abspath(__file__))
GRIDS = sys.argv[1]
checks = []


def check(holds, what):
    checks.append(bool(holds))
    if not holds:
        print(f"failed: {what}")


def load(name, folder=HERE):
    return np.load(os.path.join(folder, name + ".npy"))


def made_again():
    with tempfile.TemporaryDirectory() as folder:
        subprocess.run([sys.executable, os.path.join(HERE, "make_inputs.py"), folder], check=True, stdout=subprocess.DEVNULL)
        for name in sorted(os.listdir(folder)):
            pair = [open(os.path.join(place, name), "rb").read() for place in (folder, HERE)]
            check(pair[0] == pair[1], f"{name} is not what make_inputs.py makes")


def worked(grid, *ships):
    """The ships' cuts added to a copy of a grid, each footprint clamped to it."""
    grid = grid.copy()
    for ship in ships:
        for start, cut in zip(load(ship + "_starts"), load(ship + "_cuts")):
            row, column = (min(max(int(place), 0), extent - size) for place, extent, size in zip(start, grid.shape, cut.shape))
            grid[row:row + cut.shape[0], column:column + cut.shape[1]] += cut
    return grid


def told(ship_or_window, starts, extents, sizes, batch):
    """What the tool should tell of windows that are moved inward, by the clamp of each start."""
    moved = []
    for at, start in zip(batch, starts):
        clamped = [min(max(place, 0), extent - size) for place, extent, size in zip(start, extents, sizes)]
        if clamped != start:
            moved.append(f"window {at}: start {start} moved to {clamped}")
    name, verb = "window" if len(batch) == 1 else "windows", "was" if 1 in (len(moved), len(batch)) else "were"
    wanted = [f"{len(moved)} of {len(batch)} {name} {verb} moved inward", *moved]
    with open(os.path.join(GRIDS, ship_or_window + "_moved.txt"), encoding="utf-8") as file:
        found = file.read().splitlines()
    check(found == wanted, f"{ship_or_window}: the tool told {found} and not {wanted}")
    return len(moved)


def marks(basin):
    """Both ships' logs, the berth, which lies inside, and the window at the corner, which does not."""
    for ship in ("north", "south"):
        starts, size = load(ship + "_starts").tolist(), load(ship + "_cuts").shape[1:]
        count = told(ship, starts, basin.shape, size, [[number] for number in range(len(starts))])
        check(count > 0, f"a cut of {ship} was to be logged past the edge")
    for window, count in [("berth", 0), ("corner", 1)]:
        check(told(window, [load(window + "_start").tolist()], basin.shape, (12, 30), [[]]) == count, f"the mark of the {window}")


def main():
    made_again()
    basin = load("basin")
    for name, ships in [("north", ["north"]), ("south", ["south"]), ("north_south", ["north", "south"]),
                        ("south_north", ["south", "north"])]:
        check((load(name, GRIDS) == worked(basin, *ships)).all(), f"the basin after {ships}")
    check((load("cuts", GRIDS) == worked(np.zeros_like(basin), "north", "south")).all(), "the cuts by themselves")
    marks(basin)
    row, column = 80 - 12, 120 - 30
    for name, grid in [("corner_before", basin), ("corner", worked(basin, "north", "south"))]:
        check((load(name, GRIDS) == grid[row:, column:]).all(), f"the window at the {name}")
    for name, grid in [("before", basin), ("after_south", worked(basin, "south")), ("after_north", worked(basin, "north"))]:
        check((load("berth_" + name, GRIDS) == grid[0:12, 18:48]).all(), f"the berth {name}")
    print(f"the harbour beside NumPy: {len(checks)} checks, {checks.count(False)} failed")
    sys.exit(0 if all(checks) else 1)


main()
