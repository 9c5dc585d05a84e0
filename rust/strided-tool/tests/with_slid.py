"""The windows that the clamp moved: how many are told, and which, beside plain loops. usage: with_slid.py TOOL [SEED] [COUNT]"""

import random
import sys

import numpy as np

from harness import check, content, done, finish, path, put, refused, run
from reference import first_axis_fastest, job_text, options, others, random_gather, random_scatter

FILES = {"gather": ["--operand", "grid.npy", "--starts", "starts.npy", "--out", "out.npy"],
         "scatter": ["--starts", "starts.npy", "--updates", "updates.npy", "--grid", "grid.npy", "--out", "out.npy"]}
# Windows of one axis; the starts have no axis of components.
LISTS = {"gather": ["--offset-dims", 0, "--start-index-map", 0, "--index-vector-dim", 1],
         "scatter": ["--update-window-dims", 0, "--scatter-dims-to-operand-dims", 0, "--index-vector-dim", 1]}


def said(*arguments, status=0):
    """What a run says after its first line, in which it tells what it did."""
    ended, out, err = run(*arguments)
    check(ended == status and out == "", f"{arguments} ended with {ended}: {out}{err}")
    lines = err.splitlines()
    check(all(line.startswith("strided: ") for line in lines), f"{arguments}: {err}")
    check(lines and ("gathered" in lines[0] or "updates" in lines[0]), f"{arguments}: {err}")
    return [line.removeprefix("strided: ") for line in lines[1:]]


def save(starts, extent=5, size=2, element="<i4"):
    """A grid of one axis, and as many windows of it as there are starts."""
    np.save(path("starts.npy"), np.array(starts, dtype="<i8"))
    np.save(path("grid.npy"), np.arange(extent).astype(element))
    np.save(path("updates.npy"), np.ones((size, len(starts)), dtype=element))


def along(kind, size=2):
    """The call of those windows."""
    return [kind, *LISTS[kind], *(["--slice-sizes", size] if kind == "gather" else []), *FILES[kind]]


def told():
    """The line of the count, and the list; both kinds and both elements tell the same."""
    for starts, count, listed in [
            ([0, 3, 1], "0 of 3 windows were moved inward", []),
            ([0, 3, 4], "1 of 3 windows was moved inward", ["window [2]: start [4] moved to [3]"]),
            ([-1, 3, 9], "2 of 3 windows were moved inward",
             ["window [0]: start [-1] moved to [0]", "window [2]: start [9] moved to [3]"]),
            ([4], "1 of 1 window was moved inward", ["window [0]: start [4] moved to [3]"]),
            ([3], "0 of 1 window was moved inward", []),
            ([-2**63, 2**63 - 1], "2 of 2 windows were moved inward",
             [f"window [0]: start [{-2**63}] moved to [0]", f"window [1]: start [{2**63 - 1}] moved to [3]"]),
            ([], "0 of 0 windows were moved inward", [])]:
        for element in ["<i4", "<f8"]:
            save(starts, element=element)
            for kind in FILES:
                what = f"{kind} of {element} at {starts}"
                lines = said(*along(kind))
                check(lines == ([count] if listed else []), f"{what}: {lines}")
                left = content("out.npy")
                lines = said(*along(kind), "--verbose")
                check(lines == [count, *listed], f"{what}, listed: {lines}")
                check(content("out.npy") == left, f"{what}: the list has changed the output")


def quiet():
    """Where nothing is to be said, nothing is said of windows; and a list is not asked for at once with silence."""
    save([-1, 9])
    for kind in FILES:
        status, out, err = run("--quiet", *along(kind))
        check((status, out, err) == (0, "", ""), f"{kind} --quiet: {status} {out}{err}")
        for arguments in [[*along(kind), "--quiet", "--verbose"], ["--quiet", *along(kind), "--verbose"],
                          ["-q", *along(kind), "--verbose"]]:
            before = content("out.npy")
            refused(2, ["--verbose", "--quiet"], *arguments)
            check(content("out.npy") == before, f"{arguments}: something was written")


def elsewhere():
    """Commands that move no window have no list of them."""
    save([0])
    done(*along("gather"))
    for arguments in [["show", "grid.npy", "x.png"], ["compare", "grid.npy", "grid.npy"], ["print", "grid.npy"],
                      ["job", "check", "x.job"], ["job", "show", "x.job"], ["job", "make", "x.txt", "x.job"]]:
        for place in (len(arguments), 0):
            status, _, err = run(*arguments[:place], "--verbose", *arguments[place:])
            check(status == 2 and "argument '--verbose'" in err, f"{arguments}: {status} {err}")
    status, _, err = run(*along("gather"), "--verbose=3")
    check(status == 2 and "--verbose" in err, f"--verbose=3: {status} {err}")


def many():
    """At most a thousand windows are listed, and the rest are counted."""
    for count, more in [(1000, []), (1001, ["and 1 more"]), (5003, ["and 4003 more"])]:
        save([0, *[9] * count])
        for kind in FILES:
            lines = said(*along(kind), "--verbose")
            check(lines[0] == f"{count} of {count + 1} windows were moved inward", f"{kind} of {count}: {lines[0]}")
            wanted = [f"window [{number}]: start [9] moved to [3]" for number in range(1, 1001)]
            check(lines[1:] == wanted + more, f"{kind} of {count}: {len(lines)} lines, the last {lines[-1]}")


def without_cells():
    """Windows without cells are not moved, wherever they start; there may be windows all the same."""
    save([-9, 9], size=0)
    for kind in FILES:
        check(said(*along(kind, size=0)) == [], f"{kind} without cells")
        lines = said(*along(kind, size=0), "--verbose")
        check(lines == ["0 of 2 windows were moved inward"], f"{kind} without cells, listed: {lines}")


def components():
    """A start of two components, of which either or both are moved, is one window; its batch has two axes, or none."""
    np.save(path("grid.npy"), np.zeros((17, 3), dtype="<i4"))
    lists = ["gather", "--start-index-map", "0,1", "--collapsed-slice-dims", "0,1", "--slice-sizes", "1,1", *FILES["gather"], "--verbose"]
    starts = np.zeros((5, 2, 2), dtype="<i8")
    starts[4, 1], starts[2, 0], starts[3, 0] = (17, -2), (0, 3), (-1, 2)
    wanted = ["3 of 10 windows were moved inward", "window [2, 0]: start [0, 3] moved to [0, 2]",
              "window [3, 0]: start [-1, 2] moved to [0, 2]", "window [4, 1]: start [17, -2] moved to [16, 0]"]
    for order in (np.ascontiguousarray, np.asfortranarray):
        np.save(path("starts.npy"), order(starts))
        lines = said(*lists, "--index-vector-dim", 2)
        check(lines == wanted, f"two components: {lines}")
    np.save(path("starts.npy"), starts[4, 1])
    lines = said(*lists, "--index-vector-dim", 0)
    check(lines == ["1 of 1 window was moved inward", "window []: start [17, -2] moved to [16, 0]"], f"no batch: {lines}")
    np.save(path("starts.npy"), np.zeros((0, 4), dtype="<i8"))
    lines = said("gather", "--offset-dims", "0,1", "--index-vector-dim", 0, "--slice-sizes", "17,3", *FILES["gather"], "--verbose")
    check(lines == ["0 of 4 windows were moved inward"], f"no components: {lines}")


STRIDE_0 = """kind = scatter
element = i32
index.extents = 4
index.strides = 0
updates.extents = 4
dest.extents = 5
update_window_dims =
inserted_window_dims = 0
scatter_dims_to_operand_dims = 0
index_vector_dim = 1
"""


def one_start_for_many():
    """Through a stride of 0 in a job four windows read one start; each counts."""
    put("stride.txt", STRIDE_0)
    done("job", "make", "stride.txt", "stride.job")
    np.save(path("updates.npy"), np.arange(4, dtype="<i4"))
    np.save(path("grid.npy"), np.zeros(5, dtype="<i4"))
    for start, count in [(5, 4), (4, 0)]:
        np.save(path("starts.npy"), np.array([start], dtype="<i8"))
        lines = said("scatter", "--any-shape", "--job", "stride.job", *FILES["scatter"], "--verbose")
        check(lines[0] == f"{count} of 4 windows were moved inward" and len(lines) == 1 + count, f"stride 0: {lines}")


def refused_calls():
    """A call that the library refuses tells its refusal, and of windows nothing."""
    put("stride.txt", STRIDE_0)
    done("job", "make", "stride.txt", "stride.job")
    save([9, 9], extent=4)
    for more in [[], ["--verbose"]]:
        err = refused(1, ["refused by 9"], "scatter", "--any-shape", "--job", "stride.job", *FILES["scatter"], *more)
        check("moved" not in err, f"a refused call: {err}")


def wanted_lines(index, vector, axes, extents, windows, batch, cells):
    """The lines of a call by plain loops."""
    lines = []
    for at in first_axis_fastest(batch):
        vectors = index[..., None] if vector == index.ndim else np.moveaxis(index, vector, -1)
        start = [int(entry) for entry in vectors[at]]
        last = [extents[axis] - windows[axis] for axis in axes]
        clamped = [min(max(entry, 0), end) for entry, end in zip(start, last)]
        if cells and clamped != start:
            lines.append(f"window {list(at)}: start {start} moved to {clamped}")
    total = int(np.prod(batch, dtype=int))
    name, verb = "window" if total == 1 else "windows", "was" if 1 in (total, len(lines)) else "were"
    return [f"{len(lines)} of {total} {name} {verb} moved inward", *lines]


def lines_of_gather(spec, operand, index, dest):
    batch = [dest.shape[axis] for axis in others(dest.ndim, spec["offset_dims"])]
    return wanted_lines(index, spec["index_vector_dim"], spec["start_index_map"], operand.shape, spec["slice_sizes"], batch,
                        dest.size > 0)


def lines_of_scatter(spec, index, updates, dest):
    windows = [1] * dest.ndim
    for axis, update_axis in zip(others(dest.ndim, spec["inserted_window_dims"]), spec["update_window_dims"]):
        windows[axis] = updates.shape[update_axis]
    batch = [updates.shape[axis] for axis in others(updates.ndim, spec["update_window_dims"])]
    return wanted_lines(index, spec["index_vector_dim"], spec["scatter_dims_to_operand_dims"], dest.shape, windows, batch,
                        updates.size > 0)


KINDS = {"gather": (random_gather, lines_of_gather, ["operand", "index", "dest"], ["--operand", "--starts", "--dest"]),
         "scatter": (random_scatter, lines_of_scatter, ["index", "updates", "dest"], ["--starts", "--updates", "--grid"])}


def beside_loops(seed, count):
    """Windows of all kinds, by a stored job with its layouts and by options with the files' own."""
    rng = random.Random(seed)
    moved = 0
    for number in range(count):
        kind, element = rng.choice(list(KINDS)), rng.choice(["i32", "f64"])
        make, lines_of, names, flags = KINDS[kind]
        spec, *views = make(rng, element)
        wanted = lines_of(spec, *[view.array for view in views])
        for name, view in zip(names, views):
            np.save(path(name + ".npy"), view.file())
            np.save(path(name + "_own.npy"), np.array(view.array, order=rng.choice("CF")))
        put("case.txt", job_text(kind, element, names, views, spec))
        done("--quiet", "job", "make", "case.txt", "case.job")
        files, own = (sum(([flag, name + end] for flag, name in zip(flags, names)), ["--out", "out.npy"])
                      for end in (".npy", "_own.npy"))
        for call in ([kind, "--any-shape", "--job", "case.job", *files], [kind, *options(spec), *own]):
            lines = said(*call, "--verbose")
            check(lines == wanted, f"seed {seed} case {number}, {call}: {lines} and not {wanted}")
            lines = said(*call)
            check(lines == (wanted[:1] if len(wanted) > 1 else []), f"seed {seed} case {number}, {call}: {lines}")
        moved += len(wanted) > 1
    check(moved * 3 > count, f"seed {seed}: windows were moved in {moved} of {count} cases")


def main():
    seed = int(sys.argv[2]) if len(sys.argv) > 2 else 17
    count = int(sys.argv[3]) if len(sys.argv) > 3 else 150
    for part in (told, quiet, elsewhere, many, without_cells, components, one_start_for_many, refused_calls):
        part()
    beside_loops(seed, count)
    finish("the tool's windows that were moved")


main()
