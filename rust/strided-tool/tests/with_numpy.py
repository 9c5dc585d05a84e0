"""The tool beside NumPy: files of all types and orders, gathers and scatters against plain loops. usage: with_numpy.py TOOL [SEED] [COUNT]"""

import itertools
import random
import subprocess
import sys

import numpy as np

from harness import TOOL, check, content, done, finish, found, path, put, refused, run
from reference import gather, job_text, options, random_gather, random_scatter, scatter

SHAPES = [(), (0,), (5,), (3, 4), (2, 3, 4), (2, 0, 3), (1, 7)]


def same(left, right):
    """The same elements bit for bit, a NaN for any NaN."""
    return left.dtype == right.dtype and left.shape == right.shape and all(
        a == b or (np.asarray(a != a).all() and np.asarray(b != b).all())
        for a, b in zip(left.ravel().tolist(), right.ravel().tolist()))


def sample(kind, shape, seed):
    bits = np.random.default_rng(seed).integers(0, 256, size=max(8, int(np.prod(shape)) * 8), dtype=np.uint8)
    flat = np.frombuffer(bits.tobytes(), dtype="<" + kind)[:int(np.prod(shape))]
    return flat.reshape(shape)


def whole_copy(element, count):
    """A gather that reads the whole of a slice into another, in memory order."""
    extents = f"operand.extents = {count}\nindex.extents = 1\ndest.extents = {count}\n"
    return (f"kind = gather\nelement = {element}\n{extents}offset_dims = 0\ncollapsed_slice_dims =\n"
            f"start_index_map = 0\nindex_vector_dim = 0\nslice_sizes = {count}\n")


def files():
    np.save(path("zero.npy"), np.zeros(1, dtype="<i8"))
    orders = itertools.product(["i4", "f8"], "<>=", "CF", SHAPES, [(1, 0), (2, 0), (3, 0)])
    for number, (kind, endian, order, shape, version) in enumerate(orders):
        array = np.array(sample(kind, shape, number).astype(endian + kind), order=order)
        with open(path("in.npy"), "wb") as file:
            np.lib.format.write_array(file, array, version=version)
        blank = np.array(np.zeros(shape, dtype=kind), order=order)
        np.save(path("blank.npy"), blank)
        put("copy.txt", whole_copy({"i4": "i32", "f8": "f64"}[kind], array.size))
        done("job", "make", "copy.txt", "copy.job")
        done("gather", "--any-shape", "--job", "copy.job", "--operand", "in.npy", "--starts", "zero.npy", "--dest", "blank.npy",
             "--out", "out.npy")
        result = np.load(path("out.npy"))
        what = f"{kind} {endian} {order} {shape} {version}"
        check(same(result, array.astype("<" + kind)) and result.flags.f_contiguous == blank.flags.f_contiguous, what)
        check(content("out.npy")[6:8] == b"\x01\x00", f"{what}: version 1.0 is written")
        check(content("out.npy").index(b"\n") % 64 == 63, f"{what}: the elements are aligned")
        out = found(0, "compare", "in.npy", "out.npy")
        check(out.startswith("0 of "), f"{what}: {out}")


def other_type_forms():
    for endian in "|=":
        header = f"{{'descr': '{endian}i4', 'fortran_order': False, 'shape': (2,), }}".ljust(117) + "\n"
        put("odd.npy", b"\x93NUMPY\x01\x00" + len(header).to_bytes(2, "little") + header.encode()
            + np.array([7, -7], dtype="=i4").tobytes())
        check(done("print", "odd.npy") == "7 -7\n", f"type {endian}i4")


def printed():
    for endian, order in itertools.product("<>", "CF"):
        array = np.array([[1, -2, 3], [2**62, -2**63, 0]], dtype=endian + "i8", order=order)
        np.save(path("p.npy"), array)
        check(done("print", "p.npy") == "1 -2 3\n4611686018427387904 -9223372036854775808 0\n", f"print {endian}{order}")
    np.save(path("p.npy"), np.array([0.1, -0.0, np.inf, np.nan, 1e300]))
    numbers = done("print", "p.npy").split()
    check([str(float(n)) for n in numbers] == ["0.1", "-0.0", "inf", "nan", "1e+300"], f"floats: {numbers}")


def compared():
    before = np.zeros((4, 5), dtype="<i4")
    after = np.array(before, order="F")
    after[1, 2], after[3, 4] = 2**31 - 1, -2**31
    np.save(path("b.npy"), before)
    np.save(path("c.npy"), after)
    out = found(1, "compare", "b.npy", "c.npy")
    for words in ["2 of 20 elements differ", "from [1, 2] to [3, 4]", "sum of changes -1\n",
                  "lowest change -2147483648 at [3, 4]", "highest change 2147483647 at [1, 2]"]:
        check(words in out, f"compare: {words}: {out}")
    incomparable(before)


def incomparable(grid):
    """2, where there is nothing to be said of two grids, beside 1 for grids that differ."""
    floats = np.array([0.5, np.nan, -0.0])
    np.save(path("f.npy"), floats)
    np.save(path("g.npy"), floats + [0, 0, 1])
    check(found(0, "compare", "f.npy", "f.npy").startswith("0 of 3"), "a NaN is the same as a NaN")
    check(found(1, "compare", "f.npy", "g.npy").startswith("1 of 3"), "floats that differ")
    np.save(path("d.npy"), grid.T)
    np.save(path("long.npy"), grid.astype("<i8"))
    put("cut.npy", content("b.npy")[:-1])
    refused(2, ["4 x 5 of i32", "5 x 4 of i32", "one shape and element"], "compare", "b.npy", "d.npy")
    refused(2, ["of i32", "of f64", "one shape"], "compare", "b.npy", "f.npy")
    refused(2, ["grids of i32 and f64 are compared"], "compare", "long.npy", "long.npy")
    refused(2, ["cut.npy", "cut off"], "compare", "b.npy", "cut.npy")
    refused(2, ["absent.npy: cannot open it"], "compare", "absent.npy", "b.npy")
    status, _, err = run("compare", "b.npy")
    check(status == 2 and "Usage" in err, f"compare of one file: {status} {err}")
    with open("/dev/full", "wb") as full:
        ended = subprocess.run([TOOL, "compare", path("b.npy"), path("c.npy")], stdout=full, stderr=subprocess.DEVNULL)
    check(ended.returncode == 2, f"compare that cannot tell: {ended.returncode}")


def calls(seed, count):
    rng = random.Random(seed)
    for number in range(count):
        element = rng.choice(["i32", "f64"])
        kind = rng.choice(["gather", "scatter"])
        case = (random_gather if kind == "gather" else random_scatter)(rng, element)
        one_call(f"seed {seed} case {number}, {kind} of {element}", kind, element, *case)


def one_call(what, kind, element, spec, first, second, third):
    names = ["operand", "index", "dest"] if kind == "gather" else ["index", "updates", "dest"]
    views = [first, second, third]
    text = job_text(kind, element, names, views, spec)
    put("case.txt", text)
    done("job", "make", "case.txt", "case.job")
    put("again.txt", done("job", "show", "case.job"))
    done("job", "make", "again.txt", "again.job")
    check(content("case.job") == content("again.job"), f"{what}: the job shown and made again")
    done("job", "check", "case.job")
    wanted = third.array.copy()
    (gather if kind == "gather" else scatter)(first.array, second.array, wanted, spec)
    by_lists(what, kind, [view.array for view in views], wanted, spec)
    by_job(what, kind, views, wanted)


FILES = {"gather": ["--operand", "--starts", "--dest"], "scatter": ["--starts", "--updates", "--grid"]}


def saved(kind, arrays):
    """The options that name the files, in which the arrays are."""
    names = ["one.npy", "two.npy", "three.npy"]
    for name, array in zip(names, arrays):
        np.save(path(name), array)
    return sum(([option, name] for option, name in zip(FILES[kind], names)), [])


def by_job(what, kind, views, wanted):
    """The call by its stored job, on files of the job's shapes and orders where they can be, and of any shape where not."""
    third = views[2]
    arguments = saved(kind, [view.file() for view in views])
    call = [kind, "--job", "case.job"]
    if not all(view.is_whole_file() for view in views):
        refused(2, ["; nothing was done\n--any-shape takes"], *call, *arguments, "--out", "three.npy")
        call.append("--any-shape")
    status, _, err = run(*call, *arguments, "--out", "three.npy")
    if not check(status == 0, f"{what}: {err}"):
        return
    third.array[...] = wanted
    result = np.load(path("three.npy"))
    check(same(result, third.file()), f"{what}: {result} and not {third.file()}")
    if kind == "gather" and third.form != "strides":
        done(*call, *arguments[:4], "--out", "fresh.npy")
        fresh = np.load(path("fresh.npy"))
        check(same(fresh, third.file()), f"{what}: without --dest {fresh} and not {third.file()}")


def by_lists(what, kind, arrays, wanted, spec):
    """The call without a job, on files that are in either order."""
    lists = options(spec)
    orders = [np.asfortranarray if len(what) + place & 1 else np.ascontiguousarray for place in range(3)]
    files = [order(array).reshape(array.shape, order="A") for order, array in zip(orders, arrays)]
    arguments = saved(kind, files)
    done(kind, *lists, *arguments, "--out", "lists.npy")
    result = np.load(path("lists.npy"))
    check(same(result, wanted), f"{what}: without a job {result} and not {wanted}")
    check(result.flags.f_contiguous == files[2].flags.f_contiguous, f"{what}: without a job, the order")
    if kind == "gather":
        done(kind, *lists, *arguments[:4], "--out", "lists.npy")
        check(same(np.load(path("lists.npy")), wanted), f"{what}: without a job and --dest")


def main():
    seed = int(sys.argv[2]) if len(sys.argv) > 2 else 1
    count = int(sys.argv[3]) if len(sys.argv) > 3 else 300
    files()
    other_type_forms()
    printed()
    compared()
    calls(seed, count)
    finish("the tool beside NumPy")


main()
