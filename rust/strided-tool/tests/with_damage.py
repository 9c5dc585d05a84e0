"""The tool on damaged files, refused jobs, full disks and odd outputs. usage: with_damage.py TOOL"""

import os
import random
import resource
import shutil
import stat

import numpy as np

from harness import HERE, TOOL, check, content, done, finish, left_behind, path, put, refused, run
from reference import SCATTER

GATHER = """kind = gather
element = i32
operand.extents = 5
index.extents = 2
dest.extents = 2, 2
offset_dims = 0
collapsed_slice_dims =
start_index_map = 0
index_vector_dim = 1
slice_sizes = 2
"""

CUT = ["scatter", "--job", "cut.job", "--starts", "starts.npy", "--updates", "updates.npy", "--grid", "grid.npy"]


def scene():
    np.save(path("operand.npy"), np.array([10, 20, 30, 40, 50], dtype="<i4"))
    np.save(path("two.npy"), np.array([4, -1], dtype="<i8"))
    np.save(path("starts.npy"), np.array([0, 0, 9], dtype="<i8"))
    np.save(path("updates.npy"), np.array([3, 4, 5], dtype="<i4"))
    np.save(path("grid.npy"), np.zeros(5, dtype="<i4"))
    np.save(path("floats.npy"), np.zeros(5))
    np.save(path("drawn.npy"), np.zeros((2, 3)))
    make("read", GATHER)
    make("cut", SCATTER)


def make(name, text, *changes):
    """Stores the job of a text with changes, pairs of what stands there and what is to."""
    for old, new in changes:
        assert old in text, old
        text = text.replace(old, new)
    put(name + ".txt", text)
    return done("job", "make", name + ".txt", name + ".job", "--keep-refused")


def worked():
    """Document 01's window read and cuts added."""
    done("gather", "--job", "read.job", "--operand", "operand.npy", "--starts", "two.npy", "--out", "window.npy")
    check(np.load(path("window.npy")).ravel(order="K").tolist() == [40, 50, 10, 20], "40 50 10 20")
    done(*CUT, "--out", "after.npy")
    check(np.load(path("after.npy")).tolist() == [7, 0, 0, 0, 5], "7 0 0 0 5")


def damaged_files():
    whole = content("grid.npy")
    for size in range(len(whole)):
        put("bad.npy", whole[:size])
        refused(2, ["bad.npy", "cut off"], "print", "bad.npy")
    put("bad.npy", whole + b"x")
    refused(2, ["bytes past the elements"], "print", "bad.npy")
    rng = random.Random(1)
    for number in range(1000):
        place = rng.randrange(128)
        put("bad.npy", whole[:place] + bytes([rng.randrange(256)]) + whole[place + 1:])
        status, _, err = run("print", "bad.npy")
        check(status in (0, 2) and "panicked" not in err, f"damage {number} at {place}: {status} {err}")


def header(text, version=b"\x01\x00"):
    body = text.encode("latin-1")
    size = 2 if version == b"\x01\x00" else 4
    return b"\x93NUMPY" + version + len(body).to_bytes(size, "little") + body


def few():
    """At most two gigabytes of memory."""
    resource.setrlimit(resource.RLIMIT_AS, (2 << 30, 2 << 30))


def odd_headers():
    form = "{'descr': '%s', 'fortran_order': False, 'shape': %s}"
    for shape, words in [("(4294967296, 4294967296)", "too many elements"), ("(18446744073709551615,)", "too many"),
                         ("(1099511627776,)", "cut off"), ("(99999999999999999999999,)", "too large"), ("(-1,)", "an extent"),
                         ("5", "'('"), ("(5)", "','"), ("None", "'('"), ("(%s)" % ("1," * 65), "more than 64 axes")]:
        put("bad.npy", header(form % ("<i4", shape)))
        refused(2, [words], "print", "bad.npy", preexec_fn=few)
    for descr, words in [("<f4", "32-bit floats"), ("<u4", "without sign"), ("|b1", "truth values"), ("<c16", "complex"),
                         ("|O", "Python objects"), ("<U5", "text"), ("<M8[ns]", "dates"), ("zzz", "'zzz'")]:
        put("bad.npy", header(form % (descr, "(0,)")))
        refused(2, [words, "i32 ('<i4')"], "print", "bad.npy")
    np.save(path("bad.npy"), np.zeros(3, dtype=[("a", "<i4"), ("b", "<f8")]))
    refused(2, ["record of fields"], "print", "bad.npy")
    put("bad.npy", b"\x93NUMPY\x04\x00" + bytes(100))
    refused(2, ["version 4.0"], "print", "bad.npy")
    put("bad.npy", b"\x93NUMPY\x02\x00\xff\xff\xff\xff" + bytes(100))
    refused(2, ["too long"], "print", "bad.npy", preexec_fn=few)
    np.savez(path("bad.npz"), a=np.zeros(3))
    refused(2, [".npz"], "print", "bad.npz")
    put("bad.npy", b"")
    refused(2, ["not a .npy file"], "print", "bad.npy")
    refused(2, ["cannot open it"], "print", "absent.npy")
    refused(2, ["cannot read it"], "print", ".")


def damaged_jobs():
    for name in ["read.job", "cut.job"]:
        whole = content(name)
        for size in range(len(whole)):
            put("bad.job", whole[:size])
            refused(1, ["10 JobBytes (a = 0, b = 0)", "first four bytes" if size > 3 else f"it has {size} bytes"],
                    "job", "check", "bad.job")
        put("bad.job", whole + b"\0")
        refused(1, ["10 JobBytes (a = 0"], "job", "show", "bad.job")
        for place in range(len(whole)):
            put("bad.job", whole[:place] + bytes([whole[place] ^ 0x55]) + whole[place + 1:])
            status, _, err = run("job", "check", "bad.job")
            check(status in (0, 1) and "panicked" not in err, f"damage at {place}: {status} {err}")
    whole = content("read.job")
    for place, words in [(4, "the version"), (5, "the kind"), (6, "the element"), (7, "the rank of the operand"),
                         (32, "the rank of the index"), (98, "the count of offset_dims")]:
        put("bad.job", whole[:place] + b"\x99" + whole[place + 1:])
        refused(1, [f"10 JobBytes (a = {place}, b = 0)", words], "job", "check", "bad.job")
    put("bad.job", bytes(2 << 20))
    refused(2, ["too large to be a stored job"], "job", "check", "bad.job")
    refused(1, ["10 JobBytes (a = 5", "here 2, a scatter", "`strided scatter`"], "gather", "--job", "cut.job", "--operand",
            "operand.npy", "--starts", "two.npy", "--out", "o.npy")
    refused(1, ["10 JobBytes (a = 5", "here 1, a gather", "`strided gather`"], "scatter", "--job", "read.job", "--starts",
            "starts.npy", "--updates", "updates.npy", "--grid", "grid.npy", "--out", "o.npy")


def written_refusals():
    """Texts that the library's writer refuses."""
    def refuse(words, *changes):
        text = GATHER
        for old, new in changes:
            text = text.replace(old, new)
        put("bad.txt", text)
        put("old.job", b"old")
        refused(1, words, "job", "make", "bad.txt", "old.job")
        check(content("old.job") == b"old", f"{words}: the old job stays")

    refuse(["1 StrideLengthMismatch", "operand.extents has 1 entries and operand.strides 2"],
           ("operand.extents = 5", "operand.extents = 5\noperand.strides = 1, 2"))
    refuse(["2 RankTooLarge (a = 9, b = 8)", "it is the operand that has 9 axes"],
           ("operand.extents = 5", "operand.extents = 1, 1, 1, 1, 1, 1, 1, 1, 1"))
    refuse(["5 RankMismatch (a = 17, b = 16)", "slice_sizes has 17 entries", "room for 16"],
           ("slice_sizes = 2", "slice_sizes = " + ", ".join(["1"] * 17)))


def compiled_refusals():
    """Jobs that compile refuses: not stored unless that is asked for, and refused when checked and when run."""
    def refuse(words, text, *changes):
        make("bad", text, *changes)
        _, _, err = run("job", "make", "bad.txt", "bad.job", "--keep-refused")
        check("cannot be run" in err and all(word in err for word in words), f"made: {words}: {err}")
        put("old.job", b"old")
        refused(1, [*words, "nothing was stored; --keep-refused"], "-q", "job", "make", "bad.txt", "old.job")
        check(content("old.job") == b"old", f"{words}: the old job stays")
        refused(1, words, "job", "check", "bad.job")
        if text == GATHER:
            refused(1, words, "gather", "--job", "bad.job", "--operand", "operand.npy", "--starts", "two.npy", "--out", "o.npy")
        else:
            refused(1, words, "scatter", "--job", "bad.job", *CUT[3:], "--out", "o.npy")
        check(not os.path.exists(path("o.npy")), f"{words}: no output")

    big = "18446744073709551615"
    refuse(["3 OffsetOverflow"], GATHER, ("operand.extents = 5", f"operand.extents = {big}, 2\noperand.strides = 0, 0"))
    refuse(["4 NonInjectiveOutputLayout", "dest has extents [2, 2] with strides [1, 1]"], GATHER,
           ("dest.extents = 2, 2", "dest.extents = 2, 2\ndest.strides = 1, 1"))
    refuse(["5 RankMismatch (a = 2, b = 1)", "slice_sizes has 2 entries, and the operand has 1 axes"], GATHER,
           ("slice_sizes = 2", "slice_sizes = 2, 1"))
    refuse(["5 RankMismatch (a = 1, b = 0)", "a start has 1 components, and start_index_map has 0"], GATHER,
           ("start_index_map = 0", "start_index_map ="))
    refuse(["5 RankMismatch (a = 0, b = 1)", "offset_dims has 0 entries, and 1 axes of the operand are not collapsed"], GATHER,
           ("offset_dims = 0", "offset_dims ="))
    refuse(["6 InvalidAxis (a = 3, b = 1)", "collapsed_slice_dims names axis 3"], GATHER,
           ("collapsed_slice_dims =", "collapsed_slice_dims = 3"))
    refuse(["6 InvalidAxis (a = 0, b = 1)", "start_index_map names axis 0 twice"], GATHER,
           ("start_index_map = 0", "start_index_map = 0, 0"))
    refuse(["6 InvalidAxis (a = 2, b = 2)", "index_vector_dim is 2"], GATHER, ("index_vector_dim = 1", "index_vector_dim = 2"))
    refuse(["6 InvalidAxis (a = 0, b = 1)", "the window has 6 cells along axis 0"], GATHER, ("slice_sizes = 2", "slice_sizes = 6"))
    refuse(["6 InvalidAxis (a = 0, b = 1)", "whose slice size is 2 and must be 1"], GATHER,
           ("collapsed_slice_dims =", "collapsed_slice_dims = 0"))
    refuse(["6 InvalidAxis (a = 2, b = 2)", "offset_dims names axis 2"], GATHER, ("offset_dims = 0", "offset_dims = 2"))
    refuse(["7 ShapeMismatch (a = 2, b = 2)", "on the axes [0] it must have the window's [2]", "the batch's [2]"], GATHER,
           ("dest.extents = 2, 2", "dest.extents = 3, 2"))
    refuse(["5 RankMismatch (a = 1, b = 0)", "scatter_dims_to_operand_dims has 0 entries"], SCATTER,
           ("scatter_dims_to_operand_dims = 0", "scatter_dims_to_operand_dims ="))
    refuse(["5 RankMismatch (a = 0, b = 1)", "1 axes of dest are not inserted"], SCATTER,
           ("inserted_window_dims = 0", "inserted_window_dims ="))
    refuse(["5 RankMismatch (a = 2, b = 1)", "the updates have 2 axes outside update_window_dims"], SCATTER,
           ("updates.extents = 3", "updates.extents = 3, 3"))
    refuse(["6 InvalidAxis (a = 7, b = 1)", "inserted_window_dims names axis 7"], SCATTER,
           ("inserted_window_dims = 0", "inserted_window_dims = 7"))
    refuse(["6 InvalidAxis (a = 7, b = 1)", "scatter_dims_to_operand_dims names axis 7"], SCATTER,
           ("scatter_dims_to_operand_dims = 0", "scatter_dims_to_operand_dims = 7"))
    refuse(["7 ShapeMismatch", "the extents [4] outside update_window_dims, and the index has [3]"], SCATTER,
           ("updates.extents = 3", "updates.extents = 4"))
    windowed = [("updates.extents = 3", "updates.extents = 3, 2"), ("inserted_window_dims = 0", "inserted_window_dims ="),
                ("update_window_dims =\n", "update_window_dims = 1\n")]
    refuse(["6 InvalidAxis (a = 4, b = 2)", "update_window_dims names axis 4"], SCATTER, *windowed,
           ("update_window_dims = 1", "update_window_dims = 4"))
    refuse(["6 InvalidAxis (a = 0, b = 1)", "the window has 6 cells along axis 0 of dest, which has 5"], SCATTER, *windowed,
           ("updates.extents = 3, 2", "updates.extents = 3, 6"))
    refuse(["5 RankMismatch (a = 2, b = 1)", "update_window_dims has 2 entries, and the updates have 1 axes"], SCATTER,
           ("dest.extents = 5", "dest.extents = 5, 5"), ("inserted_window_dims = 0", "inserted_window_dims ="),
           ("update_window_dims =\n", "update_window_dims = 0, 1\n"))


def short_files():
    """9, for each view of a call; a view without cells."""
    gather = lambda *changes: (make("bad", GATHER, *changes), ["gather", "--any-shape", "--job", "bad.job", "--operand",
                               "operand.npy", "--starts", "two.npy"])[1]
    np.save(path("dest.npy"), np.ones((2, 2), dtype="<i4", order="F"))
    refused(1, ["9 BufferBounds (a = 1, b = 0)", "view 1 is the operand", "operand.npy lends 5 elements"],
            *gather(("operand.extents = 5", "operand.extents = 5\noperand.offset = 1")), "--out", "o.npy")
    refused(1, ["9 BufferBounds (a = 2, b = 0)", "view 2 is the index", "two.npy lends 2"],
            *gather(("index.extents = 2", "index.extents = 2\nindex.offset = -1")), "--out", "o.npy")
    arguments = gather(("dest.extents = 2, 2", "dest.extents = 2, 2\ndest.offset = 1"))
    refused(1, ["9 BufferBounds (a = 3, b = 0)", "view 3 is the dest", "dest.npy lends 4"], *arguments, "--dest", "dest.npy",
            "--out", "dest.npy")
    check(np.load(path("dest.npy")).tolist() == [[1, 1], [1, 1]], "a refused gather leaves the destination")
    refused(2, ["dest is not packed", "--dest"], *arguments, "--out", "o.npy")
    make("bad", SCATTER, ("index.extents = 3", "index.extents = 0\nindex.offset = 9"), ("updates.extents = 3", "updates.extents = 0"))
    refused(1, ["9 BufferBounds (a = 1", "it has no cells, and its offset may be from 0 to 3"], "scatter", "--any-shape",
            "--job", "bad.job", *CUT[3:], "--out", "o.npy")


def wrong_types():
    refused(2, ["floats.npy: it holds f64", "the job's operand is of i32", "astype('<i4')", "a job of f64"], "gather", "--job",
            "read.job", "--operand", "floats.npy", "--starts", "two.npy", "--out", "o.npy")
    refused(2, ["operand.npy: it holds i32, and starts are i64", "astype('<i8')"], "gather", "--job", "read.job", "--operand",
            "operand.npy", "--starts", "operand.npy", "--out", "o.npy")
    refused(2, ["it holds i64; grids of i32 and f64 are drawn"], "show", "square.npy", "o.png")


def texts():
    for changes, words in [
            (("kind = gather", "kind = gathers"), ":1: kind is `gathers`"), (("element = i32", "element = i64"), ":2: element is"),
            (("operand.extents = 5", "operand.extents = five"), ":3: `five` is not a whole number"),
            (("operand.extents = 5", "operand.extents = -5"), ":3: `-5` is not"),
            (("dest.extents = 2, 2", "dest.extents = 2 2"), ":5: `2 2` is not a whole number from 0 to 2^64 - 1; entries are separated by commas"),
            (("dest.extents = 2, 2", "dest.extents = 2,,2"), ":5: an entry is empty"),
            (("dest.extents = 2, 2", "dest.extents = [2, 2"), ":5: `[2, 2` has one bracket"),
            (("dest.extents = 2, 2", "dest.extents"), ":5: `dest.extents` is not of the form key = value"),
            (("slice_sizes = 2", "slice_size = 2"), ":10: `slice_size` is no key of a gather"),
            (("slice_sizes = 2", "kind = scatter"), ":10: `kind` stands already on line 1"),
            (("slice_sizes = 2\n", ""), "the line `slice_sizes = ..` is missing"),
            (("operand.extents = 5", f"operand.extents = {2**63}, 2"), ":3: the strides of a packed layout do not fit"),
            (("index_vector_dim = 1", "index_vector_dim ="), ":9: an entry is empty"),
            (("index_vector_dim = 1", "index_vector_dim = 18446744073709551616"), ":9: `18446744073709551616` is not")]:
        put("bad.txt", GATHER.replace(*changes))
        refused(2, ["bad.txt" + (words if words[0] == ":" else ": " + words)], "job", "make", "bad.txt", "bad.job")
    refused(2, ["it is not text"], "job", "make", "read.job", "bad.job")
    refused(2, ["it is also the text"], "job", "make", "read.txt", "read.txt")
    put("crlf.txt", "\ufeff" + GATHER.replace("\n", "\r\n"))
    done("job", "make", "crlf.txt", "crlf.job")
    check(content("crlf.job") == content("read.job"), "a text with a byte order mark and carriage returns")
    rng = random.Random(2)
    for number in range(500):
        place = rng.randrange(len(GATHER))
        put("bad.txt", GATHER.encode()[:place] + bytes([rng.randrange(256)]) + GATHER.encode()[place + 1:])
        status, _, err = run("job", "make", "bad.txt", "bad.job")
        check(status in (0, 1, 2) and "panicked" not in err, f"text damaged at {place}: {status} {err}")


def in_place():
    shutil.copy(path("grid.npy"), path("bed.npy"))
    os.chmod(path("bed.npy"), 0o640)
    os.symlink("bed.npy", path("link.npy"))
    arguments = CUT[:-1] + ["link.npy", "--out", "link.npy"]
    done(*arguments)
    check(np.load(path("bed.npy")).tolist() == [7, 0, 0, 0, 5], "the grid in place, through a link")
    check(os.path.islink(path("link.npy")), "the link is still one")
    check(stat.S_IMODE(os.stat(path("bed.npy")).st_mode) == 0o640, "the permissions stay")
    before = content("bed.npy")
    make("bad", SCATTER, ("dest.extents = 5", "dest.extents = 6"))
    refused(1, ["9 BufferBounds (a = 3"], "scatter", "--any-shape", "--job", "bad.job", *CUT[3:-1], "bed.npy", "--out", "bed.npy")
    check(content("bed.npy") == before, "a refused run leaves the grid")
    for option in ["--starts", "--updates", "--job"]:
        victim = CUT[CUT.index(option) + 1]
        old = content(victim)
        refused(2, [f"{victim}: it is also {option}", "would be lost"], *CUT, "--out", victim)
        check(content(victim) == old, f"{victim} stays")


def tiny_disk():
    """A file may have 100 bytes, and a write past them fails as on a full disk."""
    resource.setrlimit(resource.RLIMIT_FSIZE, (100, 100))


def failed_writes():
    before = content("grid.npy")
    big = dict(preexec_fn=tiny_disk, restore_signals=False)
    refused(2, ["grid.npy: cannot write it"], *CUT, "--out", "grid.npy", **big)
    check(content("grid.npy") == before, "a full disk leaves the grid")
    refused(2, ["fresh.npy: cannot write it"], *CUT, "--out", "fresh.npy", **big)
    check(not os.path.exists(path("fresh.npy")), "a full disk leaves no part of an output")
    refused(2, ["cannot write it"], "show", "drawn.npy", "o.png", **big)
    check(not left_behind(), "a full disk leaves no temporary file")
    refused(2, ["/dev/full: cannot write it", "No space left"], *CUT, "--out", "/dev/full")
    refused(2, ["cannot write it"], *CUT, "--out", "absent/o.npy")
    refused(2, ["it is a folder"], *CUT, "--out", HERE.name)
    put("guarded.npy", before)
    os.chmod(path("guarded.npy"), 0o444)
    refused(2, ["read-only"], *CUT, "--out", "guarded.npy")
    done(*CUT, "--out", "/dev/null")
    check(stat.S_ISCHR(os.stat("/dev/null").st_mode), "/dev/null is still a device")
    unwritable_folder()


def unwritable_folder():
    """As a user who may not write there; one who may write everywhere cannot try it."""
    options = {}
    if os.geteuid() == 0:
        options = dict(user=65534, group=65534, tool=shutil.copy(TOOL, path("strided")))
        os.chmod(HERE.name, 0o755)
    os.mkdir(path("closed"), 0o555)
    refused(2, ["closed/o.npy: cannot write it", "Permission denied"], *CUT, "--out", "closed/o.npy", **options)
    check(os.listdir(path("closed")) == [], "nothing is written to a folder that is closed")


def helps():
    for command in [[], ["job", "make"], ["job", "show"], ["job", "check"], ["gather"], ["scatter"], ["show"], ["compare"], ["print"]]:
        out = done(*command, "--help")
        check("Example" in out and "strided " + " ".join(command) in out, f"help of {command}")
    for arguments in [[], ["dredge"], ["gather"], ["show", "a.npy"]]:
        status, _, err = run(*arguments)
        check(status == 2 and "Usage" in err, f"{arguments}: {status} {err}")


def main():
    scene()
    np.save(path("square.npy"), np.zeros((2, 2), dtype="<i8"))
    worked()
    damaged_files()
    odd_headers()
    damaged_jobs()
    written_refusals()
    compiled_refusals()
    short_files()
    wrong_types()
    texts()
    in_place()
    failed_writes()
    helps()
    finish("the tool on damage and refusals")


main()
