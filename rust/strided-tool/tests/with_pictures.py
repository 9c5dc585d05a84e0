"""The tool's pictures: every cell's colour, what is written beside them, and the memory they take. usage: with_pictures.py TOOL"""

import os
import re

import numpy as np

import pictures
from harness import check, content, done, finish, path, peak, put, refused, run

MARGIN, TICK, GAP, BAR = 12, 5, 6, 24
# From the top of the columns' numbers to the cells, and what a title and units add above them.
NUMBERS, TITLE, UNITS = pictures.TEXT + 4 + TICK, pictures.TEXT + MARGIN, GAP
# A basin, and a berth of it that has a file of its own.
BERTH = ["show", "berth.npy", "o.png", "--origin", "0,18"]
ASCII = [chr(number) for number in range(0x20, 0x7f)]


def scene():
    basin = np.random.default_rng(3).integers(-9000, 9000, size=(20, 60), dtype="<i4")
    np.save(path("basin.npy"), basin)
    np.save(path("berth.npy"), basin[0:12, 18:48])
    np.save(path("line.npy"), np.zeros(5, dtype="<i4"))
    np.save(path("none.npy"), np.zeros((0, 4)))


def picture(*arguments):
    """The picture that a run draws, what it says, and where the cells begin."""
    status, _, err = run(*arguments)
    check(status == 0, f"{arguments}: {err}")
    pixels = pictures.read(content(arguments[2]))
    return pixels, err, pictures.cell_origin(pixels)


def is_drawn(pixels, origin, expected, what):
    """Whether the cells' pixels, from this place on, are these."""
    (top, left), (height, width, _) = origin, expected.shape
    cells = pixels[top:top + height, left:left + width]
    check(cells.shape == expected.shape and (cells == expected).all(), f"the colours of {what}")
    check((pixels[top - 1:top + height + 1, [left - 1, left + width]] == pictures.INK).all(), f"the frame of {what}")


def drawn():
    array = np.array([[1.0, 5.0, np.nan], [2.0, 3.0, 9.0]])
    np.save(path("square.npy"), array)
    np.save(path("square_t.npy"), np.asfortranarray(array))
    pixels, err, (top, left) = picture("show", "square.npy", "one.png", "--cell", "10")
    check("lowest 1, highest 9, 1 NaN" in err and "10 pixels a cell" in err, err)
    done("show", "square_t.npy", "two.png", "--cell", "10")
    check(content("one.png") == content("two.png"), "both orders give one picture")
    at = lambda row, column: tuple(pixels[top + 10 * row + 5, left + 10 * column + 5])
    check(at(0, 0) == (250, 247, 214) and at(1, 2) == (13, 16, 52), f"the ends: {at(0, 0)} {at(1, 2)}")
    check(at(0, 2) == (230, 120, 20), f"NaN: {at(0, 2)}")
    check(sum(map(int, at(1, 0))) > sum(map(int, at(1, 1))) > sum(map(int, at(0, 1))), "the deeper the darker")
    _, err, _ = picture("show", "square.npy", "w.png", "--window", "1:2,:", "--scale", "-2:2.5")
    check("rows 1 to 1, columns 0 to 2" in err and "2 outside the scale" in err, err)
    for name, values in [("inf", [[np.inf, -np.inf]]), ("nan", [[np.nan]]), ("wide", [[-1.7e308, 1.7e308]]), ("one", [[7.0]]),
                         ("small", [[5e-324, 0.0]])]:
        np.save(path(name + ".npy"), np.array(values))
        done("show", name + ".npy", name + ".png")
        check(pictures.read(content(name + ".png")).size > 0, name)


def refusals():
    for arguments, words in [(["--window", "0:3,0:1"], "the grid has 2 rows"), (["--window", "1:1,0:1"], "has no rows"),
                             (["--window", "5"], "give rows and columns"), (["--scale", "2:1"], "below the second"),
                             (["--cell", "0"], "at least 1 pixel"), (["--cell", "9999"], "smaller --cell")]:
        refused(2, [words], "show", "square.npy", "o.png", *arguments)
    refused(2, ["a grid of two axes is drawn"], "show", "line.npy", "o.png")
    refused(2, ["no cells to draw"], "show", "none.npy", "o.png")


def every_cell():
    """Grids that are read in several parts, in both orders: rows of parts, parts in a row, and squares of several cells."""
    rng = np.random.default_rng(4)
    for shape, side, down, across in [((1500, 1100), 1, 1, 1), ((3, 1_500_000), 367, 24, 1), ((5000, 700), 2, 1, 1),
                                      ((1_000_000, 2), 245, 1, 24)]:
        depths = rng.normal(size=shape)
        depths[rng.random(shape) < 0.2] = np.nan
        depths[0, 0], depths[-1, -1] = np.inf, -np.inf
        finite, nan = depths[np.isfinite(depths)], np.isnan(depths).sum()
        low, high, outside = float(finite.min()), float(finite.max()), (abs(finite) > 1.5).sum()
        lowest = np.fmin.reduceat(np.fmin.reduceat(depths, range(0, shape[1], side), axis=1), range(0, shape[0], side), axis=0)
        for order, scale, ends, told in [("C", [], (low, high), ""), ("F", [], (low, high), ""),
                                         ("C", ["--scale", "-1.5:1.5"], (-1.5, 1.5), f", {outside} outside the scale")]:
            what = f"{shape} in {order} order {scale}"
            np.save(path("large.npy"), np.asarray(depths, order=order))
            pixels, err, origin = picture("show", "large.npy", "large.png", *scale)
            expected = pictures.colours(lowest, *ends).repeat(down, axis=0).repeat(across, axis=1)
            is_drawn(pixels, origin, expected, what)
            check(f"lowest {low!r}, highest {high!r}, {nan} NaN, 2 infinite{told}\n" in err, f"{what}: {err}")
    os.remove(path("large.npy"))


def titled():
    """A title and units move the cells down, and everything else stays."""
    basin = np.load(path("basin.npy"))
    expected = pictures.colours(basin, -5000, 5000).repeat(10, 0).repeat(10, 1)
    arguments = ["show", "basin.npy", "o.png", "--scale", "-5000:5000"]
    plain, said, (top, left) = picture(*arguments)
    is_drawn(plain, (top, left), expected, "the basin without a title")
    for more, title, units in [(["--title", "2019-07.31"], "2019-07.31", ""), (["--units", "mm"], "", "mm"),
                               (["--title", "-18-", "--units", "-5.m"], "-18-", "-5.m"), (["--title", "9" * 99], "9" * 99, "")]:
        pixels, err, origin = picture(*arguments, *more)
        check(err == said, f"{more}: {err}")
        more_rows = (TITLE if title else 0) + (UNITS if units else 0)
        check(origin == (top + more_rows, left), f"{more}: the cells begin at {origin}")
        is_drawn(pixels, origin, expected, f"the basin with {more}")
        check(pictures.text(pixels, MARGIN, left) == title, f"{more}: the title")
        bar = pictures.bar_origin(pixels)[1]
        check(pictures.text(pixels, MARGIN + (TITLE if title else 0), bar) == units, f"{more}: the units")
        same = pixels[more_rows + MARGIN:, :plain.shape[1]]
        check((same == plain[MARGIN:]).all() if not units else (same[NUMBERS:] == plain[MARGIN + NUMBERS:]).all(),
              f"{more}: what is below")
        wide = max(plain.shape[1], left + pictures.LETTER * len(title) - pictures.DOT + MARGIN if title else 0)
        check(pixels.shape[1] == wide, f"{more}: {pixels.shape[1]} pixels wide, not {wide}")
    done(*arguments)
    without = content("o.png")
    for nothing in ["", "   "]:
        done(*arguments, "--title", nothing, "--units", nothing)
        check(content("o.png") == without, f"a title of {nothing!r} is none")


def letters():
    """Every letter is drawn, no two alike, in a title and in units."""
    every = ASCII[1:] + list("°µ²³")
    for option, place in [("--title", pictures.cell_origin), ("--units", pictures.bar_origin)]:
        pixels, _, _ = picture("show", "basin.npy", "o.png", option, "".join(every))
        left = place(pixels)[1]
        part = lambda number: pixels[MARGIN:MARGIN + 18, left + 12 * number:left + 12 * number + 12].tobytes()
        seen = [part(number) for number in range(len(every))]
        blank = bytes([255]) * len(seen[0])
        check(blank not in seen, f"{option}: a letter is not drawn")
        check(len(set(seen)) == len(every) == 98, f"{option}: two letters are drawn alike")
        check((pixels[:, left + 12 * len(every):][MARGIN:MARGIN + 18] == 255).all(), f"{option}: something is past the last letter")
        for known, dots in pictures.LETTERS.items():
            found = pictures.letter(pixels, MARGIN, left + 12 * every.index(known))
            check(found == dots, f"{option}: {known} is drawn as {found}")


def refused_letters():
    """Before anything is read or written."""
    put("old.png", b"old")
    for option in ["--title", "--units"]:
        for text, words in [("Süd", "'ü' (U+00FC)"), ("two\nlines", r"'\n' (U+000A)"), ("tab\t", r"'\t' (U+0009)"),
                            ("深", "'深' (U+6DF1)"), ("\x7f", r"'\u{7f}' (U+007F)"), ("e\u0301", r"'\u{301}' (U+0301)"),
                            ("x" * 501, "501 characters")]:
            status, _, err = run("show", "absent.npy", "old.png", option, text)
            check(status == 2 and words in err and option in err and "absent.npy" not in err, f"{option} {text!r}: {err}")
            check(content("old.png") == b"old", f"{option} {text!r}: the old picture stays")
    done("show", "basin.npy", "o.png", "--title", "x" * 500, "--units", "5 \u03bcm")


def edge_numbers(pixels, origin, cell):
    """The numbers along both edges, with how many cells they stand from the first; none where one is not at a cell's middle,
    or reaches over the bar."""
    top, left = origin
    bar = pictures.bar_origin(pixels)[1]
    columns = {}
    for words, begin, end in pictures.texts(pixels, top - NUMBERS, 0, bar):
        number, over = divmod(begin + (end - begin) // 2 - left - cell // 2, cell)
        columns[words] = number if over == 0 and end < bar else None
    rows = {}
    for number in range((pixels.shape[0] - top) // cell):
        y = top + cell * number + cell // 2 - pictures.TEXT // 2
        rows.update({words: number for words, _, end in pictures.texts(pixels, y, 0, left - TICK) if end == left - TICK - 4})
    return rows, columns


def numbered():
    """The first row and the first column have their numbers, and round ones that are not too near."""
    one, eight = pictures.LETTERS["1"], pictures.LETTERS["8"]
    pixels, err, (top, left) = picture(*BERTH, "--cell", 16)
    check("12 x 30 cells, rows 0 to 11, columns 18 to 47, 16 pixels a cell" in err, err)
    middle = left + 16 // 2 - 22 // 2
    drawn = [pictures.letter(pixels, top - NUMBERS, middle + 12 * number) for number in (0, 1)]
    check(drawn == [one, eight], f"the first column is 18: {drawn}")
    for arguments, rows, columns in [
            (BERTH, range(0, 12, 2), [18, 25, 30, 35, 40, 45]),
            (BERTH + ["--window", "3:12,24:"], [3, 6, 8, 10], [24, 30, 35, 40, 45]),
            (["show", "basin.npy", "o.png", "--window", "7:20,13:23"], [7, 10, 12, 14, 16, 18], [13, 20]),
            (["show", "basin.npy", "o.png", "--window", "19:20,59:60"], [19], [59]),
            (["show", "basin.npy", "o.png"], range(0, 20, 2), range(0, 60, 5)),
            (["show", "berth.npy", "o.png", "--origin", "12345,999999990"], [12345, 12348, 12350, 12352, 12354, 12356],
             [999999990, 1000000000, 1000000010]),
            (["show", "berth.npy", "o.png", "--origin", "0,2000000001"], range(0, 12, 2),
             [2000000001, 2000000010, 2000000020, 2000000030]),
            (["show", "berth.npy", "o.png", "--origin", f"{2**64 - 13},{2**64 - 31}"],
             [2**64 - 13, *range(2**64 - 10, 2**64, 2)], [2**64 - 31])]:
        pixels, err, origin = picture(*arguments, "--cell", 16)
        wanted = [{str(number): number - numbers[0] for number in numbers} for numbers in (rows, columns)]
        found = edge_numbers(pixels, origin, 16)
        check(list(found) == wanted, f"{arguments}: the numbers {found}")


def windows_of_their_own():
    """A window in a file of its own is drawn, and told, as in the whole grid."""
    np.save(path("pier.npy"), np.load(path("basin.npy"))[5:17, 0:30])
    pier = ["show", "pier.npy", "o.png", "--origin", "5,0"]
    for arguments, window, more in [(BERTH, "0:12,18:48", ":,:"), (BERTH, "0:5,20:30", "0:5,20:30"), (BERTH, "4:12,18:19", "4:,:19"),
                                    (BERTH, "11:12,47:48", "11:12,47:48"), (pier, "5:17,0:30", "5:17,0:30"),
                                    (pier, "7:9,3:20", "7:9,3:20"), (pier, "5:6,29:30", ":6,29:")]:
        _, whole, _ = picture("show", "basin.npy", "o.png", "--window", window, "--scale", "-9000:9000")
        expected = content("o.png")
        _, own, _ = picture(*arguments, "--window", more, "--scale", "-9000:9000")
        check(content("o.png") == expected, f"the window {window} by itself")
        check(own == whole, f"the window {window} is told: {own} {whole}")


def outside_windows():
    """What is outside is told in the numbers that the user counts by."""
    numbers = "the grid has 30 columns, numbered from 18 to 47"
    for window, words in [("0:5,17:30", ["begins at 17", numbers]), ("0:5,2:12", ["begins at 2", numbers]),
                          ("0:5,20:49", ["goes up to 49", numbers]), (":,99:", ["begins at 99", numbers]),
                          ("0:5,30:20", ["from 30 up to 20 has no columns"]),
                          ("0:13,:", ["goes up to 13", "has 12 rows, numbered from 0 to 11"])]:
        refused(2, ["berth.npy: ", *words], *BERTH, "--window", window)
    for origin, words in [(f"{2**64 - 12},0", "its 12 rows, numbered from 18446744073709551604, go up to more than 2^64 - 1"),
                          (f"0,{2**64 - 1}", "30 columns"), (f"0,{2**64}", "not a whole number"), ("-1,0", "`-1` is not"),
                          ("5", "as 0,18"), ("0,1,2", "`1,2` is not"), ("", "as 0,18")]:
        refused(2, [words], "show", "berth.npy", "o.png", "--origin", origin)


def nothing_below():
    """0, and not -0, where a value or an end of the bar is that, or is rounded to it."""
    for values, told, low, high in [([[-0.0]], "lowest 0, highest 0", "0", None), ([[-0.0, 4.0]], "lowest 0, highest 4", "0", "4"),
                                    ([[-4.0, -0.0]], "lowest -4, highest 0", "-4", "0"),
                                    ([[-0.04, 3.0]], "lowest -0.04, highest 3", "0", "3"),
                                    ([[-3.0, -1e-5]], "lowest -3, highest -1e-5", "-3", "0"),
                                    ([[-0.4, 3.0]], "lowest -0.4, highest 3", "-0.4", "3")]:
        np.save(path("zero.npy"), np.array(values))
        pixels, err, _ = picture("show", "zero.npy", "o.png")
        check(told in err and not re.search(r"-0(\.0*)?(?![\d.])", err), f"{values}: {err}")
        top, left = pictures.bar_origin(pixels)
        ends = [top - pictures.TEXT // 2, top + 159 - pictures.TEXT // 2] if high else [top + 80 - pictures.TEXT // 2]
        found = [pictures.text(pixels, y, left + BAR + TICK + GAP) for y in ends]
        check(found == [low, high][:len(ends)], f"{values}: the ends of the bar are {found}")
    check(done("print", "zero.npy") == "-0.4 3.0\n", "print")
    np.save(path("zero.npy"), np.array([[-0.0]]))
    check(done("print", "zero.npy") == "-0.0\n", "print is exact")


def memory():
    """The grid is in memory once, whatever its shape and order; the files have no blocks on the disk."""
    for shape in [(5000, 5000), (1, 25_000_000), (25_000_000, 1)]:
        for fortran_order in [False, True]:
            np.lib.format.open_memmap(path("large.npy"), mode="w+", dtype="<i4", shape=shape, fortran_order=fortran_order)
            most = peak("show", "large.npy", "large.png")
            check(most <= 100_000_000 + 64_000_000, f"{shape}, Fortran order {fortran_order}: {most} bytes")
    os.remove(path("large.npy"))


def main():
    scene()
    drawn()
    refusals()
    every_cell()
    titled()
    letters()
    refused_letters()
    numbered()
    windows_of_their_own()
    outside_windows()
    nothing_below()
    memory()
    finish("the tool's pictures")


main()
