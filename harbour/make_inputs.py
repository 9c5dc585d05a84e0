"""Makes the harbour's input files: a basin and what two dredgers logged. usage: make_inputs.py [FOLDER]

The files beside this program were made by it once, and are kept; check.py makes them again and compares. Nothing was
measured: the bottom is a few waves and a shoal, and the cuts come from Python's random numbers with a fixed seed.

Depths are in mm below the water, i32; the pier stands 3500 mm above it. A log has a start for each cut, row and
column of the footprint's first cell, i64, and the mm that each cell of the footprint was deepened by, i32.
"""

import math
import os
import random
import sys

import numpy as np

ROWS, COLUMNS = 80, 120
WALL = -3500


def basin():
    """The northern edge is the quay's face; a pier runs out from it."""
    grid = np.zeros((ROWS, COLUMNS), dtype="<i4")
    for row in range(ROWS):
        for column in range(COLUMNS):
            waves = 400 * math.sin(column / 9) + 300 * math.cos(row / 7 + column / 23)
            shoal = 2600 * math.exp(-((row - 46) ** 2 / 180 + (column - 70) ** 2 / 420))
            grid[row, column] = round(7600 + 28 * row + waves - shoal)
    grid[0:30, 62:66] = WALL
    return grid


def mown(numbers, rows, columns):
    """Starts in lanes, there and back, a little off the straight."""
    starts = []
    for lane, row in enumerate(rows):
        for column in columns if lane % 2 == 0 else reversed(columns):
            starts.append([max(0, place + round(1.6 * (numbers.random() - 0.5))) for place in (row, column)])
    return starts


def fairway(numbers, corners, count):
    """Starts along straight lines through the corners, a little off them."""
    starts = []
    for number in range(count):
        along = number / count * (len(corners) - 1)
        (row, column), (next_row, next_column) = corners[int(along)], corners[int(along) + 1]
        share = along - int(along)
        here = [row + (next_row - row) * share, column + (next_column - column) * share]
        starts.append([round(place + 1.5 * (numbers.random() - 0.5)) for place in here])
    return starts


def cuts(numbers, count, rows, columns, deepest):
    """Deepest in the middle of a footprint, and at least 40 mm everywhere."""
    updates = np.zeros((count, rows, columns), dtype="<i4")
    for number in range(count):
        strength = 0.5 + 0.5 * numbers.random()
        for row in range(rows):
            for column in range(columns):
                bow = math.sin(math.pi * (row + 1) / (rows + 1)) * math.sin(math.pi * (column + 1) / (columns + 1))
                updates[number, row, column] = 40 + round(deepest * strength * bow)
    return updates


def main():
    folder = sys.argv[1] if len(sys.argv) > 1 else os.path.dirname(os.path.abspath(__file__))
    numbers = random.Random(1911)
    # North cleans the berth, then takes the shoal from the west; South takes the rest of it, and the fairway.
    north = mown(numbers, range(1, 10, 3), range(18, 44, 5)) + mown(numbers, range(36, 57, 3), range(52, 76, 5))
    north[3] = [-2, 34]  # logged past the quay's face
    south = mown(numbers, range(38, 58, 4), range(64, 92, 4)) + fairway(numbers, [(60, 60), (70, 36), (74, 8)], 24)
    south.append([79, 117])  # logged at the basin's corner, most of the footprint past it
    north, south = np.array(north, dtype="<i8"), np.array(south, dtype="<i8")
    np.save(os.path.join(folder, "basin.npy"), basin())
    np.save(os.path.join(folder, "north_starts.npy"), north)
    np.save(os.path.join(folder, "north_cuts.npy"), cuts(numbers, len(north), 3, 5, 620))
    np.save(os.path.join(folder, "south_starts.npy"), np.asfortranarray(south))
    np.save(os.path.join(folder, "south_cuts.npy"), np.asfortranarray(cuts(numbers, len(south), 4, 4, 740)))
    np.save(os.path.join(folder, "berth_start.npy"), np.array([0, 18], dtype="<i8"))
    # A window of the berth's size asked for at the basin's corner, most of it past the edge.
    np.save(os.path.join(folder, "corner_start.npy"), np.array([74, 104], dtype="<i8"))
    np.save(os.path.join(folder, "counting.npy"), np.arange(COLUMNS, dtype="<i4"))
    print(f"{len(north)} cuts by North, {len(south)} by South")


main()
