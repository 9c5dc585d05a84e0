"""Gather and scatter as plain loops over NumPy arrays, after StableHLO with clamped starts, and random cases of them."""

import itertools

import numpy as np

# Three updates on a row of five cells, as the text of a job.
SCATTER = """kind = scatter
element = i32
index.extents = 3
updates.extents = 3
dest.extents = 5
update_window_dims =
inserted_window_dims = 0
scatter_dims_to_operand_dims = 0
index_vector_dim = 1
"""


def first_axis_fastest(extents):
    for reverse in itertools.product(*(range(extent) for extent in reversed(extents))):
        yield reverse[::-1]


def others(rank, axes):
    return [axis for axis in range(rank) if axis not in axes]


def start_of(index, batch, vector, mapping, extents, windows):
    """The start on each axis: clamped where the axis is mapped, else 0."""
    start = [0] * len(extents)
    for component, axis in enumerate(mapping):
        if vector == index.ndim:
            value = index[tuple(batch)]
        else:
            value = index[tuple(batch[:vector]) + (component,) + tuple(batch[vector:])]
        start[axis] = min(max(int(value), 0), extents[axis] - windows[axis])
    return start


def spread(rank, kept, entries):
    """The entries on the kept axes, 0 on the others."""
    full = [0] * rank
    for axis, entry in zip(kept, entries):
        full[axis] = entry
    return full


def gather(operand, index, dest, spec):
    kept = others(operand.ndim, spec["collapsed_slice_dims"])
    batch_axes = others(dest.ndim, spec["offset_dims"])
    for cell in first_axis_fastest(dest.shape):
        start = start_of(index, [cell[axis] for axis in batch_axes], spec["index_vector_dim"], spec["start_index_map"],
                         operand.shape, spec["slice_sizes"])
        offset = spread(operand.ndim, kept, [cell[axis] for axis in spec["offset_dims"]])
        dest[cell] = operand[tuple(s + o for s, o in zip(start, offset))]


def combined(held, update, rule):
    """What an element becomes of an update by a rule, as --rule has it. A comparison with NaN is false."""
    name, _, limit = rule.partition(":")
    if name == "replace":
        return update
    if name == "lowest":
        return update if update < held else held
    if name == "highest":
        return update if update > held else held
    total = held + update
    return np.float64(limit) if name == "ceiling" and total > np.float64(limit) else total


def scatter(index, updates, dest, spec, rule="add"):
    window_axes = spec["update_window_dims"]
    kept = others(dest.ndim, spec["inserted_window_dims"])
    batch_axes = others(updates.ndim, window_axes)
    windows = [1] * dest.ndim
    for axis, update_axis in zip(kept, window_axes):
        windows[axis] = updates.shape[update_axis]
    for batch in first_axis_fastest([updates.shape[axis] for axis in batch_axes]):
        start = start_of(index, list(batch), spec["index_vector_dim"], spec["scatter_dims_to_operand_dims"],
                         dest.shape, windows)
        for window in first_axis_fastest([updates.shape[axis] for axis in window_axes]):
            update = [0] * updates.ndim
            for axis, entry in zip(batch_axes, batch):
                update[axis] = entry
            for axis, entry in zip(window_axes, window):
                update[axis] = entry
            cell = tuple(s + o for s, o in zip(start, spread(dest.ndim, kept, window)))
            with np.errstate(over="ignore", invalid="ignore"):
                dest[cell] = combined(dest[cell], updates[tuple(update)], rule)


class View:
    """A layout over a flat buffer: the axes in any order of strides, some backwards, with gaps; or packed."""

    def __init__(self, random, extents, element):
        self.extents = list(extents)
        self.form = random.choice(["rows", "columns", "strides"])
        if self.form == "strides":
            self.strided(random)
        else:
            self.packed()
        size = 1 + max([self.place([e - 1 if s > 0 else 0 for e, s in zip(self.extents, self.strides)])], default=0)
        self.buffer = values(random, element, max(size, 1) + (random.randrange(4) if self.form == "strides" else 0))
        if 0 in self.extents:
            self.buffer, self.offset = values(random, element, 0), 0
        self.array = np.lib.stride_tricks.as_strided(
            self.buffer[self.offset:] if self.buffer.size else self.buffer, self.extents,
            [stride * self.buffer.itemsize for stride in self.strides])

    def packed(self):
        axes = range(len(self.extents))
        self.strides, self.offset, step = [0] * len(self.extents), 0, 1
        for axis in axes if self.form == "columns" else reversed(axes):
            self.strides[axis] = step
            step *= self.extents[axis]

    def strided(self, random):
        axes = list(range(len(self.extents)))
        random.shuffle(axes)
        self.strides, self.offset, step = [0] * len(self.extents), random.randrange(3), 1
        for axis in axes:
            stride = step * random.choice([1, 1, 2])
            step = stride * self.extents[axis]
            self.strides[axis] = stride
            if random.random() < 0.3:
                self.strides[axis] = -stride
                self.offset += stride * (self.extents[axis] - 1)

    def place(self, cell):
        return self.offset + sum(c * s for c, s in zip(cell, self.strides))

    def file(self):
        """What is saved: packed views as arrays in their order, others as the flat buffer."""
        if self.form == "strides":
            return self.buffer
        return self.buffer.reshape(self.extents, order="C" if self.form == "rows" else "F")

    def is_whole_file(self):
        """Whether the layout is that of the whole file; a flat buffer may be such a file by chance."""
        flat = len(self.extents) == 1 and self.offset == 0 and (self.strides[0] == 1 or self.extents[0] < 2)
        return self.form != "strides" or flat and self.buffer.size == self.extents[0]

    def text(self, name):
        strides = {"rows": "row-major", "columns": None}.get(self.form, ", ".join(map(str, self.strides)))
        lines = [f"{name}.extents = {self.extents}"]
        if strides is not None:
            lines.append(f"{name}.strides = {strides}")
        if self.offset:
            lines.append(f"{name}.offset = {self.offset}")
        return "\n".join(lines)


def values(random, element, count):
    if element == "i64":
        return np.array([random.choice([-2**63, -2, 0, 1, 2, 3, 5, 2**63 - 1]) for _ in range(count)], dtype="<i8")
    if element == "i32":
        return np.array([random.choice([random.randrange(-2**31, 2**31), random.randrange(9)]) for _ in range(count)],
                        dtype="<i4")
    return np.array([random.choice([random.uniform(-1, 1), 1e16, 0.1, -1e16, float("inf"), float("nan"), -0.0])
                     for _ in range(count)], dtype="<f8")


def index_of(random, batch, rank):
    """An index view's extents, its vector axis, and the axes that its components start on."""
    if random.random() < 0.3:
        return list(batch), len(batch), random.sample(range(rank), 1)
    components = random.randrange(0, rank + 1)
    vector = random.randrange(len(batch) + 1)
    return batch[:vector] + [components] + batch[vector:], vector, random.sample(range(rank), components)


def random_gather(random, element):
    extents = [random.randrange(1, 6) for _ in range(random.randrange(1, 4))]
    rank = len(extents)
    sizes = [random.randrange(1, extent + 1) for extent in extents]
    collapsed = random.sample(range(rank), random.randrange(rank + 1))
    for axis in collapsed:
        sizes[axis] = 1
    batch = [random.randrange(1, 4) for _ in range(random.randrange(3))]
    index, vector, mapping = index_of(random, batch, rank)
    kept = others(rank, collapsed)
    offset_dims = random.sample(range(len(batch) + len(kept)), len(kept))
    dest = spread(len(batch) + len(kept), offset_dims, [sizes[axis] for axis in kept])
    for axis, extent in zip(others(len(dest), offset_dims), batch):
        dest[axis] = extent
    spec = {"offset_dims": offset_dims, "collapsed_slice_dims": collapsed, "start_index_map": mapping,
            "index_vector_dim": vector, "slice_sizes": sizes}
    return spec, View(random, extents, element), View(random, index, "i64"), View(random, dest, element)


def random_scatter(random, element):
    extents = [random.randrange(1, 6) for _ in range(random.randrange(1, 4))]
    rank = len(extents)
    inserted = random.sample(range(rank), random.randrange(rank + 1))
    kept = others(rank, inserted)
    batch = [random.randrange(1, 4) for _ in range(random.randrange(3))]
    index, vector, mapping = index_of(random, batch, rank)
    window_dims = random.sample(range(len(batch) + len(kept)), len(kept))
    updates = spread(len(batch) + len(kept), window_dims, [random.randrange(1, extents[axis] + 1) for axis in kept])
    for axis, extent in zip(others(len(updates), window_dims), batch):
        updates[axis] = extent
    spec = {"update_window_dims": window_dims, "inserted_window_dims": inserted,
            "scatter_dims_to_operand_dims": mapping, "index_vector_dim": vector}
    return spec, View(random, index, "i64"), View(random, updates, element), View(random, extents, element)


def options(spec):
    """The axis lists as options."""
    return sum((["--" + name.replace("_", "-"), ",".join(map(str, entries)) if isinstance(entries, list) else entries]
                for name, entries in spec.items() if entries != []), [])


def job_text(kind, element, names, views, spec):
    lines = [f"kind = {kind}", f"element = {element}"]
    lines += [view.text(name) for name, view in zip(names, views)]
    lines += [f"{key} = {value}" for key, value in spec.items()]
    return "\n".join(lines) + "\n"
