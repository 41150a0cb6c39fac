"""grid_reading.py: the filters of a whole grid read once more, in plain Python: document 01, with a border for
each axis as document 02 (U3) words it, and the box of its rule on sweep order.

Written from the papers and not from the Rattle code. A border is a pair, its code and its constant; a call takes
three, and those past the axis count do not count. Grids, steps and refusal numbers are those of reading.py."""
import collections
import itertools

from reading import (CONSTANT, MAXIMUM, MINIMUM, MIRROR, MOST_WINDOW, NEAREST, REFLECT, UNIFORM, WRAP, Step, bad_level,
                     bad_origin, bad_reach, extended, grid_refusal, lanes, step_levels)

GridCall = collections.namedtuple("GridCall", "name shape data size axis borders origin out_len second_len")

KINDS = {"minimum_filter": MINIMUM, "maximum_filter": MAXIMUM, "uniform_filter": UNIFORM}
SMOOTHING = {"prewitt": (1, 1, 1), "sobel": (1, 2, 1)}
DIFFERENCE = (-1, 0, 1)


def pass_along(call, axis):
    """The pass of a call along an axis: a window by the axis's own border."""
    border, constant = call.borders[axis]
    size, origin = (3, 0) if call.name in SMOOTHING else (call.size, call.origin)
    return Step(KINDS.get(call.name, UNIFORM), axis, size, origin, border, constant)


def bad_axis_reach(call, axis):
    """Condition 11 of one axis; uniform_filter also refuses half a window over the axis's length."""
    n = call.shape[axis]
    if call.name == "uniform_filter" and call.size // 2 > n:
        return True
    return bad_reach(pass_along(call, axis), n)


def grid_call_refusal(call):
    """The lowest number of a call, 0 if it is accepted."""
    number = grid_refusal(call.shape, call.data, call.out_len, call.second_len)
    if number:
        return number
    axes = range(len(call.shape))
    if call.name in KINDS:
        if not 1 <= call.size <= MOST_WINDOW:
            return 5
        if bad_origin(pass_along(call, 0)):
            return 7
    elif not 0 <= call.axis < len(call.shape):
        return 8
    if any(border == CONSTANT and bad_level(constant) for border, constant in call.borders[:len(call.shape)]):
        return 9
    return 11 if any(bad_axis_reach(call, axis) for axis in axes) else 0


def weighed(shape, data, axis, weights, border):
    """Each cell's neighbours along an axis times three weights, summed."""
    out = list(data)
    for places in lanes(shape, axis):
        line = extended([data[place] for place in places], 1, 1, *border)
        for i, place in enumerate(places):
            out[place] = sum(weight * level for weight, level in zip(weights, line[i:i + 3]))
    return out


def gradient_levels(call):
    """The difference along the axis, then the smoothing along every other axis, in rising order."""
    levels = weighed(call.shape, call.data, call.axis, DIFFERENCE, call.borders[call.axis])
    for axis in range(len(call.shape)):
        if axis != call.axis:
            levels = weighed(call.shape, levels, axis, SMOOTHING[call.name], call.borders[axis])
    return levels


def grid_call_levels(call):
    """What an accepted call fills."""
    if call.name in SMOOTHING:
        return gradient_levels(call)
    levels = list(call.data)
    for axis in range(len(call.shape)):
        levels = step_levels(pass_along(call, axis), call.shape, levels)
    return levels


# ---- the box of the rule on sweep order


def mapped(z, n, border):
    """The cell that coordinate z of an axis of n cells reads, by a border other than Constant."""
    if 0 <= z < n:
        return z
    k = -z if z < 0 else z - n + 1
    if border == WRAP:
        return n - k if z < 0 else k - 1
    ahead = {NEAREST: 0, MIRROR: k, REFLECT: k - 1}[border]
    return ahead if z < 0 else n - 1 - ahead


def extended_level(shape, data, borders, point):
    """A cell outside along one or more Constant axes takes the constant of the lowest such axis; for any other, each
    coordinate is mapped by its own axis's border."""
    place = 0
    for n, z, (border, constant) in zip(shape, point, borders):
        if border == CONSTANT and not 0 <= z < n:
            return constant
    for n, z, (border, _) in zip(shape, point, borders):
        place = place * n + (z if border == CONSTANT else mapped(z, n, border))
    return data[place]


def window(step, i):
    """The coordinates of a cell's window along the step's axis."""
    if step.length == 1:
        return range(i, i + 1)
    first = i - step.length // 2 - step.origin
    return range(first, first + step.length)


def box_levels(shape, data, steps):
    """For each cell the extreme level of its box; steps is one step for each axis, in rising order."""
    borders = [(step.border, step.constant) for step in steps]
    extreme = min if steps[0].kind == MINIMUM else max
    out = []
    for cell in itertools.product(*map(range, shape)):
        box = itertools.product(*(window(step, i) for step, i in zip(steps, cell)))
        out.append(extreme(extended_level(shape, data, borders, point) for point in box))
    return out
