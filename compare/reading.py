"""reading.py: documents 01 and 02 (U1) read once more, in plain Python.

Written from the papers and not from the Rattle code, so that each can be held against the other
(compare/recipes does, and compare/reading_rows.py tries it on worked rows). Numbers are Python's,
exact and without end.

A refusal is its number, 1 to 15; an answer is a list, a tuple or bytes. `refused` tells them apart.
A grid is its shape (a list of lengths) and its levels, last axis fastest."""
import collections
import math
import re

Step = collections.namedtuple("Step", "kind axis length origin border constant")

MINIMUM, MAXIMUM, UNIFORM = range(3)
CONSTANT, MIRROR, NEAREST, REFLECT, WRAP = range(5)
NO_STEP = Step(0, 0, 0, 0, 0, 0)
STEPS = 16
MARK = b"LKS\x00\x01"
MOST_AXES = 3
MOST_LENGTH = 1024
MOST_CELLS = 8192
MOST_LEVEL = 2**31 - 1
MOST_WINDOW = 65
MOST_DIGITS = 18


def refused(answer):
    """Whether an answer is a refusal number."""
    return isinstance(answer, int)


# ---- Document 01: a grid, and one step on it


def bad_level(level):
    """Condition 3 of one level; 9 is the same of a constant."""
    return not -MOST_LEVEL <= level <= MOST_LEVEL


def bad_shape(shape):
    """Condition 1."""
    if not 1 <= len(shape) <= MOST_AXES:
        return True
    return any(not 1 <= n <= MOST_LENGTH for n in shape) or math.prod(shape) > MOST_CELLS


def grid_refusal(shape, data, *lent):
    """1, 2 or 3 of a grid and of the lengths of the grids that are lent beside it; 0 if none."""
    if bad_shape(shape):
        return 1
    if any(length != math.prod(shape) for length in (len(data), *lent)):
        return 2
    return 3 if any(bad_level(level) for level in data) else 0


def bad_origin(step):
    """Condition 7: an origin outside origin_check, where it is read."""
    if step.kind == UNIFORM or step.length == 1:
        return False
    return not -(step.length // 2) <= step.origin <= (step.length - 1) // 2


def pads(step):
    """How many cells a window needs before and after a lane."""
    if step.length == 1:
        return 0, 0
    left = step.length // 2
    right = step.length - left - 1
    return left + step.origin, right - step.origin


def bad_reach(step, n):
    """Condition 11 on an axis of n cells."""
    most = {MIRROR: n - 1, REFLECT: n, WRAP: n}
    return step.border in most and max(pads(step)) > most[step.border]


def step_refusal(step, shape):
    """The lowest of 5, 7, 8, 9 and 11 that a step gets on a shape; 0 if none."""
    if not 1 <= step.length <= MOST_WINDOW:
        return 5
    if bad_origin(step):
        return 7
    if not 0 <= step.axis < len(shape):
        return 8
    if step.border == CONSTANT and bad_level(step.constant):
        return 9
    return 11 if bad_reach(step, shape[step.axis]) else 0


def before(line, k, border, constant):
    """The level k places before the first cell of a lane, k from 1."""
    if border == CONSTANT:
        return constant
    return line[{NEAREST: 0, MIRROR: k, REFLECT: k - 1, WRAP: len(line) - k}[border]]


def after(line, k, border, constant):
    """The level k places after the last: under Wrap cell k - 1, else the mirror image."""
    if border == WRAP:
        return line[k - 1]
    return before(line[::-1], k, border, constant)


def extended(line, left, right, border, constant):
    """A lane with so many cells before and after it."""
    ahead = [before(line, k, border, constant) for k in range(left, 0, -1)]
    return ahead + line + [after(line, k, border, constant) for k in range(1, right + 1)]


def cut(total, size):
    """A quotient cut toward zero."""
    return total // size if total >= 0 else -(-total // size)


def line_levels(step, line):
    """What a step makes of one lane."""
    left, right = pads(step)
    padded = extended(line, left, right, step.border, step.constant)
    windows = (padded[i:i + step.length] for i in range(len(line)))
    if step.kind == UNIFORM:
        return [cut(sum(window), step.length) for window in windows]
    return [min(window) if step.kind == MINIMUM else max(window) for window in windows]


def lanes(shape, axis):
    """The places of the cells of each lane along an axis."""
    stride = math.prod(shape[axis + 1:])
    block = stride * shape[axis]
    for start in range(math.prod(shape)):
        if start % block < stride:
            yield range(start, start + block, stride)


def step_levels(step, shape, data):
    """What an accepted step makes of a grid."""
    out = list(data)
    for places in lanes(shape, step.axis):
        for place, level in zip(places, line_levels(step, [data[place] for place in places])):
            out[place] = level
    return out


# ---- Document 02, U1: the file of a recipe


def signed(value, bits):
    """A number of so many bits read as two's complement."""
    return value - 2**bits if value >= 2**(bits - 1) else value


def bad_count(count, length):
    """Condition 14."""
    return not 1 <= count <= STEPS or length != 6 + 7 * count


def bad_step(step):
    """Condition 15 of one step."""
    if step.kind not in (MINIMUM, MAXIMUM, UNIFORM) or not 0 <= step.border <= WRAP:
        return True
    return (step.border != CONSTANT and step.constant != 0) or (step.kind == UNIFORM and step.origin != 0)


def step_of(part):
    """The step of seven bytes."""
    kind, axis, length, origin, border, high, low = part
    return Step(kind, axis, length, signed(origin, 8), border, signed(256 * high + low, 16))


def step_bytes(step):
    """The seven bytes of a step."""
    constant = step.constant % 2**16
    return bytes([step.kind, step.axis, step.length, step.origin % 2**8, step.border, constant // 256, constant % 256])


def read_recipe(file):
    """The number of a file, or its count and 16 steps, those past the count all 0."""
    if len(file) < 6 or file[:5] != MARK:
        return 13
    count = file[5]
    if bad_count(count, len(file)):
        return 14
    steps = [step_of(file[6 + 7 * k:13 + 7 * k]) for k in range(count)]
    if any(bad_step(step) for step in steps):
        return 15
    return count, steps + [NO_STEP] * (STEPS - count)


def write_recipe(count, steps, lent):
    """The number of a recipe whose file is lent so many bytes, or the file."""
    if bad_count(count, lent):
        return 14
    kept = steps[:count]
    if any(bad_step(step) for step in kept):
        return 15
    return MARK + bytes([count]) + b"".join(step_bytes(step) for step in kept)


def play(file, shape, data, out_len, second_len):
    """The number of a file on a grid, or the levels; out_len and second_len cells are lent."""
    recipe = read_recipe(file)
    if refused(recipe):
        return recipe
    count, steps = recipe
    judged = [grid_refusal(shape, data, out_len, second_len)]
    judged += [step_refusal(step, shape) for step in steps[:count]]
    for number in judged:
        if number != 0:
            return number
    levels = list(data)
    for step in steps[:count]:
        levels = step_levels(step, shape, levels)
    return levels


# ---- Document 02, U1: the program


def words_of(text):
    """The words of a text: runs of bytes other than space and line feed."""
    return [word for word in re.split(b"[ \n]", text) if word]


def is_number(word):
    """Whether a word is digits with at most one minus sign before them."""
    return re.fullmatch(b"-?[0-9]+", word) is not None


def too_long(word):
    """Whether a number has over 18 digits; leading zeros count, the minus sign does not."""
    return len(word.lstrip(b"-")) > MOST_DIGITS


def value_of(word):
    """The value of a number; 10^18 stands for every size from there on, which no limit reaches."""
    digits = word.lstrip(b"-").lstrip(b"0")
    size = int(digits or b"0") if len(digits) <= MOST_DIGITS else 10**MOST_DIGITS
    return -size if word.startswith(b"-") else size


def refused_shape(words):
    """Whether count, lengths or product of a text are refused with 1; places without a number are passed over."""
    if not words or not is_number(words[0]):
        return False
    count = value_of(words[0])
    if not 1 <= count <= MOST_AXES:
        return True
    lengths = [value_of(word) for word in words[1:1 + count] if is_number(word)]
    if any(not 1 <= n <= MOST_LENGTH for n in lengths):
        return True
    return len(lengths) == count and math.prod(lengths) > MOST_CELLS


def read_text(text):
    """The number of a text, 1 or 2, or its shape and levels."""
    words = words_of(text)
    if refused_shape(words):
        return 1
    if not words or any(not is_number(word) or too_long(word) for word in words):
        return 2
    count, *rest = [value_of(word) for word in words]
    shape, levels = rest[:count], rest[count:]
    if len(shape) != count or len(levels) != math.prod(shape):
        return 2
    return shape, levels


def played_text(file, text):
    """The program's number, or its levels: faults of the file come before those of the text."""
    recipe = read_recipe(file)
    if refused(recipe):
        return recipe
    grid = read_text(text)
    if refused(grid):
        return grid
    shape, levels = grid
    return play(file, shape, levels, len(levels), len(levels))


def lines_of(answer):
    """A number or levels as the program prints them: one a line, in decimal."""
    return b"".join(b"%d\n" % number for number in ([answer] if refused(answer) else answer))


def printed(file, text):
    """What the program prints; a file that cannot be opened is b''."""
    return lines_of(played_text(file, text))
