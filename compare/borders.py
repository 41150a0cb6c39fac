"""borders.py program PROGRAM ANSWERS SEED COUNT | scipy SEED COUNT | stored SEED COUNT: the filters of a whole grid with a
border for each axis.

program  COUNT requests, three quarters of them near what is accepted, put to the program `ndimage` and to the archive
         (ANSWERS, the example of bindings/rust), and held to grid_reading.py
scipy    COUNT accepted calls of grid_reading.py held to SciPy, which takes a mode for each axis and one constant
stored   COUNT such requests, each with its answer behind a tab, for compare/store

The first two end in 'N compared, 0 differ'."""
import collections
import math
import sys

sys.dont_write_bytecode = True

from grid_reading import KINDS, SMOOTHING, GridCall, grid_call_levels, grid_call_refusal
from lines import BATCH, answers, differing
from reading import CONSTANT, MOST_LEVEL
from recipe_inputs import BAD_LEVELS, BAD_SHAPES, EDGES, Maker

NAMES = tuple(KINDS) + tuple(SMOOTHING)
BORDERS = ("constant", "mirror", "nearest", "reflect", "wrap")


class Calls(Maker):
    """Makes calls from a seed."""

    def border(self):
        code = self.random.randrange(5)
        constant = self.pick((self.pick(EDGES), self.level(9), self.level(MOST_LEVEL)))
        return code, constant if code == CONSTANT else 0

    def past_border(self):
        """A border past the axis count: any, refused ones too."""
        return (CONSTANT, self.pick(BAD_LEVELS)) if self.chance(0.3) else self.border()

    def call(self, shape, borders):
        """A call whose fields are mostly accepted on the shape."""
        name = self.pick(NAMES)
        size = self.pick((1, 2, 2, 3, 3, 3, 4, 5, self.random.randint(1, 9), self.pick((63, 64, 65))))
        low, high = -(size // 2), (size - 1) // 2
        origin = self.pick((0, low, high, self.random.randint(low, high))) if size > 1 else self.pick((0, 99, -2**63))
        count = math.prod(shape)
        return GridCall(name, shape, self.levels(count), size, self.random.randrange(len(shape)), borders,
                        origin if name in ("minimum_filter", "maximum_filter") else 0, count, count)

    def good(self):
        shape = self.shape(0.002)
        borders = [self.border() for _ in shape] + [self.past_border() for _ in range(3 - len(shape))]
        return self.call(shape, borders)

    def damaged(self, call):
        """A call with one or two fields that may be refused."""
        n = len(call.shape)
        axis = self.random.randrange(3)
        damage = self.random.randrange(9)
        if damage == 0:
            return call._replace(shape=list(self.pick([s for s in BAD_SHAPES if math.prod(s) < 8200])))
        if damage == 1:
            return call._replace(**{self.pick(("out_len", "second_len")): len(call.data) + self.pick((-1, 1))})
        if damage == 2:
            data = list(call.data)
            data[self.random.randrange(len(data))] = self.pick(BAD_LEVELS)
            return call._replace(data=data)
        if damage == 3:
            return call._replace(size=self.pick((0, 66, 255, 2**63)))
        if damage == 4 and call.name in ("minimum_filter", "maximum_filter"):
            return call._replace(origin=self.pick((call.size // 2 + 1, -call.size, 2**63 - 1, -2**63)))
        if damage == 5:
            return call._replace(axis=self.pick((n, n + 1, 2**64 - 1)))
        borders = list(call.borders)
        borders[axis] = (CONSTANT, self.pick(BAD_LEVELS)) if damage < 8 else (1, 0)
        return call._replace(borders=borders)

    def any(self):
        call = self.good()
        while self.chance(0.25):
            call = self.damaged(call)
        return call


def shown(call):
    """A call as a request."""
    words = [call.name, len(call.shape), *call.shape, len(call.data), *call.data]
    words += [call.axis] if call.name in SMOOTHING else [call.size]
    for code, constant in call.borders:
        words += [BORDERS[code], constant] if code == CONSTANT else [BORDERS[code]]
    words += [call.origin] if call.name in ("minimum_filter", "maximum_filter") else []
    return " ".join(str(word) for word in [*words, call.out_len, call.second_len])


def said(call):
    """What the reading says to a call."""
    number = grid_call_refusal(call)
    return "refused %d" % number if number else " ".join(str(level) for level in grid_call_levels(call))


def program(path, patterned, seed, count):
    maker = Calls("%s.borders" % seed)
    numbers = collections.Counter()
    compared = differ = 0
    while compared < count:
        calls = [maker.any() for _ in range(min(BATCH, count - compared))]
        pairs = [(shown(call), said(call)) for call in calls]
        numbers.update(wanted.split()[1] if wanted.startswith("refused") else "0" for _, wanted in pairs)
        asked = "".join(request + "\n" for request, _ in pairs)
        differ += differing("ndimage", pairs, answers(path, asked), differ)
        differ += differing("answers", pairs, answers(patterned, asked), differ)
        compared += len(pairs)
    print("numbers " + ", ".join("%s: %d" % pair for pair in sorted(numbers.items(), key=lambda p: int(p[0]))))
    return compared, differ


def scipy_levels(call, constant):
    import numpy
    from scipy import ndimage
    grid = numpy.array(call.data, dtype=numpy.int64).reshape(call.shape)
    modes = [BORDERS[code] for code, _ in call.borders[:len(call.shape)]]
    if call.name in SMOOTHING:
        levels = getattr(ndimage, call.name)(grid, axis=call.axis, mode=modes, cval=constant)
    elif call.name == "uniform_filter":
        levels = ndimage.uniform_filter(grid, call.size, mode=modes, cval=constant)
    else:
        # A length of 1 reads no origin here; SciPy does.
        origin = 0 if call.size == 1 else call.origin
        levels = getattr(ndimage, call.name)(grid, call.size, mode=modes, cval=constant, origin=origin)
    return levels.reshape(-1).tolist()


def scipy(seed, count):
    maker = Calls("%s.scipy" % seed)
    compared = differ = 0
    while compared < count:
        call = maker.good()
        constant = maker.pick((0, 5, -7, maker.level(MOST_LEVEL)))
        call = call._replace(borders=[(code, constant if code == CONSTANT else 0) for code, _ in call.borders])
        if grid_call_refusal(call):
            continue
        ours, theirs = grid_call_levels(call), scipy_levels(call, constant)
        compared += 1
        if ours != theirs:
            differ += 1
            if differ == 1:
                print("asked    %s\nreading  %s\nscipy    %s" % (shown(call), ours, theirs))
    return compared, differ


def main():
    if sys.argv[1] == "stored":
        maker = Calls(sys.argv[2])
        for call in (maker.any() for _ in range(int(sys.argv[3]))):
            print(shown(call) + "\t" + said(call))
        return
    if sys.argv[1] == "scipy":
        compared, differ = scipy(sys.argv[2], int(sys.argv[3]))
    else:
        compared, differ = program(sys.argv[2], sys.argv[3], sys.argv[4], int(sys.argv[5]))
    print("%d compared, %d differ" % (compared, differ))
    sys.exit(1 if differ or compared == 0 else 0)


if __name__ == "__main__":
    main()
