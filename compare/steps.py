"""steps.py rust|scipy ORACLE SEED COUNT: one step of reading.py held to the Rust's one-axis calls, or to SciPy's.

rust   COUNT accepted requests and a quarter as many refused ones of gen.py in the folder ORACLE, which compare/run builds:
       levels are the Rust's, numbers those of the reading of document 01 that stands beside it
scipy  COUNT steps that document 01 accepts, on its grids. SciPy takes the mean of whole levels in doubles and cuts it toward
       zero as it stores it: a sum has at most 38 bits and no quotient lies within 1/65 of a whole number but on it, so the
       levels must be equal. Where document 01 refuses, SciPy may answer (docs/DIFFERENCES.md); that is not asked.

Ends in 'N compared, 0 differ'."""
import math
import subprocess
import sys

sys.dont_write_bytecode = True

from reading import UNIFORM, Step, grid_refusal, step_levels, step_refusal
from recipe_inputs import Maker

CALLS = ("minimum_filter1d", "maximum_filter1d", "uniform_filter1d")
BORDERS = ("constant", "mirror", "nearest", "reflect", "wrap")
BATCH = 10000


def taken(tokens, count):
    """The next numbers of a request."""
    return [int(next(tokens)) for _ in range(count)]


def parsed(request):
    """The step, shape, levels and lent cells of a request."""
    name, *rest = request.split()
    tokens = iter(rest)
    kind = CALLS.index(name)
    shape = taken(tokens, *taken(tokens, 1))
    data = taken(tokens, *taken(tokens, 1))
    length, axis = taken(tokens, 2)
    border = BORDERS.index(next(tokens))
    constant = taken(tokens, 1)[0] if border == 0 else 0
    origin = 0 if kind == UNIFORM else taken(tokens, 1)[0]
    return Step(kind, axis, length, origin, border, constant), shape, data, taken(tokens, 1)[0]


def answer(request):
    """What the reading says to a request."""
    step, shape, data, out_len = parsed(request)
    number = grid_refusal(shape, data, out_len) or step_refusal(step, shape)
    return "refused %d" % number if number else " ".join(str(level) for level in step_levels(step, shape, data))


def rust_cases(oracle, seed, count):
    """What was asked, what the reading says, what the Rust or its number says."""
    for first in range(0, count, BATCH):
        size = min(BATCH, count - first)
        asked = ["%s.%d" % (seed, first), str(size), "--out", str(size // 4), "--ops", ",".join(CALLS)]
        made = subprocess.run([sys.executable, oracle + "/gen.py", *asked, "--oracle", oracle + "/oracle"],
                              stdout=subprocess.PIPE, text=True, check=True)
        for line in made.stdout.splitlines():
            request, wanted = line.split("\t")
            yield request, answer(request), wanted


def scipy_levels(step, shape, data):
    """SciPy's levels."""
    import numpy
    from scipy import ndimage
    grid = numpy.array(data, dtype=numpy.int64).reshape(shape)
    # A length of 1 reads no origin here; SciPy does.
    origin = 0 if step.length == 1 else step.origin
    call = getattr(ndimage, CALLS[step.kind])
    levels = call(grid, step.length, axis=step.axis, mode=BORDERS[step.border], cval=step.constant, origin=origin)
    return levels.reshape(-1).tolist()


def scipy_cases(_, seed, count):
    """What was asked, what the reading says, what SciPy says."""
    maker = Maker("%s.scipy" % seed)
    for _ in range(count):
        shape = maker.shape(0.0025)
        data = maker.levels(math.prod(shape))
        step = maker.good_step(shape)
        yield (step, shape, data), step_levels(step, shape, data), scipy_levels(step, shape, data)


def main():
    outside, oracle, seed, count = sys.argv[1], sys.argv[2], sys.argv[3], int(sys.argv[4])
    compared = differ = 0
    for asked, ours, theirs in (rust_cases if outside == "rust" else scipy_cases)(oracle, seed, count):
        compared += 1
        if ours != theirs:
            differ += 1
            if differ == 1:
                print("asked    %s\nreading  %s\n%-8s %s" % (asked, ours, outside, theirs))
    print("%d compared, %d differ" % (compared, differ))
    sys.exit(1 if differ else 0)


if __name__ == "__main__":
    main()
