"""orders.py PROGRAM SEED COUNT: the rule on the order of axes, put to the program `ndimage`.

COUNT lists of one-axis minimum or maximum calls that sweep each axis of a small grid once, each call with a border of
its own, with refused calls between. Every order of the accepted calls is run, a call at a time, on what the call before
it left; each must end with the extreme level of each cell's box, as grid_reading.py has it.
Ends in 'N lists, M orders, 0 differ'."""
import itertools
import math
import sys

sys.dont_write_bytecode = True

from grid_reading import box_levels
from lines import answers
from reading import CONSTANT, MOST_LEVEL, Step, step_refusal
from recipe_inputs import Maker

BATCH = 2000
WORDS = ("minimum_filter1d", "maximum_filter1d")
BORDERS = ("constant", "mirror", "nearest", "reflect", "wrap")


class Lists(Maker):
    """Makes lists of calls from a seed."""

    def sweep(self, kind, axis):
        length = self.pick((1, 2, 2, 3, 3, 4, 5, 6))
        origin = self.random.randint(-(length // 2), (length - 1) // 2)
        border = self.pick((CONSTANT, CONSTANT, 1, 2, 3, 4))
        constant = self.pick((0, 4, -4, self.level(9), self.level(MOST_LEVEL))) if border == CONSTANT else 0
        return Step(kind, axis, length, origin, border, constant)

    def accepted(self, kind, axis, shape):
        while True:
            step = self.sweep(kind, axis)
            if step_refusal(step, shape) == 0:
                return step

    def refused(self, kind, shape):
        while True:
            step = self.sweep(kind, self.random.randrange(len(shape) + 1))
            step = step._replace(length=self.pick((step.length, 0, 66)), origin=self.pick((step.origin, 7, -9)),
                                 constant=self.pick((step.constant, 2**31)) if step.border == CONSTANT else 0)
            if step_refusal(step, shape):
                return step

    def case(self):
        """A kind, a shape, levels, a step for each axis, and refused steps."""
        kind = self.random.randrange(2)
        axes = self.pick((1, 2, 2, 3, 3))
        shape = [self.random.randint(1, 4 if axes < 3 else 3) for _ in range(axes)]
        data = [self.level(9) for _ in range(math.prod(shape))]
        steps = [self.accepted(kind, axis, shape) for axis in range(axes)]
        return kind, shape, data, steps, [self.refused(kind, shape) for _ in range(self.random.randrange(3))]


def request(kind, shape, data, step):
    border = [BORDERS[step.border]] + ([step.constant] if step.border == CONSTANT else [])
    words = [WORDS[kind], len(shape), *shape, len(data), *data, step.length, step.axis, *border, step.origin, len(data)]
    return " ".join(str(word) for word in words) + "\n"


def mixed_in(maker, order, refusals):
    """An order of the accepted steps with the refused ones anywhere between."""
    whole = list(order)
    for step in refusals:
        whole.insert(maker.random.randint(0, len(whole)), step)
    return whole


def run(program, maker, cases):
    """How many orders were run, and how many ended with other levels than the box's."""
    runs = []
    for kind, shape, data, steps, refusals in cases:
        wanted = box_levels(shape, data, steps)
        for order in itertools.permutations(steps):
            runs.append([kind, shape, data, mixed_in(maker, order, refusals), wanted])
    for turn in range(max(len(each[3]) for each in runs)):
        now = [each for each in runs if turn < len(each[3])]
        given = answers(program, "".join(request(k, s, d, steps[turn]) for k, s, d, steps, _ in now))
        assert len(given) == len(now)
        for each, answer in zip(now, given):
            number = step_refusal(each[3][turn], each[1])
            if number:
                assert answer == "refused %d" % number, (each, answer)
            else:
                each[2] = [int(word) for word in answer.split()]
    differ = [each for each in runs if each[2] != each[4]]
    if differ:
        print("first: kind %s, shape %s, left %s, steps %s, box %s" % tuple(differ[0]))
    return len(runs), len(differ)


def main():
    program, seed, count = sys.argv[1], sys.argv[2], int(sys.argv[3])
    maker = Lists("%s.orders" % seed)
    lists = orders = differ = 0
    while lists < count:
        cases = [maker.case() for _ in range(min(BATCH, count - lists))]
        ran, wrong = run(program, maker, cases)
        lists, orders, differ = lists + len(cases), orders + ran, differ + wrong
    print("%d lists, %d orders, %d differ" % (lists, orders, differ))
    sys.exit(1 if differ or lists == 0 else 0)


if __name__ == "__main__":
    main()
