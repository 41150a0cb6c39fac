"""reading_rows.py: reading.py held to the worked rows of recipe files, the player and grid texts.

The rows are those of crates/recipe_spec/specs/FileRows.antt and PlayRows.antt and of
crates/grid_text_spec/specs/Rows.antt, under the same names, which the prover computes there: a row
that is added or renamed and does not stand here is an error. Ends in 'N rows, 0 differ'."""
import pathlib
import re
import sys

sys.dont_write_bytecode = True

from reading import (MARK, NO_STEP, Step, bad_step, lines_of, play, read_recipe, read_text, refused, step_bytes, step_levels,
                     step_of, words_of, write_recipe)

CRATES = pathlib.Path(__file__).resolve().parent.parent / "crates"
CELLS = [4, 2, 7]


def step(kind, border, origin, constant):
    """A step on axis 7 with length 9."""
    return Step(kind, 7, 9, origin, border, constant)


def plain(kind, axis, length, border):
    """A step with origin and constant 0."""
    return Step(kind, axis, length, 0, border, 0)


def mark(*more):
    """LKS, version 1, and more bytes."""
    return MARK + bytes(more)


def file(*steps):
    """The file of these steps, good or not."""
    return mark(len(steps)) + b"".join(step_bytes(each) for each in steps)


def number(answer):
    """The number of an answer, 0 of levels."""
    return answer if refused(answer) else 0


def of_file(given):
    """The number of a file."""
    return number(read_recipe(given))


def played(shape, data, *steps):
    """The levels of a recipe of these steps."""
    return play(file(*steps), shape, data, len(data), len(data))


def on_cells(*steps):
    """The number of a recipe of these steps on 4 2 7."""
    return number(played([3], CELLS, *steps))


def of_text(text):
    """The number of a text."""
    return number(read_text(text.encode()))


def lengths(text):
    """The shape of an accepted text."""
    return read_text(text.encode())[0]


def levels(text):
    """The levels of an accepted text."""
    return read_text(text.encode())[1]


EXAMPLE = mark(1, 0, 0, 2, 0, 2, 0, 0)
LATE_FAULT = mark(2, *[0] * 7, 3, *[0] * 6)
REFUSED = file(plain(0, 9, 0, 1))

FILE_ROWS = {
    "example": (write_recipe(1, [Step(0, 0, 2, 0, 2, 0)], 13), EXAMPLE),
    "example_read": (read_recipe(EXAMPLE), (1, [Step(0, 0, 2, 0, 2, 0)] + [NO_STEP] * 15)),
    "signed": (step_bytes(step(1, 0, -1, -2)), bytes([1, 7, 9, 255, 0, 255, 254])),
    "least": (step_bytes(step(0, 0, -128, -32768)), bytes([0, 7, 9, 128, 0, 128, 0])),
    "greatest": (step_bytes(step(0, 0, 127, 32767)), bytes([0, 7, 9, 127, 0, 127, 255])),
    "signed_read": ([step_of(bytes([1, 7, 9, 128, 0, 128, 0])), step_of(bytes([1, 7, 9, 127, 0, 127, 255]))],
                    [step(1, 0, -128, -32768), step(1, 0, 127, 32767)]),
    "two": (write_recipe(2, [step(0, 0, 0, 1), step(1, 4, 2, 0)], 20),
            mark(2, 0, 7, 9, 0, 0, 0, 1, 1, 7, 9, 2, 4, 0, 0)),
    "marks": ([of_file(given) for given in (b"", mark(), b"LKT\x00\x01\x00", b"LKS\x00\x02\x00", b"LKS\x01\x00\x00")],
              [13, 13, 13, 13, 13]),
    "counts": ([of_file(mark(0)), of_file(mark(17, *[0] * 119))], [14, 14]),
    "lengths": ([of_file(mark(1, *[0] * n)) for n in (6, 7, 8)], [14, 0, 14]),
    "longest": ([of_file(mark(16, *[0] * n)) for n in (111, 112, 113)], [14, 0, 14]),
    "kinds": ([bad_step(step(kind, 0, 0, 0)) for kind in (2, 3, 255)], [False, True, True]),
    "borders": ([bad_step(step(0, border, 0, 0)) for border in (4, 5, 255)], [False, True, True]),
    "constants": ([bad_step(step(0, border, 0, -1)) for border in (0, 1, 4)], [False, True, True]),
    "origins": ([bad_step(step(kind, 0, -1, 0)) for kind in (1, 2)], [False, True]),
    "any_step": (of_file(LATE_FAULT), 15),
    "count_first": (of_file(mark(2, 3, *[0] * 6)), 14),
    "past": (number(write_recipe(1, [NO_STEP, step(9, 9, 1, 1)], 13)), 0),
    "lent": ([number(write_recipe(1, [NO_STEP], lent)) for lent in (12, 13)], [14, 0]),
    "nothing": (read_recipe(LATE_FAULT), 15),
}

PLAY_ROWS = {
    "example": (played([3], CELLS, plain(0, 0, 2, 2)), [4, 2, 2]),
    "t4": ([step_levels(plain(kind, 0, 3, 3), [4], [4, 2, 7, 1]) for kind in (0, 1)], [[2, 2, 1, 1], [4, 7, 7, 7]]),
    "t5": (played([2, 2], [5, 3, 4, 9], plain(0, 0, 2, 0), plain(0, 1, 2, 0)), [0, 0, 0, 3]),
    "t5-turned": (played([2, 2], [5, 3, 4, 9], plain(0, 1, 2, 0), plain(0, 0, 2, 0)), [0, 0, 0, 3]),
    "t6": (played([3], [-1, -2, -4], plain(2, 0, 3, 0)), [-1, -2, -2]),
    "mixed": (played([3], [-1, -2, -4], plain(2, 0, 3, 0), plain(1, 0, 2, 2)), [-1, -1, -2]),
    "first_step": (on_cells(plain(0, 0, 2, 2), plain(0, 9, 7, 1), plain(0, 0, 0, 2)), 8),
    "lowest": (on_cells(plain(0, 9, 0, 1)), 5),
    "means": ([on_cells(plain(2, axis, n, border)) for axis, n, border in ((0, 66, 2), (1, 3, 2), (0, 7, 1), (0, 65, 2))],
              [5, 8, 11, 0]),
    "one_cell": (number(played([1], [9], plain(2, 0, 5, 2))), 0),
    "file-first": ([play(b"", [], [], 0, 0), play(file(plain(3, 9, 0, 9)), [], [], 0, 0)], [13, 15]),
    "grid_next": ([play(REFUSED, shape, CELLS, 3, 3) for shape in ([], [4], [3])], [1, 2, 5]),
    "lent_next": ([play(REFUSED, [3], CELLS, 2, 3), play(REFUSED, [3], CELLS, 3, 4), play(REFUSED, [1], [2**31], 1, 1)],
                  [2, 2, 3]),
}

TEXT_ROWS = {
    "example": (of_text("1 3 4 2 7"), 0),
    "gaps": (of_text("\n 1\n\n3 4  2\n7 \n"), 0),
    "gap_words": (words_of(b"\n 1\n\n3 -x  "), [b"1", b"3", b"-x"]),
    "example_lengths": (lengths("1 3 4 2 7"), [3]),
    "example_levels": (levels("1 3\n4  -2\n7\n"), [4, -2, 7]),
    "two_axes": (lengths("2 3 1 4 2 7"), [3, 1]),
    "example_fed": (of_text("1 3 4 2 7"), 0),
    "nothing": (of_text(""), 2),
    "gaps_alone": (of_text(" \n"), 2),
    "count_no_number": (of_text("x 5000"), 2),
    "count_9": (of_text("9 x"), 1),
    "count_0": (of_text("0"), 1),
    "count_4": (of_text("4 1 1 1 1 5"), 1),
    "length_5000": (of_text("2 x 5000"), 1),
    "length_0": (of_text("1 0"), 1),
    "length_1025": (of_text("1 1025"), 1),
    "length_1024": (of_text("1 1024"), 2),
    "length-below": (of_text("1 -3 4"), 1),
    "length_missing": (of_text("3 1024 1024"), 2),
    "length_no_number": (of_text("3 1024 1024 x"), 2),
    "product_16384": (of_text("2 128 128"), 1),
    "product_8194": (of_text("2 34 241"), 1),
    "product_8192": (of_text("2 256 32"), 2),
    "product-fed": (of_text("2 34 241"), 1),
    "long_large": (of_text("1000000000000000000 1"), 1),
    "long_one": (of_text("0" * 21 + "1 1 5"), 2),
    "long_then_refused": (of_text("0" * 21 + "1 5000"), 1),
    "long_fed": (of_text("0" * 21 + "1 5000"), 1),
    "minus-level": (of_text("1 1 -0"), 0),
    "minus-level_0": (levels("1 1 -0"), [0]),
    "minus_count": (of_text("-0"), 1),
    "tab": (of_text("1\t1 5"), 2),
    "carriage_return": (of_text("1 1 5\r"), 2),
    "plus": (of_text("1 1 +5"), 2),
    "lone_minus": (of_text("1 1 -"), 2),
    "minus_twice": (of_text("1 1 --5"), 2),
    "minus-inside": (of_text("1 1 5-"), 2),
    "letter": (of_text("1 1 a"), 2),
    "eighteen": (of_text("1 1 " + "0" * 17 + "1"), 0),
    "eighteen_below": (of_text("1 1 -" + "0" * 17 + "1"), 0),
    "nineteen": (of_text("1 1 " + "0" * 18 + "1"), 2),
    "nineteen_fed": (of_text("1 1 " + "0" * 18 + "1"), 2),
    "too_few": (of_text("1 2 5"), 2),
    "too_many": (of_text("1 1 5 5"), 2),
    "lines": (lines_of([-7, 0, 12]), b"-7\n0\n12\n"),
}

# What the machine holds half way through a text, and how lines stand in the bytes that are lent: the papers say nothing
# of it.
INNER = {"fed_lengths", "fed-levels", "lines_in_lem", "lines_count_lem", "lines_kept", "lines_no_room"}

FILES = (("recipe_spec/specs/FileRows.antt", FILE_ROWS), ("recipe_spec/specs/PlayRows.antt", PLAY_ROWS),
         ("grid_text_spec/specs/Rows.antt", TEXT_ROWS))


def names(path):
    """The names of a file's rows."""
    record = (CRATES / path).read_text().split("pub record", 1)[1]
    return set(re.findall(r"^  pub (\S+) :", record, re.M)) - INNER


def differing():
    """How many rows there are, and what is wrong, a line each."""
    faults = []
    for path, rows in FILES:
        faults += ["%s: no row %s here" % (path, name) for name in sorted(names(path) - set(rows))]
        faults += ["%s: no row %s there" % (path, name) for name in sorted(set(rows) - names(path))]
        faults += ["%s, %s: read %r, the row has %r" % (path, name, got, wanted)
                   for name, (got, wanted) in rows.items() if got != wanted]
    return sum(len(rows) for _, rows in FILES), faults


def main():
    count, faults = differing()
    for fault in faults:
        print(fault)
    print("%d rows, %d differ" % (count, len(faults)))
    sys.exit(1 if faults else 0)


if __name__ == "__main__":
    main()
