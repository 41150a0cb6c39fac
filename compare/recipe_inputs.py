"""recipe_inputs.py: what compare/recipes asks: recipes, grids and texts from a seed, good ones and damaged ones.

Nothing here says what the answer is; that is reading.py's."""
import math
import random

from reading import CONSTANT, MARK, MOST_LEVEL, STEPS, UNIFORM, Step, step_bytes, step_refusal

# Document 02's example: the step 0 0 2 0 2 0 0 over the text 1 3 4 2 7.
EXAMPLE_FILE = MARK + bytes([1, 0, 0, 2, 0, 2, 0, 0])
EXAMPLE_TEXT = b"1 3 4 2 7"

BIG = ((1024,), (1024, 8), (8, 1024), (64, 128), (16, 16, 32), (1024, 1, 8), (2, 4, 1024), (90, 91))
BAD_SHAPES = ((), (0,), (3, 0), (1025,), (2, 1025), (1024, 9), (91, 91), (1, 1, 1, 1), (2, 2, 2, 1), (21, 21, 21),
              (2**64 - 1,), (2**32, 2**32), (2**63, 2), (1024, 1024, 1024))
EDGES = (MOST_LEVEL, -MOST_LEVEL, MOST_LEVEL - 1, 0, 1, -1)
BAD_LEVELS = (MOST_LEVEL + 1, -MOST_LEVEL - 1, 2**32, 2**32 + 1, 2**63 - 1, -2**63)
# Bytes that are no part of a number, or a gap where none should be.
ODD_BYTES = (0, 9, 10, 11, 12, 13, 27, 32, 43, 45, 46, 47, 48, 57, 58, 95, 120, 127, 128, 133, 160, 178, 255)
# Versions of two bytes, high byte first.
VERSIONS = (b"\x00\x00", b"\x00\x02", b"\x01\x00", b"\x01\x01", b"\x02\x00", b"\xff\xff", b"\x31\x00", b"\x00\x31")
# Lengths whose products lie on both sides of 8,192.
LENGTHS = (b"1", b"2", b"8", b"9", b"90", b"91", b"92", b"128", b"1024", b"1024", b"1025")
# Words for every place of a text: good ones, limits, and numbers that wrap round to good ones in 32, 64 or 128 bits.
ODD_WORDS = (b"0", b"1", b"2", b"3", b"4", b"-0", b"-1", b"-3", b"00", b"01", b"-01", b"1024", b"1025", b"8192", b"8193",
             b"2147483647", b"2147483648", b"-2147483647", b"-2147483648", b"4294967295", b"4294967297", b"4294967299",
             b"9223372036854775807", b"9223372036854775808", b"-9223372036854775808", b"18446744073709551615",
             b"18446744073709551616", b"18446744073709551617", b"18446744073709551619", b"-18446744073709551615",
             b"340282366920938463463374607431768211457", b"999999999999999999", b"-999999999999999999",
             b"1000000000000000000", b"000000000000000001", b"0000000000000000001", b"-000000000000000001",
             b"-0000000000000000001", b"000000000000000000000000000001", b"123456789012345678901234567890",
             b"000000000000000000", b"0000000000000000000", b"-", b"--1", b"-+1", b"+1", b"1-", b"1-1", b"1.0", b"1e0",
             b"0x1", b"1,", b"1_0", b"x", b"\0", b"1\0", b"\x001", b"\t", b"1\t2", b"\r", b"1\r", b"\x0b1", b"\x0c1",
             b"\xc2\xa01", b"\xef\xbb\xbf1", b"\xd9\xa3", b"\xc2\xb2", b"\xe2\x88\x921", b"nan", b"1" * 1000, b"0" * 5000 + b"1")


def hexed(data):
    """Bytes as a request has them."""
    return data.hex() or "-"


def each_byte_changed(data):
    """Every byte changed to every other, every byte added at the end, and every cut."""
    for place, old in enumerate(data):
        for new in range(256):
            if new != old:
                yield data[:place] + bytes([new]) + data[place + 1:]
    for new in range(256):
        yield data + bytes([new])
    for place in range(len(data)):
        yield data[:place]


class Maker:
    """Makes inputs from a seed."""

    def __init__(self, seed):
        self.random = random.Random(seed)

    def chance(self, share):
        return self.random.random() < share

    def pick(self, items):
        return self.random.choice(items)

    # ---- grids

    def shape(self, big):
        """Lengths that 1 accepts; a share of big ones."""
        if self.chance(big):
            return list(self.pick(BIG))
        axes = self.pick((1, 1, 2, 2, 3))
        most = {1: 20, 2: 7, 3: 4}[axes]
        return [self.pick((1, 2, 3)) if self.chance(0.3) else self.random.randint(1, most) for _ in range(axes)]

    def level(self, most):
        return self.random.randint(-most, most)

    def levels(self, count):
        """Levels that 3 accepts."""
        manner = self.random.randrange(4)
        if manner == 0:
            return [self.pick(EDGES) for _ in range(count)]
        most = (9, 40000, MOST_LEVEL)[manner - 1]
        return [self.level(most) for _ in range(count)]

    # ---- steps and files

    def any_step(self):
        """A step with any fields of their widths, mostly near the limits."""
        byte = self.random.randrange
        return Step(self.pick((0, 1, 2, 3, byte(256))), self.pick((0, 1, 2, 3, byte(256))),
                    self.pick((0, 1, 2, 3, 64, 65, 66, 255, byte(256))), self.pick((0, 0, 1, -1, 127, -128, byte(256) - 128)),
                    self.pick((0, 1, 2, 3, 4, 5, byte(256))),
                    self.pick((0, 0, 1, -1, 255, 256, 32767, -32768, byte(65536) - 32768)))

    def near_step(self, shape):
        """A step that 15 accepts; on the shape 01 accepts most of them."""
        kind, border = self.random.randrange(3), self.random.randrange(5)
        axis = self.random.randrange(len(shape)) if shape and self.chance(0.9) else self.pick((0, 1, 2, 3, 255))
        length = self.pick((self.random.randint(1, 9),) * 6 + (self.random.randint(0, 67),) * 2 + (0, 64, 65, 66, 127))
        origin = 0 if kind == UNIFORM or self.chance(0.4) else self.random.randint(-(length // 2) - 1, (length + 1) // 2)
        constant = self.pick((0, 5, -32768, 32767, self.level(30000))) if border == CONSTANT else 0
        return Step(kind, axis, length, origin, border, constant)

    def good_step(self, shape):
        """A step that is accepted on the shape."""
        for _ in range(20):
            step = self.near_step(shape)
            if step_refusal(step, shape) == 0:
                return step
        return Step(self.random.randrange(3), 0, 1, 0, 2, 0)

    def steps(self, shape):
        """The steps of a recipe: most are accepted on the shape, some have one step that is refused."""
        count = self.pick((1, 1, 1, 2, 2, 3, 4, 5, 8, 15, STEPS))
        steps = [self.good_step(shape) if shape else self.near_step(shape) for _ in range(count)]
        while self.chance(0.25):
            steps[self.random.randrange(count)] = self.near_step(shape)
        if self.chance(0.04):
            steps[self.random.randrange(count)] = self.any_step()
        return steps

    def file(self, shape):
        """The bytes of a recipe, which may have a step that 15 refuses."""
        steps = self.steps(shape)
        return MARK + bytes([len(steps)]) + b"".join(step_bytes(step) for step in steps)

    def damaged_file(self, file):
        """A file cut, longer, or with bytes changed, put in or taken out."""
        byte, place = self.random.randrange(256), self.random.randrange(len(file) + 1)
        damage = self.random.randrange(10)
        if damage == 0:
            return file[:place]
        if damage == 1:
            return file + bytes(self.random.randrange(256) for _ in range(self.pick((1, 6, 7, 8, 112))))
        if damage == 2:
            return file[:5] + bytes([self.pick((0, 1, 2, 15, 16, 17, 18, 255, byte))]) + file[6:]
        if damage == 3:
            return file[:place] + bytes([byte]) + file[place:]
        if damage == 4:
            return file[:place] + file[place + 1:]
        if damage == 5:
            return bytes(self.random.randrange(256) for _ in range(self.random.randrange(120)))
        if damage == 6:
            return file[:3] + self.pick(VERSIONS) + file[5:]
        if damage == 7:
            place = self.random.randrange(6)
        return file[:place] + bytes([self.pick((byte, 0, 1, 2, 3, 4, 5, 127, 128, 255))]) + file[place + 1:]

    # ---- texts

    def gap(self):
        """What stands between two words."""
        return self.pick((b" ", b" ", b"\n", b"\n", b"  ", b" \n ", b"\n\n"))

    def text(self, shape, levels):
        """The text of a grid, in any gaps."""
        words = [b"%d" % number for number in (len(shape), *shape, *levels)]
        return self.joined(words)

    def joined(self, words):
        """Words in one kind of gap, in any gaps, or with gaps before and after."""
        if self.chance(0.5):
            return self.gap().join(words)
        inside = b"".join(word + self.gap() for word in words)
        return self.pick((b"", self.gap())) + self.pick((inside, inside.rstrip(b" \n")))

    def damaged_text(self, text):
        """A text cut, longer, with bytes or words changed, put in, taken out or turned round."""
        damage = self.random.randrange(12)
        if damage < 5:
            return self.damaged_bytes(text, damage)
        if damage == 11:
            return self.shape_text()
        return self.joined(self.damaged_words([word for word in text.replace(b"\n", b" ").split(b" ") if word], damage))

    def shape_text(self):
        """A text of a count and lengths with few or no levels: what is wrong with the shape decides."""
        count = self.pick((b"1", b"2", b"2", b"3", b"3", self.pick(ODD_WORDS)))
        lengths = [self.pick((self.pick(LENGTHS),) * 5 + (self.pick(ODD_WORDS),)) for _ in range(self.random.randrange(5))]
        return self.joined([count] + lengths)

    def damaged_bytes(self, text, damage):
        """A text with a fault in its bytes."""
        byte, place = bytes([self.pick(ODD_BYTES)]), self.random.randrange(len(text) + 1)
        if damage == 0:
            return text[:place]
        if damage == 1:
            return text + self.pick((b" 5", b"5", b"\n", b" ", b" x", b"\0", b"\n-", b"\t", b"\r\n", b" 1 2 3", b"\x1a", byte))
        if damage == 2:
            return text[:place] + byte + text[place + 1:]
        if damage == 3:
            return text[:place] + byte + text[place:]
        return bytes(self.pick(b" \n-0123456789123 \n\t\r+x\0") for _ in range(self.random.randrange(24)))

    def damaged_words(self, words, damage):
        """Words with a fault in one of them, of the first four as often as of the rest."""
        if not words:
            return [self.pick(ODD_WORDS)]
        place = self.random.randrange(min(4, len(words)) if self.chance(0.5) else len(words))
        word = words[place]
        if damage == 5:
            new = [self.pick(ODD_WORDS)]
        elif damage == 6:
            new = []
        elif damage == 7:
            new = [word, word]
        elif damage == 8:
            new = [b"-" * word.startswith(b"-") + word.lstrip(b"-").rjust(self.pick((2, 17, 18, 19, 20, 30)), b"0")]
        elif damage == 9:
            new = [self.pick((b"-", b"+", b"--")) + word]
        else:
            return words[:place] + words[place:][::-1]
        return words[:place] + new + words[place + 1:]

    def long_text(self):
        """A text of very many bytes."""
        many = self.pick((5000, 70000, 300000))
        return self.pick((b" " * many + EXAMPLE_TEXT, EXAMPLE_TEXT + b"\n" * many, b"1 1 " + b"0" * many + b"5",
                          b"0" * many + b"1 1 5", b"1 " + b"9" * many, b"1 1" + b" 5" * many, b"-" * many, b"\0" * many,
                          b"2 x " + b"0" * many + b"5000", b"1 1 5" + b" " * many + b"x", EXAMPLE_TEXT + b" " * many))

    def grid_of_request(self, big):
        """Shape, levels and the two lent lengths of a request; a quarter has a fault."""
        shape = self.shape(big)
        levels = self.levels(math.prod(shape))
        lent = [len(levels), len(levels)]
        fault = self.random.randrange(20)
        if fault == 0:
            shape = list(self.pick(BAD_SHAPES))
        elif fault == 1:
            shape[self.random.randrange(len(shape))] += self.pick((1, 2, 1024))
        elif fault == 2:
            levels = levels[1:]
        elif fault == 3:
            lent[self.random.randrange(2)] = self.pick((0, 1, len(levels) + 1, len(levels) - 1, 8192, 8193, 2**64 - 1))
        elif fault == 4:
            levels[self.random.randrange(len(levels))] = self.pick(BAD_LEVELS)
        return shape, levels, lent

    # ---- what is asked

    def read_request(self):
        """The file of a request `read_recipe`."""
        file = self.file(self.shape(0))
        return self.damaged_file(file) if self.chance(0.5) else file

    def write_request(self):
        """Count, steps and lent bytes of a request `write_recipe`; steps past the count may be bad."""
        steps = self.steps(self.shape(0))
        count = len(steps)
        if self.chance(0.15):
            steps[self.random.randrange(count)] = self.any_step()
        if self.chance(0.3):
            steps = (steps + [self.any_step() for _ in range(self.random.randrange(4))])[:STEPS]
        if self.chance(0.1):
            steps = steps[:self.random.randrange(len(steps) + 1)]
        if self.chance(0.1):
            count = self.pick((0, 1, 2, 15, 16, 17, 18, 36, 128, 255))
        lent = 6 + 7 * count
        if self.chance(0.15):
            lent = self.pick((0, 6, 12, 13, 14, 117, 118, 119, 125, 128, 129, lent - 1, lent + 1, lent + 7, 10**6, 2**64 - 1))
        return count, steps, lent

    def play_request(self, big):
        """File, shape, levels and lent lengths of a request `play`."""
        shape, levels, lent = self.grid_of_request(big)
        file = self.file(shape)
        return self.damaged_file(file) if self.chance(0.1) else file, shape, levels, lent

    def program_input(self, big):
        """File and text of a run of the program: five of six are damaged. The file may be None, for none, or a folder."""
        shape = self.shape(big)
        levels = self.levels(math.prod(shape))
        if self.chance(0.04):
            levels[self.random.randrange(len(levels))] = self.pick(BAD_LEVELS)
        file, text = self.file(shape), self.text(shape, levels)
        damage = self.random.randrange(6)
        if damage in (1, 2):
            file = self.damaged_file(file)
        if damage in (2, 3, 4, 5):
            text = self.damaged_text(text)
        if damage == 5:
            text = self.damaged_text(text)
        return self.odd_file(file), self.long_text() if self.chance(0.002) else text

    def odd_file(self, file):
        """Now and then no file, a folder in its place, or a long file."""
        if not self.chance(0.01):
            return file
        return self.pick((None, "folder", file + bytes(self.pick((1, 7, 200, 5000, 2**20))), bytes(2**20),
                          file + bytes(2**26) if self.chance(0.05) else file))
