"""widen.py: requests of gen.py as the program takes them, each with its answer behind a tab: from standard input to standard
output. The Rust's filters of a whole grid take one border; the program's take three, of which those that count are
made that one. Those past the axis count, which are neither read nor judged, are any, refused ones too."""
import random
import sys

WIDE = ("minimum_filter", "maximum_filter", "uniform_filter", "prewitt", "sobel")
PAST = ("constant 2147483648", "constant -5", "mirror", "nearest", "reflect", "wrap")


def three_borders(request):
    """A request with three borders, where its call takes them."""
    words = request.split()
    if words[0] not in WIDE:
        return request
    axes = int(words[1])
    at = 2 + axes + 1 + int(words[2 + axes]) + 1
    end = at + (2 if words[at] == "constant" else 1)
    past = random.Random(request)
    alike = min(axes, 3)
    borders = words[at:end] * alike + [past.choice(PAST) for _ in range(3 - alike)]
    return " ".join(words[:at] + borders + words[end:])


def main():
    for line in sys.stdin:
        request, answer = line.rstrip("\n").split("\t")
        print(three_borders(request) + "\t" + answer)


if __name__ == "__main__":
    main()
