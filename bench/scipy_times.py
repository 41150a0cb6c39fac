"""scipy_times.py: names of cases on standard input, one to a line; writes each name that SciPy or NumPy has, a tab, and its nanoseconds per cell.

The levels are random of the same range, the shape, axis, size and border those of the case; only the time is of use, not the answer: SciPy sums in
floats, and its median has other borders."""
import sys
import time

import numpy as np
from scipy import ndimage

BLOCK = 400e-6
ROUNDS = 15
PAD_MODES = {"constant": "constant", "edge": "edge", "maximum": "maximum", "mean": "mean", "median": "median", "minimum": "minimum",
             "reflect": "reflect", "symmetric": "symmetric", "wrap": "wrap"}


def levels(kind, shape, random):
    count = int(np.prod(shape))
    if kind == "rising":
        cells = np.arange(count)
    elif kind == "falling":
        cells = -np.arange(count)
    elif kind == "constant":
        cells = np.full(count, 5)
    else:
        cells = random.integers(-1000000, 1000001, count)
    return cells.astype(np.int64).reshape(shape)


def weights_of(kind, size, random):
    weights = random.integers(-1000, 1001, size)
    half = size // 2
    if kind == "symmetric":
        weights[size - half:] = weights[:half][::-1]
    elif kind == "antisymmetric":
        weights[size - half:] = -weights[:half][::-1]
    return weights


def call_of(name):
    call, shape_text, _, axis, _, size, more = name.split()
    random = np.random.default_rng(1)
    shape = tuple(int(side) for side in shape_text.split("x"))
    axis, size = int(axis), int(size)
    data = levels(more, shape, random)
    mode = "reflect" if all(size // 2 <= side for side in shape) else "nearest"
    out = np.zeros(shape, np.int64)
    if call == "pad":
        kind, n = more.split("-")
        return data.size, lambda: np.pad(data, int(n), mode=PAD_MODES[kind])
    if call in ("correlate1d", "convolve1d"):
        weights, filter_ = weights_of(more, size, random), getattr(ndimage, call)
        return data.size, lambda: filter_(data, weights, axis=axis, mode=mode, output=out)
    if call in ("correlate1d_f64", "convolve1d_f64"):
        floats, weights, out_f64 = data / 1024.0, weights_of(more, size, random) / 8.0, np.zeros(shape)
        filter_ = getattr(ndimage, call[:-4])
        return data.size, lambda: filter_(floats, weights, axis=axis, mode=mode, output=out_f64)
    if call in ("correlate", "convolve"):
        kernel, filter_ = random.integers(-1000, 1001, (size,) * len(shape)), getattr(ndimage, call)
        return data.size, lambda: filter_(data, kernel, mode=mode, output=out)
    if call in ("prewitt", "sobel"):
        filter_ = getattr(ndimage, call)
        return data.size, lambda: filter_(data, axis=axis, mode=mode, output=out)
    if call in ("uniform_filter1d", "minimum_filter1d", "maximum_filter1d"):
        filter_ = getattr(ndimage, call)
        return data.size, lambda: filter_(data, size, axis=axis, mode=mode, output=out)
    if call in ("uniform_filter", "minimum_filter", "maximum_filter"):
        filter_ = getattr(ndimage, call)
        return data.size, lambda: filter_(data, size, mode=mode, output=out)
    if call == "median_filter":
        mask = (data % 2 == 0).astype(np.uint8)
        return data.size, lambda: ndimage.median_filter(mask, size=3)
    return None


def seconds(call, times):
    start = time.perf_counter()
    for _ in range(times):
        call()
    return time.perf_counter() - start


def main():
    for line in sys.stdin:
        name = line.rstrip("\n")
        made = call_of(name)
        if made is None:
            continue
        cells, call = made
        call()
        times = max(1, int(BLOCK / max(seconds(call, 1), 1e-9)))
        best = min(seconds(call, times) for _ in range(ROUNDS)) / times
        print("%s\t%.3f" % (name, best * 1e9 / cells))


if __name__ == "__main__":
    main()
