"""program_times.py PLAY: the program `play` reads a grid of 8,192 levels and prints it, beside awk '{print}' on the same text.

The recipe is one minimum of length 1, which copies: reading and printing are what is timed. The text has a level a line. Both read from a file
and write to a file, which is emptied before the clock starts; they run in turn, 50 times each; the median counts, from the start of the process
to its end. The last column is `true`, which does nothing: what starting a process costs."""
import os
import pathlib
import random
import shutil
import statistics
import sys
import tempfile
import time

RUNS = 50
SHAPE = (16, 16, 32)
COPY = b"LKS\x00\x01\x01" + bytes([0, 0, 1, 0, 2, 0, 0])
LEVELS = (("levels 0 to 255", 0, 255), ("levels of 31 bits and a sign", -(2**31 - 1), 2**31 - 1))


def seconds(command):
    """How long a command takes over the file text into the file out."""
    text = os.open("text", os.O_RDONLY)
    out = os.open("out", os.O_WRONLY | os.O_CREAT | os.O_TRUNC, 0o600)
    lent = [(os.POSIX_SPAWN_DUP2, text, 0), (os.POSIX_SPAWN_DUP2, out, 1)]
    start = time.perf_counter()
    pid = os.posix_spawn(command[0], command, os.environ, file_actions=lent)
    _, status = os.waitpid(pid, 0)
    spent = time.perf_counter() - start
    os.close(text)
    os.close(out)
    if status != 0:
        raise SystemExit("bench: %s ended with status %d" % (command[0], status))
    return spent


def row(commands, least, most):
    """The median seconds of each command on levels from least to most."""
    draw = random.Random(1)
    levels = ["%d\n" % draw.randint(least, most) for _ in range(8192)]
    pathlib.Path("text").write_text("3 %d %d %d\n" % SHAPE + "".join(levels))
    pathlib.Path("look.lks").write_bytes(COPY)
    seconds(commands["play"])
    if pathlib.Path("out").read_text() != "".join(levels):
        raise SystemExit("bench: play does not print the levels that it read")
    spent = {name: [] for name in commands}
    for _ in range(RUNS):
        for name, command in commands.items():
            spent[name].append(seconds(command))
    return {name: statistics.median(times) for name, times in spent.items()}


def main():
    awk = shutil.which("awk")
    commands = {"awk": [awk, "{print}"], "play": [os.path.abspath(sys.argv[1])], "true": [shutil.which("true")]}
    print("%-62s %10s %10s %8s %10s" % ("milliseconds a run over 8,192 levels", "awk", "play", "awk/p", "true"))
    with tempfile.TemporaryDirectory() as folder:
        os.chdir(folder)
        for name, least, most in LEVELS:
            median = row(commands, least, most)
            print("%-62s %10.3f %10.3f %8.2f %10.3f" % (name, 1e3 * median["awk"], 1e3 * median["play"],
                                                      median["awk"] / median["play"], 1e3 * median["true"]))
        os.chdir("/")
    print("\nawk is %s; median of %d runs" % (os.path.basename(os.path.realpath(awk)), RUNS))


if __name__ == "__main__":
    main()
