"""recipes_table.py TIMES: the table of bench/recipes, the slowest quotient first, and a line for each number of steps."""
import sys

sys.dont_write_bytecode = True

from table import mean


def case(name, cells, steps):
    """How a case is named."""
    return "%s, %d cells, %d step%s" % (name, cells, steps, "" if steps == 1 else "s")


def main():
    rows = []
    for line in open(sys.argv[1]):
        name, cells, steps, calls, played = line.rstrip("\n").split("\t")
        rows.append((float(calls) / float(played), name, int(cells), int(steps), float(calls), float(played)))
    if not rows:
        raise SystemExit("bench: no recipe was timed")
    rows.sort()
    print("%-62s %10s %10s %8s" % ("nanoseconds per cell and step", "calls", "play", "calls/p"))
    for quotient, name, cells, steps, calls, played in rows:
        print("%-62s %10.3f %10.3f %8.2f" % (case(name, cells, steps), calls, played, quotient))
    print()
    print("%-20s %6s %7s %9s %9s" % ("steps", "cases", "slower", "smallest", "mean"))
    for count in sorted({row[3] for row in rows}):
        quotients = [row[0] for row in rows if row[3] == count]
        slower = sum(quotient < 1 for quotient in quotients)
        print("%-20d %6d %7d %9.2f %9.2f" % (count, len(quotients), slower, min(quotients), mean(quotients)))
    print("\nplay: smallest quotient %.2f (%s), geometric mean %.2f over %d cases"
          % (rows[0][0], case(*rows[0][1:4]), mean([row[0] for row in rows]), len(rows)))


if __name__ == "__main__":
    main()
