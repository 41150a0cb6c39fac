"""table.py TIMES SCIPY: the table of bench/run, the slowest quotient first, and its last line. Of several times of SciPy for a case the best counts."""
import math
import sys


def main():
    scipy = {}
    for line in open(sys.argv[2]):
        name, nanoseconds = line.rstrip("\n").split("\t")
        scipy[name] = min(float(nanoseconds), scipy.get(name, math.inf))
    rows = []
    for line in open(sys.argv[1]):
        parts = line.rstrip("\n").split("\t")
        if len(parts) != 4:
            raise SystemExit("bench: " + line.strip())
        rows.append((float(parts[3]), parts[0], float(parts[1]), float(parts[2])))
    if not rows:
        raise SystemExit("bench: no case has these words in its name")
    rows.sort()
    print("%-62s %10s %10s %8s %10s %8s" % ("nanoseconds per input cell", "Rust", "Suvvokal", "Rust/S", "SciPy", "SciPy/S"))
    for quotient, name, theirs, ours in rows:
        beside = "%10.3f %8.2f" % (scipy[name], scipy[name] / ours) if name in scipy else "%10s %8s" % ("-", "-")
        print("%-62s %10.3f %10.3f %8.2f %s" % (name, theirs, ours, quotient, beside))
    calls = {}
    for quotient, name, _, ours in rows:
        rust, other = calls.setdefault(name.split()[0], ([], []))
        rust.append(quotient)
        if name in scipy:
            other.append(scipy[name] / ours)
    print()
    print("%-20s %6s %7s %9s %9s %9s %9s" % ("call", "cases", "slower", "smallest", "mean", "SciPy's", "mean"))
    for call, (rust, other) in sorted(calls.items(), key=lambda kept: min(kept[1][0])):
        slower = sum(quotient < 1 for quotient in rust)
        beside = "%9.2f %9.2f" % (min(other), mean(other)) if other else "%9s %9s" % ("-", "-")
        print("%-20s %6d %7d %9.2f %9.2f %s" % (call, len(rust), slower, min(rust), mean(rust), beside))
    if scipy:
        beside = [(scipy[name] / ours, name) for _, name, _, ours in rows if name in scipy]
        print("\nSciPy: smallest quotient %.2f (%s), geometric mean %.2f over %d cases"
              % (min(beside)[0], min(beside)[1], mean([quotient for quotient, _ in beside]), len(beside)))
    print("\nsmallest quotient %.2f (%s), geometric mean %.2f over %d cases" % (rows[0][0], rows[0][1], mean([row[0] for row in rows]), len(rows)))


def mean(quotients):
    return math.exp(sum(math.log(quotient) for quotient in quotients) / len(quotients))


if __name__ == "__main__":
    main()
