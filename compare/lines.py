"""lines.py ORACLE PROGRAM ANSWERS SEED COUNT: makes requests in batches, runs both programs on them, compares line by line.

ANSWERS is the example of bindings/rust: its lent cells hold a pattern before each call, and it says where a refusal did not leave them as they
were or an accepted call did not leave zeros in the second grid."""
import subprocess
import sys

sys.dont_write_bytecode = True

from widen import three_borders

BATCH = 10000


def shown(text):
    return text if len(text) <= 2000 else text[:2000] + " .. (%d characters)" % len(text)


def answers(program, asked):
    """What a program says to requests, a line each."""
    given = subprocess.run([program], input=asked, stdout=subprocess.PIPE, text=True, check=True).stdout.split("\n")
    if given and given[-1] == "":
        given.pop()
    return given


def batch(oracle, seed, count):
    """Requests and wanted answers of one batch."""
    made = subprocess.run(
        [sys.executable, oracle + "/gen.py", seed, str(count), "--out", str(count // 4), "--oracle", oracle + "/oracle"],
        stdout=subprocess.PIPE, stderr=subprocess.PIPE, text=True, check=True)
    for note in made.stderr.splitlines():
        if not note.endswith("oracle-wrap"):
            raise SystemExit("compare: " + note)
    pairs = [line.split("\t") for line in made.stdout.splitlines()]
    return [(three_borders(request), wanted) for request, wanted in pairs]


def differing(name, pairs, given, shown_before):
    """How many answers of a program differ; the first is shown whole."""
    differ = 0
    for k, (request, wanted) in enumerate(pairs):
        answer = given[k] if k < len(given) else "(no answer)"
        if answer != wanted:
            differ += 1
            if not shown_before and differ == 1:
                print("request  " + shown(request))
                print("wanted   " + shown(wanted))
                print("%-8s %s" % (name, shown(answer)))
    if len(given) > len(pairs):
        differ += len(given) - len(pairs)
        print("%s: %d answers too many, the first: %s" % (name, len(given) - len(pairs), shown(given[len(pairs)])))
    return differ


def main():
    oracle, program, patterned, seed, count = sys.argv[1], sys.argv[2], sys.argv[3], sys.argv[4], int(sys.argv[5])
    compared = differ = 0
    part = 0
    while part * BATCH < count:
        pairs = batch(oracle, "%s.%d" % (seed, part), min(BATCH, count - part * BATCH))
        asked = "".join(request + "\n" for request, _ in pairs)
        differ += differing("ndimage", pairs, answers(program, asked), differ)
        differ += differing("answers", pairs, answers(patterned, asked), differ)
        compared += len(pairs)
        part += 1
        sys.stderr.write("\rcompare: %d of %d" % (compared, count + count // 4))
    sys.stderr.write("\n")
    print("%d compared, %d differ" % (compared, differ))
    sys.exit(1 if differ or compared == 0 else 0)


if __name__ == "__main__":
    main()
