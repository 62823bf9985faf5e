#!/usr/bin/env python3
"""Runs the built programs `uri_tests` and `description_tests` on cases made at random, and compares what they print
with the readers of tools/steering_reference.py. Ends with status 1 at the first difference, and shows the case.

The programs are built by `rt run` in crates/uri_tests and in crates/description_tests. The stored files of the two
crates hold such cases too, made from another seed.
"""

import argparse
import collections
import subprocess
import sys
import time

import samples
from steering_reference import judged, playlist_given, told, uri_answer, uri_expected, uri_given
from table_reference import CRATES

# So many cases go into one run of a program.
BATCH = 500

# Seconds between two messages on how far a long run is.
PAUSE = 5

# So many bytes of an argument are shown at most.
SHOWN = 2000


def uri_case(kind, name, arguments):
    """The program's line, what it has to print, and what the case counts as."""
    answer = uri_answer(kind, arguments)
    outcome = "none" if answer is None else "text"
    return uri_given(name, kind, arguments), [uri_expected(name, answer)], outcome


def playlist_case(kind, name, arguments):
    refusal, meaning = judged(*arguments)
    outcome = "refused %d" % refusal[0] if refusal else "accepted"
    return playlist_given(name, *arguments), told(name, refusal, meaning), outcome


KINDS = {
    "resolve": ("uri_tests", uri_case),
    "set": ("uri_tests", uri_case),
    "host": ("uri_tests", uri_case),
    "playlist": ("description_tests", playlist_case),
}

# What the cases of a kind have to count as, each at least once.
OUTCOMES = {
    "resolve": ["text", "none"],
    "set": ["text", "none"],
    "host": ["text", "none"],
    "playlist": ["accepted"] + ["refused %d" % number for number in range(9, 18)],
}


def printed(program, lines):
    """What the program prints of these cases, by name of the case, and the line at the end."""
    text = "".join(line + "\n" for line in lines).encode()
    run = subprocess.run([CRATES / program / "out" / program], input=text, capture_output=True)
    if run.returncode:
        sys.exit("%s ended with status %d: %s" % (program, run.returncode, run.stderr.decode()))
    answers, name = {}, None
    *told_lines, last = run.stdout.decode().splitlines()
    for line in told_lines:
        # The lines of a case that follow its first one begin with spaces.
        if not line.startswith("  "):
            name = line.split(" ")[0]
        answers.setdefault(name, []).append(line)
    return answers, last


def show(kind, name, arguments, expected, found):
    print("%s, case %s: the program differs from the reference" % (kind, name))
    for argument in arguments:
        cut = " .." if len(argument) > SHOWN else ""
        print("  argument, %d bytes: %r%s" % (len(argument), argument[:SHOWN], cut))
    print("  reference:\n    " + "\n    ".join(expected))
    print("  program:\n    " + "\n    ".join(found or ["nothing"]))


def compare_batch(kind, first, batch, counts):
    """Whether the program agrees on all cases of a batch."""
    program, case = KINDS[kind]
    made = []
    for number, arguments in enumerate(batch, first):
        name = "%s-%d" % (kind, number)
        made.append((name, arguments) + case(kind, name, arguments))
    answers, last = printed(program, [given for _, _, given, _, _ in made])
    for name, arguments, _, expected, outcome in made:
        counts[outcome] += 1
        if answers.get(name) != expected:
            show(kind, name, arguments, expected, answers.get(name))
            return False
    if last != "%d cases" % len(batch):
        print("%s: the program's last line is %r" % (kind, last))
        return False
    return True


def compare_kind(kind, cases, seed):
    """Whether the program agrees on all cases of a kind, and these count as all that they have to."""
    counts = collections.Counter()
    inputs = samples.sample(kind, cases, seed)
    said = time.monotonic()
    for first in range(0, cases, BATCH):
        if not compare_batch(kind, first + 1, inputs[first : first + BATCH], counts):
            return False
        if time.monotonic() - said > PAUSE:
            said = time.monotonic()
            print("%s: %d of %d cases agree" % (kind, first + BATCH, cases), file=sys.stderr)
    for outcome in OUTCOMES[kind]:
        print("%-8s  %-10s  %6d" % (kind, outcome, counts[outcome]))
    absent = [outcome for outcome in OUTCOMES[kind] if not counts[outcome]]
    if absent:
        print("%s: no case counts as %s; give a larger --cases" % (kind, ", ".join(absent)))
    return not absent


def main():
    reader = argparse.ArgumentParser(description=__doc__, formatter_class=argparse.RawDescriptionHelpFormatter)
    reader.add_argument("--cases", type=int, default=4000, metavar="N", help="how many cases of each kind (4000)")
    reader.add_argument("--seed", type=int, default=2, metavar="S", help="where the draws begin (2)")
    reader.add_argument("--kind", choices=list(KINDS), action="append", help="only this kind; may stand several times")
    options = reader.parse_args()
    kinds = options.kind or list(KINDS)
    for program in sorted({KINDS[kind][0] for kind in kinds}):
        if not (CRATES / program / "out" / program).exists():
            sys.exit("%s is not built: run `rt run` in crates/%s" % (CRATES / program / "out" / program, program))
    print("seed %d, %d cases of each kind" % (options.seed, options.cases))
    if not all(compare_kind(kind, options.cases, options.seed) for kind in kinds):
        sys.exit(1)
    print("all agree")


if __name__ == "__main__":
    main()
