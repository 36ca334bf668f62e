#!/usr/bin/env python3
"""Runs the program on the files of tests/corpus, most of which a fuzzer made, with each command.

usage: tests/corpus.py SPPROF

What it must answer stands in tests/corpus/answers.txt, a line for each run: the file, the command's number below, the
exit status, and the SHA-256 of what goes to standard output and then to standard error. Those answers were computed by
another program, from the definitions alone. Ends with a line `N passed, M failed`."""
import hashlib
import os
import subprocess
import sys

TESTS = os.path.dirname(os.path.realpath(__file__))
FOLDER = os.path.join(TESTS, "corpus")
SMALL = os.path.join(os.path.dirname(TESTS), "examples", "small.sptrace")

# The words of each command; @ is the file.
COMMANDS = [
    ["check", "@"],
    ["encode", "@"],
    ["figures", "--burden", "3", "--parts", "5", "--workers", "2", "@"],
    ["profile", "--csv", "--burden", "7", "--join-burden", "2", "--parts", "3", "@"],
    ["compare", "--burden", "1", "--parts", "2", "@", SMALL],
    ["compare", "--burden", "1", SMALL, "@"],
    ["migrate", "@"],
    ["advise", "--burden", "5", "--join-burden", "2", "--parts", "3", "--top", "3", "--faster", "3", "@"],
]

# How long a run may take, in seconds.
MOST_SECONDS = 10


def words_for(number, path):
    """The words of that command for a file."""
    return [path if word == "@" else word for word in COMMANDS[number]]


def digest(out, err):
    return hashlib.sha256(out + err).hexdigest()


def answer(spprof, number, path):
    """The exit status of a run and the digest of what it wrote."""
    ran = subprocess.run([spprof, *words_for(number, path)], stdin=subprocess.DEVNULL, capture_output=True, timeout=MOST_SECONDS)
    return ran.returncode, digest(ran.stdout, ran.stderr)


def main(spprof):
    passed = failed = 0
    with open(os.path.join(FOLDER, "answers.txt"), encoding="ascii") as lines:
        for line in lines:
            name, number, status, wanted = line.split()
            try:
                told = answer(spprof, int(number), os.path.join(FOLDER, name))
            except subprocess.TimeoutExpired:
                told = ("none in time", "")
            if told == (int(status), wanted):
                passed += 1
            else:
                failed += 1
                print(f"FAILED corpus: {name}, {' '.join(COMMANDS[int(number)])}: status {told[0]}, wanted {status}{'' if told[0] != int(status) else ', but another output'}")
    print(f"{passed} passed, {failed} failed")
    return failed != 0


if __name__ == "__main__":
    if len(sys.argv) != 2:
        sys.exit(__doc__)
    sys.exit(main(os.path.realpath(sys.argv[1])))
