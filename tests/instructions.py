#!/usr/bin/env python3
"""Counts the instructions that the program takes, and fails where they are above 1.02 of those of a kept list.

usage: tests/instructions.py SPPROF [--write]

Each command runs by one worker under valgrind's callgrind, over the traces of tests/traces.py: `check`, `figures`,
`profile`, `advise` (of one call site), `compare` and `migrate` over each kind and both versions, and `encode` over the text
of each kind. The list is tests/instructions.txt, and --write writes it anew. A line has the kind, the version (or `text`),
the command, and how many instructions it took. Counts depend on the program, and on what the first line names: where it is
another here, or where there is no valgrind, nothing is counted. They don't depend on the environment, which is emptied.

Ends with a line `N passed, M failed`."""
import concurrent.futures
import os
import platform
import re
import shutil
import subprocess
import sys
import tempfile

import traces

LIST = os.path.join(os.path.dirname(os.path.realpath(__file__)), "instructions.txt")
VALGRIND = shutil.which("valgrind")

# The most and the least that passes without a word, in parts of the list's count.
MOST, LEAST = 1.02, 0.98

# How many runs at a time, and how long one may take, in seconds.
AT_A_TIME, MOST_SECONDS = 4, 300


def surroundings():
    """What counts depend on besides the program. Valgrind shows a program which vector instructions the processor has, up
    to avx2, and glibc chooses by them how it copies memory; the rest of the processor it makes up."""
    version = subprocess.run([VALGRIND, "--version"], stdout=subprocess.PIPE, text=True, check=True).stdout.strip()
    with open("/proc/cpuinfo") as file:
        flags = set(file.read().split())
    processor = [platform.machine(), *(flag for flag in ("avx", "avx2") if flag in flags)]
    return f"# {version}, {' '.join(platform.libc_ver())}, {' '.join(processor)}"


def runs():
    """The words of each run, by kind, version and command."""
    words = {}
    for kind in traces.KINDS:
        for version in ("1", "2"):
            trace = f"{kind}.{version}"
            words[kind, version, "check"] = ["check", trace]
            words[kind, version, "figures"] = ["figures", "--workers", "1", trace]
            words[kind, version, "profile"] = ["profile", "--workers", "1", trace]
            words[kind, version, "advise"] = ["advise", "--workers", "1", "--top", "1", trace]
            words[kind, version, "compare"] = ["compare", "--workers", "1", trace, f"{kind}.later.{version}"]
            words[kind, version, "migrate"] = ["migrate", trace]
        words[kind, "text", "encode"] = ["encode", f"{kind}.txt"]
    return words


def counted(folder, words):
    """How many instructions a run takes; nothing where it fails."""
    command = [VALGRIND, "--tool=callgrind", "--callgrind-out-file=/dev/null", "./spprof", *words]
    try:
        ran = subprocess.run(command, cwd=folder, env={}, stdin=subprocess.DEVNULL, stdout=subprocess.DEVNULL,
                             stderr=subprocess.PIPE, timeout=MOST_SECONDS)
    except subprocess.TimeoutExpired:
        return None
    total = re.search(rb"Collected : (\d+)", ran.stderr)
    return int(total[1]) if ran.returncode == 0 and total else None


def all_counted(spprof):
    """The count of each run."""
    with tempfile.TemporaryDirectory() as folder:
        # the same name wherever the program lies
        os.symlink(spprof, os.path.join(folder, "spprof"))
        traces.write_all(folder)
        for kind in traces.KINDS:
            for name in (kind, f"{kind}.later"):
                with open(os.path.join(folder, f"{name}.2"), "wb") as file:
                    subprocess.run([spprof, "migrate", f"{name}.1"], cwd=folder, stdout=file, check=True)
        words = runs()
        with concurrent.futures.ThreadPoolExecutor(AT_A_TIME) as pool:
            return dict(zip(words, pool.map(lambda run: counted(folder, run), words.values())))


def kept():
    """The list's first line, and its counts."""
    with open(LIST, encoding="ascii") as file:
        first, *lines = file.read().splitlines()
    return first, {tuple(line.split()[:3]): int(line.split()[3]) for line in lines}


def skipped(why):
    print(f"instructions: skipped, {why}")
    print("0 passed, 0 failed")
    return 0


def write(spprof):
    counts = all_counted(spprof)
    missing = [" ".join(run) for run, count in counts.items() if count is None]
    if missing:
        sys.exit(f"not written, since there is no count of {', '.join(missing)}")
    with open(LIST, "w", encoding="ascii") as file:
        file.write(surroundings() + "\n")
        file.writelines(f"{' '.join(run)} {count}\n" for run, count in counts.items())


def compare(spprof):
    first, listed = kept()
    if first != surroundings():
        return skipped(f"the list is of {first[2:]}, and here is {surroundings()[2:]}")
    counts = all_counted(spprof)
    ratios, failed = {}, 0
    for run in sorted(counts.keys() | listed.keys()):
        name, count = " ".join(run), counts.get(run)
        if count is None or run not in listed:
            failed += 1
            print(f"FAILED instructions: {name} {'gave no count' if run in listed else 'is not in the list'}")
            continue
        ratio = ratios[name] = count / listed[run]
        told = f"{name} took {count:,}, which is {ratio:.4f} of the list's"
        if ratio > MOST:
            failed += 1
            print(f"FAILED instructions: {told}")
        elif ratio < LEAST:
            print(f"instructions: {told}: write the list anew")
    if ratios:
        names = sorted(ratios, key=ratios.get)
        worst = ", ".join(f"{name} {ratios[name]:.4f}" for name in names[:-4:-1])
        print(f"instructions: {len(names)} counts, {ratios[names[0]]:.4f} of the list's and more; the worst: {worst}")
    print(f"{len(counts.keys() | listed.keys()) - failed} passed, {failed} failed")
    return failed != 0


def main():
    words = sys.argv[1:]
    if len(words) not in (1, 2) or words[1:] not in ([], ["--write"]):
        sys.exit(__doc__)
    spprof = os.path.realpath(words[0])
    if VALGRIND is None:
        return "there is no valgrind" if words[1:] else skipped("there is no valgrind")
    return write(spprof) if words[1:] else compare(spprof)


if __name__ == "__main__":
    sys.exit(main())
