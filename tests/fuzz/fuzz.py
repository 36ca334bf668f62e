#!/usr/bin/env python3
"""Feeds the program bytes that are nearly traces or texts, in search of a crash, a hang or a status that it doesn't have.

usage: tests/fuzz/fuzz.py MINUTES [FOLDER]

With AFL++ (Debian's package afl++) each command runs for its share of the minutes, as tests/fuzz/build.py builds it.
AFL++ looks for crashes and hangs in every run. What it keeps is then run with every command as `./spprof --build`
builds it, and there the status, and whether the commands agree, are looked at too. Without AFL++ this script changes the
seeds by chance itself, for as long, and looks at all of that in every run.

A finding is a run that a signal ends, that takes over 10 seconds or has a status outside 0 to 4, or commands that disagree.
They agree where `check`, `figures` (5 parts), `profile` and `advise` (3 parts) print the same work or line of fault.

The inputs that were kept lie in FOLDER, which mustn't be there yet; by default in tests/fuzz/out/found, which is emptied.
Ends with what was found, and with status 1 where that is anything."""
import glob
import os
import random
import shutil
import subprocess
import sys
import time

HERE = os.path.dirname(os.path.realpath(__file__))
TOP = os.path.dirname(os.path.dirname(HERE))
OUT = os.path.join(HERE, "out")
FOUND = os.path.join(OUT, "found")
SPPROF = os.path.join(TOP, "crates/spprof/out/spprof")
SMALL = os.path.join(TOP, "examples/small.sptrace")

# The words of each command that is fuzzed; @@ is the input. Few threads, so that many runs a second are had.
COMMANDS = {
    "check": ["check", "@@"],
    "encode": ["encode", "@@"],
    "figures": ["figures", "--parts", "5", "--workers", "2", "@@"],
    "profile": ["profile", "--parts", "3", "--workers", "2", "@@"],
    "advise": ["advise", "--parts", "3", "--workers", "2", "--top", "3", "@@"],
    "compare": ["compare", "--parts", "2", "--workers", "1", "@@", SMALL],
    "migrate": ["migrate", "@@"],
}

# No input is longer: the corpus is to be many small ones.
MOST_BYTES = 4096

MOST_SECONDS = 10


def seeds():
    """Beginnings of the examples, and the small ones whole."""
    for path in sorted(glob.glob(f"{TOP}/examples/*.sptrace") + glob.glob(f"{TOP}/examples/*.compact") + glob.glob(f"{TOP}/examples/*.txt") + glob.glob(f"{TOP}/tests/corpus/*")):
        with open(path, "rb") as file:
            data = file.read()
        if not path.endswith("answers.txt"):
            yield data[:MOST_BYTES]


def run(words, data=b""):
    """The status, output and messages of a run; none where it takes too long."""
    try:
        ran = subprocess.run([SPPROF, *words], input=data, capture_output=True, timeout=MOST_SECONDS)
    except subprocess.TimeoutExpired:
        return None
    return ran.returncode, ran.stdout, ran.stderr


def findings(path):
    """What is wrong with the runs over one input."""
    told = {}
    for name, words in COMMANDS.items():
        told[name] = run([path if word == "@@" else word for word in words])
        if told[name] is None:
            return f"{name} takes over {MOST_SECONDS} seconds"
        if not 0 <= told[name][0] <= 4:
            return f"{name} ends with status {told[name][0]}"
    status, out, err = told["check"]
    for name in ("figures", "profile", "advise"):
        if told[name][0] != status or not told[name][1].startswith(out) or told[name][2] != err:
            return f"{name} and check don't say the same"
    if told["compare"][0] != status or (err and told["compare"][2] != b"before: " + err):
        return "compare and check don't say the same"
    if told["migrate"][0] == 0 and run(["check"], told["migrate"][1]) != told["check"]:
        return "check doesn't say the same of what migrate wrote"
    return None


def changed(chance, data):
    """The bytes, changed in a few places."""
    data = bytearray(data)
    for _ in range(chance.randint(1, 6)):
        at = chance.randrange(len(data) + 1)
        kind = chance.randrange(5)
        if kind == 0 and at < len(data):
            data[at] = chance.choice([0, 1, 2, 3, 4, 0x7F, 0x80, 0xFF, chance.randrange(256)])
        elif kind == 1:
            del data[at:at + chance.choice([1, 2, 16, 64])]
        elif kind == 2:
            data[at:at] = data[at:at + chance.choice([1, 16, 160])]
        elif kind == 3:
            del data[at:]
        else:
            data[at:at] = bytes(chance.randrange(256) for _ in range(chance.choice([1, 4, 16])))
    return bytes(data[:MOST_BYTES])


def by_chance(minutes, folder):
    """Changes the seeds by chance, and keeps each input whose line of fault or status was not seen before."""
    chance, pool, seen, wrong, runs = random.Random(), list(seeds()), set(), [], 0
    path, end = os.path.join(folder, "input"), time.monotonic() + 60 * minutes
    while time.monotonic() < end:
        data = changed(chance, chance.choice(pool))
        with open(path, "wb") as file:
            file.write(data)
        runs += 1
        what = findings(path)
        if what:
            shutil.copy(path, os.path.join(folder, f"wrong-{len(wrong)}"))
            wrong.append(what)
        told = run(["check", path]), run(["encode", path])
        key = tuple((it[0], it[2]) for it in told if it)
        if key not in seen:
            seen.add(key)
            pool.append(data)
            shutil.copy(path, os.path.join(folder, f"kept-{len(seen)}"))
    return runs, wrong


def stats_in(path):
    """The numbers that AFL++ tells of a run, by name."""
    with open(path, encoding="ascii") as lines:
        parts = [line.partition(":") for line in lines]
    return {name.strip(): value.strip() for name, _, value in parts}


def by_coverage(minutes, folder):
    """Has AFL++ run each command for its share of the time, and runs what it kept with all commands."""
    begun = os.path.join(OUT, "seeds")
    shutil.rmtree(begun, ignore_errors=True)
    os.makedirs(begun)
    for number, data in enumerate(seeds()):
        with open(os.path.join(begun, str(number)), "wb") as file:
            file.write(data)
    env = {**os.environ, "AFL_NO_UI": "1", "AFL_SKIP_CPUFREQ": "1", "AFL_I_DONT_CARE_ABOUT_MISSING_CRASHES": "1", "AFL_NO_AFFINITY": "1"}
    runs, wrong = 0, []
    for name, words in COMMANDS.items():
        state = os.path.join(OUT, "state", name)
        shutil.rmtree(state, ignore_errors=True)
        os.makedirs(state)
        limits = ["-t", str(1000 * MOST_SECONDS), "-m", "none", "-G", str(MOST_BYTES), "-V", str(int(60 * minutes / len(COMMANDS)))]
        subprocess.run(["afl-fuzz", "-i", begun, "-o", state, *limits, "--", os.path.join(OUT, "spprof"), *words], env=env, stdout=subprocess.DEVNULL, check=True)
        told = stats_in(os.path.join(state, "default/fuzzer_stats"))
        runs += int(told["execs_done"])
        print(f"{name}: {told['execs_done']} runs, {told['corpus_count']} inputs kept, {told['saved_crashes']} crashes, {told['saved_hangs']} hangs", flush=True)
        for kind in ("crashes", "hangs"):
            wrong += [f"{name}: {kind}, {path}" for path in glob.glob(f"{state}/default/{kind}/id*")]
        for path in glob.glob(f"{state}/default/queue/id*"):
            kept = os.path.join(folder, f"{name}-{os.path.basename(path)[3:9]}")
            shutil.copy(path, kept)
            what = findings(kept)
            if what:
                wrong.append(f"{kept}: {what}")
    return runs, wrong


def main(minutes, folder):
    if folder == FOUND:
        shutil.rmtree(folder, ignore_errors=True)
    elif os.path.exists(folder):
        sys.exit(f"{folder} is there already")
    os.makedirs(folder)
    subprocess.run([os.path.join(TOP, "spprof"), "--help"], stdout=subprocess.DEVNULL, check=True)
    if shutil.which("afl-fuzz"):
        subprocess.run([sys.executable, os.path.join(HERE, "build.py")], check=True)
        runs, wrong = by_coverage(minutes, folder)
    else:
        runs, wrong = by_chance(minutes, folder)
    print(f"{runs} runs in {minutes} minutes, {len(os.listdir(folder))} inputs kept in {folder}, {len(wrong)} findings")
    print(*wrong, sep="\n")
    return bool(wrong)


if __name__ == "__main__":
    if len(sys.argv) not in (2, 3):
        sys.exit(__doc__)
    sys.exit(main(float(sys.argv[1]), sys.argv[2] if len(sys.argv) == 3 else FOUND))
