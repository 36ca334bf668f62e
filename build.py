#!/usr/bin/env python3
"""Builds the program spprof: proves its crate and each that it stands on, and leaves crates/spprof/out/spprof. What is
proved already, and hasn't changed, isn't proved again.

`rt run` proves one crate after the other, and `rt all check --jobs N` gives each crate one processor, so that most
processors wait for the longest chain of crates. So this takes the toolchain's own steps in another order: crates that
don't stand on each other go side by side, those that the build waits for get several processes each, and the rest one
each, with what the processors have left. Tells how far it is on standard error, and what the prover said of a crate that it
refuses; its status is then other than 0. It counts on the toolchain that docs/INSTALL.md names, whose own steps it calls.
"""
import importlib.machinery
import importlib.util
import os
import queue
import re
import shutil
import subprocess
import sys
import tempfile
import threading
import time

TOP = os.path.dirname(os.path.realpath(__file__))
PROCESSORS = len(os.sched_getaffinity(0))
# How many seconds each crate takes on four cores of 2.5 GHz, beside the others that go then. What isn't here is short.
SECONDS = {
    "spp_event": 110, "spp_maxplus": 110, "spp_book": 300, "spp_frame": 60, "spp_cut": 95, "spp_text": 210, "spp_dag": 30,
    "spp_piece": 30, "spp_summary": 85, "spp_site": 125, "spp_request": 20, "spp_command_line": 350, "spp_stack": 45,
    "spp_report": 220, "spp_advice": 50, "spp_ways": 110, "spp_serial": 60, "spp_pass": 210, "spp_part": 70, "spp_path": 200,
    "spp_jobs": 110, "spp_crew": 150, "spp_shell": 165, "spp_explain": 110, "spprof": 145,
}
# A crate that may begin so many seconds later, and no more, without delaying the build is urgent.
SLACK = 45
# How nice the processes of a crate are: of the one with most behind it, of another urgent one, and of the rest.
FIRST, URGENT, LEAST = 0, 5, 19


def toolchain():
    """The toolchain's command `rt`, as a module."""
    loader = importlib.machinery.SourceFileLoader("rt", os.path.realpath(shutil.which("rt")))
    module = importlib.util.module_from_spec(importlib.util.spec_from_loader("rt", loader))
    loader.exec_module(module)
    return module


def tell(line):
    print(f"spprof: {line}", file=sys.stderr, flush=True)


def at_a_time(rt):
    """How many crates are checked at a time: as many as there are processors, and 4 GB of free memory for each."""
    return max(1, min(PROCESSORS, rt.free() // 4_000_000_000))


def prove(crate, niceness, ended):
    """Proves and builds a crate over what it stands on, and hands on what was said where that fails."""
    os.setpriority(os.PRIO_PROCESS, threading.get_native_id(), niceness)
    jobs = min(4, PROCESSORS) if crate.is_large() and niceness < LEAST else 1
    flags = ["--jobs", str(jobs)]
    said = "its check could not be run"
    try:
        os.makedirs(f"{crate.folder}/out", exist_ok=True)
        with tempfile.TemporaryFile("w+", errors="replace") as crate.out:
            failed = crate.build_rlib(flags, anew=False)
            crate.out.seek(0)
            said = crate.out.read() if failed else None
    finally:
        ended.put((crate, said))


def refuse(name, said):
    """Tells why a crate is not built: the first lines that say what is wrong, and where all that was said stands."""
    with tempfile.NamedTemporaryFile("w", prefix="spprof-build-", delete=False) as log:
        log.write(said)
    wrong = [it for it in said.splitlines() if re.search("error|not proved|no proof", it)]
    print(*wrong[:20], sep="\n", file=sys.stderr)
    tell(f"the build failed at {name}; all that it said is in {log.name}")


class Clock:
    """Tells how far a build is, and how long the rest takes: what SECONDS says of it, at the pace of what has been proved."""

    def __init__(self, crates):
        self.crates, self.began, self.done, self.took, self.planned, self.last = crates, {}, [], 0, 0, ""

    def begin(self, crate):
        self.began[crate] = time.monotonic()

    def end(self, crate):
        took, planned = time.monotonic() - self.began[crate], SECONDS.get(crate.name, 0)
        self.done.append(crate)
        self.last = f" ({crate.name} took {took:.0f} s)"
        # A crate that took hardly any time was proved already, and says nothing of the pace.
        if took > planned / 10 > 0:
            self.took, self.planned = self.took + took, self.planned + planned

    def tell(self):
        pace, now, left = self.took / self.planned if self.planned else 1, time.monotonic(), {}
        for it in self.crates:
            own = SECONDS.get(it.name, 0) * pace - (now - self.began.get(it, now))
            own = 0 if it in self.done else max(own, 0)
            left[it] = own + max((left[low] for low in it.below()), default=0)
        minutes = max(1, round(left[self.crates[-1]] / 60))
        tell(f"{len(self.done)} of {len(self.crates)} crates{self.last}; about {minutes} minute{'s' * (minutes > 1)} left")


def prove_all(rt, crates):
    """Proves libraries, each after those that it stands on, and returns whether all are proved. The program is the last of
    these crates, and isn't proved here."""
    # How long the longest chain of crates takes that stands below each, and the longest from it to the end.
    before, behind, clock = {}, {}, Clock(crates)
    for it in crates:
        before[it] = max((before[low] + SECONDS.get(low.name, 0) for low in it.below()), default=0)
    for it in reversed(crates):
        behind[it] = SECONDS.get(it.name, 0) + max((behind[other] for other in crates if it in other.below()), default=0)
    longest, places = max(behind.values()), at_a_time(rt)
    urgent = {it for it in crates if longest - before[it] - behind[it] <= SLACK}
    left, running, ended = sorted(crates[:-1], key=lambda it: -behind[it]), [], queue.Queue()
    while left or running:
        for it in [it for it in left if all(low in clock.done for low in it.below())]:
            # Where there are three places or more, the last is for an urgent crate, which comes as soon as it can.
            if len(running) >= (places if it in urgent else min(places, max(places - 1, 2))):
                continue
            is_first = all(behind[it] > behind[other] for other in urgent.intersection(running))
            niceness = LEAST if it not in urgent else FIRST if is_first else URGENT
            left.remove(it)
            running.append(it)
            clock.begin(it)
            # A thread for each, since one that has taken a lower priority keeps it.
            threading.Thread(target=prove, args=(it, niceness, ended), daemon=True).start()
        try:
            crate, said = ended.get(timeout=60)
        except queue.Empty:
            clock.tell()
            continue
        running.remove(crate)
        clock.end(crate)
        clock.tell()
        if said is not None:
            refuse(crate.name, said)
            return False
    return True


def main():
    rt = toolchain()
    rt.rtlib.guarded()
    crates = sorted(rt.rtlib.crates_below(f"{TOP}/crates/spprof"), key=lambda it: len(it.below()))
    held = rt.rtlib.lock(crates)
    tell(f"building; the first time this proves all {len(crates)} crates: 16 to 26 minutes on four cores of 2.5 GHz")
    # The program itself is last, and `rt run` proves, compiles and runs it.
    if not prove_all(rt, crates):
        return 1
    for it in held:
        os.close(it)
    how = {"cwd": f"{TOP}/crates/spprof", "stdout": subprocess.PIPE, "stderr": subprocess.STDOUT, "text": True}
    linked = subprocess.run(["rt", "run", "--", "--help"], **how)
    if linked.returncode:
        refuse("spprof", linked.stdout)
    return linked.returncode


if __name__ == "__main__":
    sys.exit(main())
