#!/usr/bin/env python3
"""Builds the program once more, as tests/fuzz/out/spprof, with a counter at each branch, by which AFL++ sees where an
input leads.

The toolchain proves and lowers the program as ever; its compiler is called by way of a script that asks for the counters,
and the program is linked with the part of AFL++ that keeps them. `./spprof --build` must have built what the program
stands on. Counts on the toolchain that docs/INSTALL.md names, and on AFL++ as Debian's package afl++ has it."""
import glob
import importlib.machinery
import importlib.util
import os
import shutil
import subprocess
import sys

HERE = os.path.dirname(os.path.realpath(__file__))
TOP = os.path.dirname(os.path.dirname(HERE))
OUT = os.path.join(HERE, "out")


def toolchain():
    """The toolchain's command `rt`, as a module."""
    loader = importlib.machinery.SourceFileLoader("rt", os.path.realpath(shutil.which("rt")))
    module = importlib.util.module_from_spec(importlib.util.spec_from_loader("rt", loader))
    loader.exec_module(module)
    return module


def with_counters(kit):
    """A folder that stands for the toolchain's: its compiler puts in a counter at each branch."""
    folder = os.path.join(OUT, "toolchain")
    shutil.rmtree(folder, ignore_errors=True)
    os.makedirs(os.path.join(folder, "bin"))
    os.symlink(os.path.join(kit, "toolchain/lib"), os.path.join(folder, "lib"))
    for name in os.listdir(os.path.join(kit, "toolchain/bin")):
        if name != "clang":
            os.symlink(os.path.join(kit, "toolchain/bin", name), os.path.join(folder, "bin", name))
    script = os.path.join(folder, "bin/clang")
    with open(script, "w", encoding="ascii") as file:
        file.write(f'#!/bin/bash\nexec -a clang {kit}/toolchain/bin/clang -fsanitize-coverage=trace-pc-guard "$@"\n')
    os.chmod(script, 0o755)
    return folder


def main():
    runtimes = glob.glob("/usr/lib/afl/afl-compiler-rt-64.o")
    if not runtimes:
        sys.exit("tests/fuzz/build.py: afl-compiler-rt-64.o isn't where Debian's afl++ has it, in /usr/lib/afl")
    rt = toolchain()
    os.makedirs(OUT, exist_ok=True)
    crate = rt.rtlib.crates_below(f"{TOP}/crates/spprof")[-1]
    made = os.path.join(OUT, "spprof.o")
    words = [rt.rtlib.RATTLE, "build", *crate.words([]), "--toolchain", with_counters(rt.KIT), "--backend", "llvm", "-o", made]
    subprocess.run(words, cwd=crate.folder, check=True)
    link = [f"{rt.KIT}/bin/rattle-link", "--target", "x86_64-unknown-linux-gnu", "--toolchain", f"{rt.KIT}/toolchain"]
    link += ["-o", os.path.join(OUT, "spprof"), made, *runtimes, f"{rt.KIT}/c/libos_c.a", f"{rt.KIT}/c/liblibc_c.a"]
    subprocess.run(link, check=True)


if __name__ == "__main__":
    main()
