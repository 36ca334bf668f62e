#!/usr/bin/env python3
"""Times commands over traces of version 1 and of version 2 with the same events, by turns; see README.md.

usage: bench/versions.py EVENTS ROUNDS KIND..

The program is that of the variable SPPROF, or the one that was built last; it also writes the traces of version 2.
`bench/plain` compiles the program that makes the traces. `check` takes the records of version 1 as they come, so that
its time after reading is only that of what is left in the pipe: compare its whole times. Its numbers in README.md are
of before that."""
import os
import subprocess
import sys
import tempfile

from workers import BUILT, HERE, after_reading, over_file

ROW = '%-7s %-8s %12s %12s %10s %10s'
COMMANDS = [['check'], ['figures'], ['profile']]


def made(spprof, kind, events, folder):
    """The paths of a trace in version 1 and in version 2."""
    old, new = (os.path.join(folder, f'{kind}.{number}') for number in (1, 2))
    with open(old, 'wb') as file:
        subprocess.run([os.path.join(HERE, 'out/generate'), kind, events], stdout=file, check=True)
    with open(new, 'wb') as file:
        subprocess.run([spprof, 'migrate', old], stdout=file, check=True)
    return old, new


def measure(words, paths, rounds):
    """For each path the least seconds after reading, and of the whole run. Ends the script where the answers differ."""
    least, answers = {}, set()
    for _ in range(rounds):
        for path in paths:
            with open(path, 'rb') as file:
                _, after = after_reading(words, file.read())
            whole, answer = over_file(words, path)
            answers.add(answer)
            was = least.get(path, (after, whole))
            least[path] = min(after, was[0]), min(whole, was[1])
    if len(answers) != 1:
        sys.exit(f'{words}: the answers differ')
    return [least[path] for path in paths]


def main(events, rounds, kinds):
    spprof = os.environ.get('SPPROF', BUILT)
    print(ROW % ('kind', 'command', 'v1 after s', 'v2 after s', 'v1 whole', 'v2 whole'))
    with tempfile.TemporaryDirectory() as folder:
        for kind in kinds:
            paths = made(spprof, kind, events, folder)
            sizes = [os.path.getsize(path) for path in paths]
            print(f'{kind}: {sizes[0]} and {sizes[1]} bytes, {sizes[0] / sizes[1]:.1f} times as many', flush=True)
            for command in COMMANDS:
                old, new = measure([spprof, *command], paths, rounds)
                print(ROW % (kind, *command, *(f'{seconds:.3f}' for seconds in (old[0], new[0], old[1], new[1]))), flush=True)
            for path in paths:
                os.remove(path)


if __name__ == '__main__':
    if len(sys.argv) < 4:
        sys.exit(__doc__)
    main(sys.argv[1], int(sys.argv[2]), sys.argv[3:])
