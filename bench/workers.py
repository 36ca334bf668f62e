#!/usr/bin/env python3
"""Times `figures` and `profile` by one worker and by many, by turns; see README.md.

usage: bench/workers.py EVENTS ROUNDS KIND..

The program is that of the variable SPPROF, or the one that was built last. Where the variable OTHER names another
program that takes the same words, it's timed too, with 4 workers; it need not print the same. `bench/plain` compiles the
program that makes the traces."""
import fcntl
import os
import subprocess
import sys
import tempfile
import time

HERE = os.path.dirname(os.path.realpath(__file__))
BUILT = os.path.join(os.path.dirname(HERE), 'crates/spprof/out/spprof')
ROW = '%-7s %-7s %-20s %9s %9s %9s'

# name, parts, workers
WAYS = [('1 worker, 1 part', 1, 1), ('1 worker, 16 parts', 16, 1), ('2 workers, 16 parts', 16, 2), ('4 workers, 16 parts', 16, 4)]


def over_file(words, path):
    """The seconds of a run over the file, and its answer."""
    with open(path, 'rb') as trace, tempfile.TemporaryFile() as out:
        start = time.perf_counter()
        subprocess.run(words, stdin=trace, stdout=out, check=True)
        seconds = time.perf_counter() - start
        out.seek(0)
        return seconds, out.read()


def after_reading(words, trace):
    """The seconds from when the last bytes of the trace went into a pipe, which holds 64 KB, to the first of the answer, and
    to the end of the run."""
    child = subprocess.Popen(words, stdin=subprocess.PIPE, stdout=subprocess.PIPE, bufsize=0)
    fcntl.fcntl(child.stdin, fcntl.F_SETPIPE_SZ, 1 << 16)
    fcntl.fcntl(child.stdout, fcntl.F_SETPIPE_SZ, 1 << 20)
    view = memoryview(trace)
    for at in range(0, len(trace), 1 << 20):
        block = view[at:at + (1 << 20)]
        while block:
            block = block[child.stdin.write(block):]
    written = time.perf_counter()
    child.stdin.close()
    child.stdout.read(1)
    answered = time.perf_counter()
    while child.stdout.read(1 << 20):
        pass
    if child.wait() != 0:
        sys.exit('%s: status %d' % (' '.join(words), child.returncode))
    return answered - written, time.perf_counter() - written


def measure(kind, path, rounds, command, ways):
    """The least seconds after reading, to the answer and to the end, and those of the whole run, of each way."""
    with open(path, 'rb') as file:
        trace = file.read()
    least, answers = {}, set()
    for _ in range(rounds):
        for name, words, ours in ways:
            answered, ended = after_reading(words, trace)
            whole, answer = over_file(words, path)
            if ours:
                answers.add(answer)
            now = (answered, ended, whole)
            least[name] = tuple(map(min, now, least.get(name, now)))
    if len(answers) != 1:
        sys.exit('%s: the answers of %s differ' % (kind, command))
    for name, _, _ in ways:
        print(ROW % (kind, command, name, *('%.3f' % seconds for seconds in least[name])), flush=True)
    return least


def ratios(kind, command, least):
    one, many = least[WAYS[0][0]], least[WAYS[3][0]]
    line = '1 worker / 4 workers: to the answer %.2f, to the end %.2f; 16 parts / 1 part %.2f' % (
        one[0] / many[0], one[1] / many[1], least[WAYS[1][0]][1] / one[1])
    if 'another program' in least:
        line += '; ours / the other: %.2f, %.2f, whole %.2f' % tuple(a / b for a, b in zip(many, least['another program']))
    print('%-7s %-7s %s' % (kind, command, line), flush=True)


def main(events, rounds, kinds):
    spprof, other = os.environ.get('SPPROF', BUILT), os.environ.get('OTHER')
    print(ROW % ('kind', 'command', 'way', 'answer s', 'end s', 'whole s'))
    with tempfile.TemporaryDirectory() as folder:
        for kind in kinds:
            path = os.path.join(folder, kind)
            with open(path, 'wb') as file:
                subprocess.run([os.path.join(HERE, 'out/generate'), kind, events], stdout=file, check=True)
            for command in ('figures', 'profile'):
                ways = [(name, [spprof, command, '--parts', str(parts), '--workers', str(workers)], True) for name, parts, workers in WAYS]
                if other:
                    ways.append(('another program', [other, command, '--workers', '4'], False))
                ratios(kind, command, measure(kind, path, rounds, command, ways))
            os.remove(path)


if __name__ == '__main__':
    if len(sys.argv) < 4:
        sys.exit(__doc__)
    main(sys.argv[1], int(sys.argv[2]), sys.argv[3:])
