"""Times two programs on one trace by turns; see `plain`.

measure.py KIND TRACE ROUNDS SPPROF PLAIN WORD.. prints the rows of one kind, after
ROUNDS runs of `SPPROF WORD.. < TRACE` and of `PLAIN WORD.. < TRACE`. Both must print
the same and end with status 0. `measure.py` alone prints the head of the table."""
import hashlib
import os
import signal
import statistics
import subprocess
import sys
import tempfile
import time

ROW = '%-8s %9s  %-7s %8s %8s %8s %9s %10s'


def settle(path):
    """Waits until the file is on disk and reads it once, so that it's in the cache of
    the system and nothing is left to write while the programs run."""
    with open(path, 'rb', buffering=0) as file:
        os.fsync(file.fileno())
        block = bytearray(1 << 20)
        while file.readinto(block):
            pass


def measured(words, path):
    """One run: (its seconds, its peak memory in bytes), (status, output, messages). A long output is cut, and ends
    with its length and its digest."""
    with open(path, 'rb') as trace, tempfile.TemporaryFile() as out, \
            tempfile.TemporaryFile() as messages:
        start = time.perf_counter()
        child = subprocess.Popen(words, stdin=trace, stdout=out, stderr=messages)
        _, status, usage = os.wait4(child.pid, 0)
        seconds = time.perf_counter() - start
        child.returncode = os.waitstatus_to_exitcode(status)
        out.seek(0)
        messages.seek(0)
        answer = out.read()
        if len(answer) > 100:
            answer = answer[:20] + b'.. %d %s' % (len(answer), hashlib.sha256(answer).hexdigest().encode())
        return (seconds, 1024 * usage.ru_maxrss), (child.returncode, answer, messages.read())


def stop(kind, what, programs, answers):
    lines = ['%s: %s' % (kind, what)]
    for program, answer in zip(programs, answers):
        if answer:
            lines.append('  %s: status %d, output %.200r, messages %.200r' % ((program,) + answer))
    sys.exit('\n'.join(lines))


def main(kind, path, rounds, spprof, plain, words):
    programs, runs, answers = (spprof, plain), ([], []), [None, None]
    settle(path)
    for turn in range(2 * rounds):
        # the programs go first by turns too: 0 1, 1 0, 0 1, ...
        which = (turn + turn // 2) % 2
        run, answer = measured([programs[which]] + words, path)
        runs[which].append(run)
        if answers[which] not in (None, answer):
            stop(kind, 'an answer changed', programs[which:which + 1] * 2, [answers[which], answer])
        answers[which] = answer
        if answer[0] != 0:
            stop(kind, 'a run failed', programs, answers)
        if None not in answers and answers[0] != answers[1]:
            stop(kind, 'the answers differ', programs, answers)
        print('%s: round %d, %s: %.3f s' % (kind, turn // 2 + 1, ('spprof', 'plain')[which], run[0]), file=sys.stderr)

    size = os.path.getsize(path)
    first, times = (kind, '%.1f' % (size / 1e6)), []
    for name, own in zip(('spprof', 'plain'), runs):
        seconds, peak = [run[0] for run in own], max(run[1] for run in own)
        times.append((min(seconds), statistics.median(seconds)))
        print(ROW % (first + (name, '%.3f' % times[-1][0], '%.3f' % times[-1][1], '%.0f' % (size / 1e6 / times[-1][0]),
                              '%.1f' % (peak / 1e6), '%.3f' % (peak / size))))
        first = ('', '')
    ratios = tuple('%.3f' % (a / b) for a, b in zip(*times))
    print((ROW % (first + ('ratio',) + ratios + ('', '', ''))).rstrip())


if __name__ == '__main__':
    signal.signal(signal.SIGINT, signal.SIG_DFL)
    if len(sys.argv) == 1:
        print(ROW % ('kind', 'file MB', 'program', 'least s', 'median s', 'MB/s', 'peak MB', 'peak/file'))
    else:
        main(sys.argv[1], sys.argv[2], int(sys.argv[3]), sys.argv[4], sys.argv[5], sys.argv[6:])
