#!/usr/bin/env python3
"""endings.py [PROGRAM ..]

Runs the built `bitrun` on good inputs and on each fault of an input, a reader or a writer, each with an output that is open, full, closed, or
read by nobody. It compares the output and the status with a table, and checks that standard error is empty. It also runs some inputs with
more and more memory: the program must print the fault of memory until there is enough, and then the output. PROGRAM is by default what
`bitrun.sh` builds.
"""
import os
import resource
import subprocess
import sys
from itertools import dropwhile, groupby

from program import programs

GOOD = b'run u7\n100 50 0\nwadd 2 0 1\ncadd 0 0 1\n'
ANSWER = b'100 50 22\nstopped at 1: refused\n'
BAD = b'run u7\n100 50 0\nwadd 2 0 1\nwadd 3 0 1\n'
LONG = b'run u7\n1\n' + 65528 * b'\n'


def late(good):
    """6,000 steps, with the first bad one after `good` good ones."""
    return b'run u7\n1 2\n' + good * b'not 0 1\n' + b'not 0 2\n' + (5999 - good) * b'not 0 1\n'


# What holds of standard input, the input, what is printed, and the status.
ROWS = [
    ('open', GOOD, ANSWER, 0),
    ('open', b'run u7\n\n', b'\ndone\n', 0),
    ('open', b'run i7\n-64 0\nwdiv 0 0 1', b'-64 0\nstopped at 0: zero divisor\n', 0),
    ('open', LONG[:-1], b'1\ndone\n', 0),
    ('open', b'run u7\n1 1\n' + 5956 * b'wadd 0 0 1\n', b'69 1\ndone\n', 0),
    ('open', b'run u7\n' + 32764 * b'1 ', 32763 * b'1 ' + b'1\ndone\n', 0),
    ('open', b'', b'fault: line 1\n', 2),
    ('open', b'run u7\n128\n', b'fault: line 2\n', 2),
    ('open', BAD, b'fault: line 4\n', 2),
    ('open', LONG, b'fault: too long\n', 2),
    ('open', 65537 * b'x', b'fault: too long\n', 2),
    ('a folder', b'', b'fault: read\n', 4),
    ('closed', b'', b'fault: read\n', 4),
    # the first bad line is the 5,000th, comes behind each growth of the list of steps, and is the last of a full input
    *[('open', late(good), b'fault: line %d\n' % (good + 3), 2) for good in (4997, 16, 17, 64, 65, 1024, 1025, 4096, 4097)],
    ('open', b'run u7\n1 2\n' + 6 * b'\n' + 8189 * b'not 0 1\n' + b'not 0 2', b'fault: line 8198\n', 2),
]
# The sizes of memory that are tried, in bytes, and the inputs: a short one, many steps, and many registers.
SIZES = range(0, 1 << 21, 1 << 14)
LIMITED = [0, 4, 5]
REFUSED = b'fault: memory\n', 3, b''
# With less memory the program does not start, and the loader reports that or is killed.
NOT_STARTED = [127, -9, -11]
# What else may hold of standard output. Nothing is printed then; the status is the fault's, or where all else is well 5.
OUTPUTS = ['full', 'closed', 'unread']


def ending(program, source, data, sink='open'):
    """What is printed, the status, and the text on standard error."""
    inward, feed = os.pipe()
    take, outward = os.pipe()
    if source == 'a folder':
        os.dup2(os.open('/', os.O_RDONLY), inward)
    if sink == 'full':
        os.dup2(os.open('/dev/full', os.O_WRONLY), outward)
    closed = [number for number, state in enumerate([source, sink]) if state == 'closed']
    if sink == 'unread':
        os.close(take)
    process = subprocess.Popen(
        [program], stdin=inward, stdout=outward, stderr=subprocess.PIPE,
        preexec_fn=lambda: [os.close(number) for number in closed])
    os.close(inward)
    os.close(outward)
    try:
        with open(feed, 'wb') as file:
            file.write(data)
    except BrokenPipeError:
        # it had read enough
        pass
    printed = b''
    if sink != 'unread':
        with open(take, 'rb') as file:
            printed = file.read()
    error = process.stderr.read()
    return printed, process.wait(), error


def with_memory(program, data, size):
    """What is printed, the status, and the text on standard error, where the program has at most that many bytes of data."""
    done = subprocess.run(
        [program], input=data, capture_output=True, preexec_fn=lambda: resource.setrlimit(resource.RLIMIT_DATA, (size, size)))
    return done.stdout, done.returncode, done.stderr


def main():
    rows = [(source, data, 'open', (printed, status, b'')) for source, data, printed, status in ROWS]
    rows += [(source, data, sink, (b'', status or 5, b'')) for source, data, _, status in ROWS for sink in OUTPUTS]
    failed = 0
    for program in programs(sys.argv[1:]):
        for source, data, sink, wanted in rows:
            found = ending(program, source, data, sink)
            if found != wanted:
                failed += 1
                print(f'{program}: on {data[:60]}, with input {source} and output {sink}: {found}, should be {wanted}')
        for _, data, printed, status in map(ROWS.__getitem__, LIMITED):
            endings = (with_memory(program, data, size) for size in SIZES)
            found = [it for it, _ in groupby(dropwhile(lambda it: it[1] in NOT_STARTED, endings))]
            wanted = [REFUSED, (printed, status, b'')]
            if found != wanted:
                failed += 1
                print(f'{program}: on {data[:60]}, with more and more memory: {found}, should be {wanted}')
        print(f'{program}: {len(rows)} endings tried, and {len(LIMITED)} inputs with {len(SIZES)} sizes of memory')
    return 1 if failed else 0


if __name__ == '__main__':
    sys.exit(main())
