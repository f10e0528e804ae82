#!/usr/bin/env python3
"""Times readout and the reference program on one input: a profile of 15,000 readings and a journal of 250 pieces."""
import os
import resource
import subprocess
import sys
import tempfile
import time

import vectors

ROOT = os.path.dirname(os.path.dirname(os.path.abspath(__file__)))


def timed(command, path):
    start = time.monotonic()
    with open(path, 'rb') as source:
        out = subprocess.run(command, stdin=source, stdout=subprocess.PIPE, check=True).stdout
    return time.monotonic() - start, out


def main():
    # 125 entries inside kept pieces: 251 pieces; the first one at place 0, so 250
    entries = [vectors.record(0, 0, [vectors.word(7)])] + [vectors.record(100 * k, 0, [vectors.word(7)]) for k in range(1, 125)]
    data = vectors.profile([k % 4000 for k in range(15000)]) + vectors.batch(*entries)
    with tempfile.NamedTemporaryFile() as file:
        file.write(data)
        file.flush()
        ours, out = timed([os.path.join(ROOT, 'target/bin/readout')], file.name)
        peak = resource.getrusage(resource.RUSAGE_CHILDREN).ru_maxrss
        theirs, expected = timed([sys.executable, os.path.join(ROOT, 'reference/readout.py')], file.name)
    if out != expected:
        sys.exit('the listings differ')
    print('%d bytes in, %d lines out, the same from both' % (len(data), out.count(b'\n')))
    print('readout   %.3f s, %.1f MiB resident' % (ours, peak / 1024))
    print('reference %.3f s' % theirs)
    print('ratio     %.2f' % (ours / theirs))


if __name__ == '__main__':
    main()
