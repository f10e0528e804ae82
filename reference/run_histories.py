#!/usr/bin/env python3
"""Runs histories through console and through the reference, and compares every answer.

    run_histories.py PROGRAM [COUNT] [FIRST_SEED]

COUNT histories (10,000 where none is given), one for each seed from FIRST_SEED (1) on, each a script
of its own. For a history that differs the first difference is told: the seed, the sort, the line and
what each of the two said. The status is 1 if there is any, or if the program ends with a status other
than 0, writes to standard error or does not end.
"""
import multiprocessing
import os
import shutil
import subprocess
import sys

import console
import histories

MOST_SECONDS = 120
MOST_TOLD = 20
MOST_SHOWN = 200


def shown(text):
    """Bytes or an answer, short enough to read."""
    if text is None:
        return 'nothing'
    if isinstance(text, bytes):
        text = ascii(text.decode('latin-1'))[1:-1]
    return text if len(text) <= MOST_SHOWN else '%s.. (%d signs)' % (text[:MOST_SHOWN], len(text))


def compare(expected, out):
    """How many answers agree, and the first difference as text, or None. `expected` has the number,
    the line and the answer for each line that answers; `out` is what the program printed."""
    printed = out.split(b'\n')
    whole = printed.pop() == b''
    agreed = 0
    difference = None
    for at, (number, line, answer) in enumerate(expected):
        said = printed[at] if at < len(printed) else None
        if said == answer.encode('ascii'):
            agreed += 1
        elif difference is None:
            difference = 'line %d: %s\n  reference: %s\n  program:   %s' % (number, shown(line), shown(answer), shown(said))
    if difference is None and len(printed) > len(expected):
        difference = 'past the last answer\n  reference: nothing\n  program:   %s' % shown(printed[len(expected)])
    if difference is None and not whole:
        difference = 'past the last answer\n  reference: nothing\n  program:   bytes without a line feed'
    return agreed, difference


def run(task):
    """One history: how many answers there are, how many agree, and what is wrong, or None."""
    program, seed = task
    sort = histories.sort_of(seed)
    script = histories.script(seed, sort)
    expected = list(console.answered(script))
    where = 'seed %d, %s, ' % (seed, sort)
    try:
        done = subprocess.run([program], input=script, capture_output=True, timeout=MOST_SECONDS)
    except subprocess.TimeoutExpired:
        return len(expected), 0, where + 'the program did not end in %d seconds' % MOST_SECONDS
    agreed, difference = compare(expected, done.stdout)
    wrong = [] if difference is None else [difference]
    if done.returncode:
        wrong.append('the program ended with status %d' % done.returncode)
    if done.stderr:
        wrong.append('the program wrote to standard error: %s' % shown(done.stderr))
    return len(expected), agreed, where + '\n  '.join(wrong) if wrong else None


def main():
    arguments = sys.argv[1:]
    if not 1 <= len(arguments) <= 3 or not all(argument.isdecimal() for argument in arguments[1:]):
        sys.exit(__doc__)
    program = shutil.which(arguments[0])
    if program is None:
        sys.exit('no such program: %s' % arguments[0])
    count = int(arguments[1]) if len(arguments) > 1 else 10000
    first = int(arguments[2]) if len(arguments) > 2 else 1
    answers = agreed = differing = 0
    tasks = ((os.path.abspath(program), seed) for seed in range(first, first + count))
    with multiprocessing.Pool(os.cpu_count()) as pool:
        for said, same, wrong in pool.imap(run, tasks, chunksize=10):
            answers += said
            agreed += same
            if wrong is not None:
                differing += 1
                if differing <= MOST_TOLD:
                    print(wrong, flush=True)
    if differing:
        print('%d histories differ' % differing + (', the first %d are told' % MOST_TOLD if differing > MOST_TOLD else ''))
    print('%d histories, %d answers, %d agreed' % (count, answers, agreed))
    sys.exit(1 if differing else 0)


if __name__ == '__main__':
    main()
