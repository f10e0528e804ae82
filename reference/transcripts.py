#!/usr/bin/env python3
"""The transcripts in docs/ are what the console prints: in an indented block, lines that begin with
`> ` are commands, and the lines after each are its answer. Prints how many answers there are.
"""
import glob
import re
import sys

from console import answers


def transcripts(text):
    """The blocks of a page that hold commands, as lists of lines."""
    for block in re.findall(r'(?:^    .*\n)+', text, re.M):
        lines = [line[4:] for line in block.splitlines()]
        if lines[0].startswith('> '):
            yield lines


def main():
    count = 0
    for page in sorted(glob.glob('docs/*.md')):
        for lines in transcripts(open(page, encoding='utf-8').read()):
            script = ''.join(line[2:] + '\n' for line in lines if line.startswith('> '))
            printed = ''.join(line + '\n' for line in lines if not line.startswith('> '))
            expected = answers(script.encode()).decode()
            if printed != expected:
                sys.exit('%s: the transcript that begins %r should answer\n%s' % (page, lines[0], expected))
            count += printed.count('\n')
    print('reference: %d answers in the transcripts of docs/ are what the reference prints' % count)


if __name__ == '__main__':
    main()
