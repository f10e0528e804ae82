#!/usr/bin/env python3
"""Brings the definitions and lemmas of this repository to the spelling of today's Rattle: types, facts and
modules in camel case, all else in snake case, and a dash only between two names.

usage: python3 tools/spell_names.py     at the top of a checkout, once, right after the kit's own port.py

tools/spelled.txt has a line for each name: the old one and the new one. In .antt files, in clauses of .rt files
and in refused edits each standing of an old name is turned; in pages only what stands between backticks.
Comments and strings of .rt files stay, since there a dash is a dash.
"""
import pathlib
import re

TOKEN = re.compile(r"[^\s(){}\[\],;.`\"|]+")
STRING_OR_COMMENT = re.compile(r'"(?:[^"\\\n]|\\.)*"|//[^\n]*')
BACKTICKS = re.compile(r"`[^`\n]+`")


def table(root):
    text = (root / "tools" / "spelled.txt").read_text(encoding="utf-8")
    return dict(line.split() for line in text.splitlines())


def spelled(text, names):
    return TOKEN.sub(lambda m: names.get(m.group(0), m.group(0)), text)


def spelled_source(text, names):
    """The text of a source file, its strings and comments as they were."""
    out, at = [], 0
    for m in STRING_OR_COMMENT.finditer(text):
        out += [spelled(text[at:m.start()], names), m.group(0)]
        at = m.end()
    return "".join(out + [spelled(text[at:], names)])


def spelled_page(text, names):
    return BACKTICKS.sub(lambda m: spelled(m.group(0), names), text)


def files(root):
    for pattern, turn in [("crates/*/src/**/*.rt", spelled_source), ("crates/*/specs/**/*.antt", spelled),
                          ("crates/*/proofs/**/*.antt", spelled), ("crates/*/must-fail/*.edit", spelled),
                          ("refused/*/*.edit", spelled), ("docs/*.md", spelled_page), ("README.md", spelled_page)]:
        for path in sorted(root.glob(pattern)):
            yield path, turn


def main():
    root = pathlib.Path(".")
    names = table(root)
    for path, turn in files(root):
        before = path.read_text(encoding="utf-8")
        after = turn(before, names)
        if after != before:
            path.write_text(after, encoding="utf-8")


main()
