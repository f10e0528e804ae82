#!/usr/bin/env python3
"""Lists the places in crates/*/src that an older form of the language may have left, by point of docs/DESIGN-PASS.md.

usage: python3 tools/places.py [-c]     at the top of a checkout; -c prints the counts alone

A line is a place to look at, and no verdict. An older commit is counted in a worktree of its own:
git worktree add /tmp/then COMMIT, and then this script from there.
"""
import collections
import pathlib
import re
import sys

SOURCE = sorted(p for p in pathlib.Path("crates").glob("*/src/**/*.rt") if "trials" not in p.parts)

# A line of these is a place: the pattern, and what it finds.
LINES = {
    1: [(r"-> Result<\(.*, bool\)", "a value, and a flag that tells of it"),
        (r"^ +\w+: bool,$|\((\w+: \S+, )*stands: bool|, stands: bool", "a flag beside what it tells of"),
        (r"\b(cause|number): u8\b|number: u8,$", "a number for a kind or a refusal"),
        (r"^    NoCheck,$", "a case for what is not there"),
        (r"\b(Ok|Some)\((\w+)\) => (Ok|Some)\(\2\)|Err\((\w+)\) => Err\(\4\)", "an answer handed on by hand"),
        (r"^pub fn \w+(<.*>)?\(\) -> u8$", "an answer that means nothing")],
    3: [(r"\bfor \w+ in 0\.\.", "a loop over numbers"),
        (r"\.enumerate\(\)", "a loop with its number"),
        (r"^ +loop\b", "a loop that ends by a flag"),
        (r"^ +(self\.)?(at|left|total|accepted|next) (\+=|-=) |\bend = put\(", "a count or an offset kept by hand"),
        (r"^ +return (false|Some\(\*verb\));$", "a search by hand"),
        (r"\.push\(\w+::\w+\(\*\w+\)\)\?;$", "a list made item by item")],
    4: [(r"^impl.* (PartialEq|Eq|PartialOrd|Ord|Clone|Copy|Debug|Hash) for ", "a derive by hand"),
        (r"^ +\w+::\w+ => \d+,$", "a number for each case by hand"),
        (r"struct \w*(Text|Answer|Refused)\b", "a type that only prints another"),
        (r"-> &'static str( \{)?$", "words for a value by a function"),
        (r"^ +let (amount|status|cause|tag|place|number|first|count|struck) = (self|\w+)(\.\w+)*\.\1;$", "a field named for a text"),
        (r"from_be_bytes\(\[\*?\w+(\[\d\])?, ", "bytes put together one by one"),
        (r"^    fn hex_digit\(|^fn (hex_digit|digit)\(", "digits by hand"),
        (r"^ +(Ok|Err)\(\w+\) => \{$|^ +let answer = \w+Text\(", "an answer printed case by case")],
    6: [(r"^    (pub(\(\w+\))? )?(used|next|at): u(size|32),", "a count or a number beside what it counts"),
        (r": \[\(", "a table searched by hand")],
    7: [(r"\b(stands|keep): bool", "a switch on what to do")],
}


def functions(text):
    """The functions of a file: the line, the name, the head and the body."""
    for m in re.finditer(r"^( *)(?:pub(?:\(\w+\))? )?fn (\w+)", text, re.M):
        end = text.find(f"\n{m.group(1)}}}", m.end())
        start = text.find(f"\n{m.group(1)}{{\n", m.end())
        brace = text.find("{\n", m.end())
        body = start if 0 <= start < end else brace
        if 0 <= body < end:
            yield text.count("\n", 0, m.start()) + 1, m.group(2), text[m.start():body], text[body:end]


def shape(body):
    """A body without its names, numbers and strings."""
    body = re.sub(r"//.*", "", body)
    body = re.sub(r'b?"(?:[^"\\]|\\.)*"', "S", body)
    body = re.sub(r"\b\d[\w.]*\b", "N", body)
    keep = {"if", "else", "match", "for", "in", "let", "mut", "return", "Ok", "Err", "Some", "None", "S", "N", "while", "loop"}
    return re.sub(r"\b\w+\b", lambda m: m.group(0) if m.group(0) in keep else "x", " ".join(body.split()))


def twins():
    by_shape = collections.defaultdict(list)
    for path in SOURCE:
        for line, name, _, body in functions(path.read_text(encoding="utf-8")):
            s = shape(body)
            if len(s) >= 18:
                by_shape[s].append(f"{path}:{line} {name}")
    groups = [sorted(places) for places in by_shape.values() if len(places) > 1]
    consts = collections.defaultdict(list)
    for path in SOURCE:
        for i, text in enumerate(path.read_text(encoding="utf-8").splitlines(), 1):
            m = re.search(r"const (\w+): \w+ = (\d{3,});", text)
            if m:
                consts[m.group(2)].append(f"{path}:{i} {m.group(1)}")
    groups += [places for places in consts.values() if len(places) > 1]
    return [", ".join(g) for g in sorted(groups)]


def clauses():
    """Facts that stand in three functions or more, but for the names of the arguments."""
    found = collections.defaultdict(set)
    for path in SOURCE:
        for line, name, head, _ in functions(path.read_text(encoding="utf-8")):
            for m in re.finditer(r"^ +(requires|ensures \w*(?:before|follows|same|continues)|requires \w+) \{ (.*) \}$", head, re.M):
                fact = re.sub(r"\b(self|draft|journal|out|bottom|base|\w+)\.(now|old|new|entry|exit)\b", r"_.\2", m.group(2))
                if m.group(1).startswith("requires") or "old" in fact:
                    found[fact].add(f"{path}:{line} {name}")
    return [f"{fact}: {', '.join(sorted(at))}" for fact, at in sorted(found.items()) if len(at) >= 3 and "is_err" not in fact]


def lines(point):
    for path in SOURCE:
        for i, text in enumerate(path.read_text(encoding="utf-8").splitlines(), 1):
            if text.lstrip().startswith(("//", "ensures", "requires", "ghost")):
                continue
            for pattern, what in LINES[point]:
                if re.search(pattern, text):
                    yield f"{path}:{i} {text.strip()}   ({what})"
                    break


def main():
    for point in range(1, 8):
        found = twins() if point == 2 else clauses() if point == 5 else list(lines(point))
        print(f"point {point}: {len(found)}")
        if "-c" not in sys.argv:
            for place in found:
                print("  " + place)


main()
