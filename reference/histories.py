#!/usr/bin/env python3
"""Scripts for console, made at random from a seed: the same seed gives the same bytes.

    histories.py SORT SEED              the script of this sort and seed
    histories.py --gate                 one script with histories of every sort in a row
    histories.py --sorts                the names of the sorts

A history is a script in the making, with the reference console beside it that has run all of its
lines: so the lengths are known, most corrections are accepted, and refusals are meant. Each sort is
a function that adds lines to a history. Standard library only.
"""
import random
import sys

import vectors
from console import MOST_IN_LINE, Console
from readout import MOST_PIECES, MOST_PLACES, MOST_WORDS

BITS32 = 2 ** 32 - 1
BITS64 = 2 ** 64 - 1
LIMITS = (0, 1, 99, 20000, 2 ** 31 - 2, 2 ** 31 - 1, 2 ** 31, BITS32)

# The series that are asked for whole; longer ones are asked place by place.
MOST_FLATTENED = 300


class History:
    def __init__(self):
        self.rng = random.Random(0)
        self.console = Console()
        self.lines = []
        self.ended = True

    def line(self, line):
        """Adds a line, given as bytes, and answers what the console says to it."""
        self.lines.append(line)
        return self.console.answer(line, len(self.lines))

    def say(self, *fields):
        return self.line(' '.join(str(field) for field in fields).encode('ascii'))

    def length(self, j):
        return len(self.console.journals[j].origins)

    def words_in_use(self, j):
        return len(self.console.journals[j].words)

    def script(self):
        """The lines so far; where the history is not ended, the last one has no line feed."""
        data = b''.join(line + b'\n' for line in self.lines)
        return data if self.ended else data[:-1]


# Numbers, words and bytes.

def some_amount(rng):
    limit = rng.choice(LIMITS)
    amount = rng.choice([limit - 1, limit, limit + 1, -limit, -limit - 1, rng.randrange(4000), rng.randrange(-2 ** 31, 2 ** 31)])
    return max(-2 ** 31, min(2 ** 31 - 1, amount))


def some_word(rng):
    roll = rng.random()
    if roll < 0.5:
        return rng.randrange(100)
    if roll < 0.9:
        return vectors.word(some_amount(rng), rng.choice([0, 1, 255, rng.randrange(256)]), rng.choice([0, 0, 1, rng.randrange(2 ** 24)]))
    return rng.choice([0, 2 ** 31 - 1, 2 ** 31, BITS32, 2 ** 32, 2 ** 40 - 1, 2 ** 40, 2 ** 63, BITS64])


def some_words(rng, most=4):
    return [some_word(rng) for _ in range(rng.randrange(most + 1))]


def short_words(rng, count):
    """Many words that do not make long lines."""
    return [rng.randrange(10) for _ in range(count)]


def some_tag(rng):
    return rng.choice([0, 1, 2, 3, 254, 255, rng.randrange(256)])


def some_length(rng):
    return rng.choice([1, 2, 3, 7, 8, 9, 10, 16, rng.randrange(1, 40), rng.randrange(1, 40)])


def some_profile(rng, length, chance=0.8):
    return vectors.profile([some_amount(rng) if rng.random() < chance else None for _ in range(length)])


def hexed(rng, data):
    """Bytes as an argument, in hex digits of either case or of both."""
    if not data:
        return '-'
    text = data.hex()
    return rng.choice([text, text, text.upper(), ''.join(rng.choice([digit, digit.upper()]) for digit in text)])


def some_bytes(rng, most):
    return bytes(rng.randrange(256) for _ in range(rng.randrange(most + 1)))


def some_place(h, j):
    """A place of a journal, at times its end or past it."""
    length = h.length(j)
    inside = [h.rng.randrange(length) for _ in range(4)] + [0, length - 1] if length else [0]
    return h.rng.choice(inside + [length, length + 1] if h.rng.random() < 0.3 else inside)


# Corrections: place, struck count, words.

def some_correction(rng, length):
    """One inside this length."""
    place = rng.choice([0, length, rng.randrange(length + 1), rng.randrange(length + 1)])
    room = length - place
    struck = min(room, rng.choice([0, 0, 1, 1, 2, 3, rng.randrange(room + 1) if rng.random() < 0.2 else 1]))
    return place, struck, some_words(rng)


def same_length(rng, length):
    """One that enters as many words as it strikes."""
    place = rng.randrange(length + 1)
    struck = min(length - place, rng.randrange(4))
    return place, struck, [some_word(rng) for _ in range(struck)]


def wrong_place(rng, length):
    """One that is refused with 1, some by sums that would wrap in 32 bits."""
    place, struck = rng.choice([
        (length, 1), (length + 1, 0), (0, length + 1), (length // 2, length - length // 2 + 1), (BITS32, 1), (1, BITS32),
        (BITS32, 0), (0, BITS32), (BITS32, BITS32), (length + 1, BITS32 - length), (length, 2 ** 32 - length if length else 1)])
    return place, struck, some_words(rng, 2)


def say_correction(h, j, place, struck, words):
    """The correction as `enter` or `strike` where it is one, or as `replace`."""
    ways = ['replace'] + ['enter'] * 2 * (struck == 0) + ['strike'] * 2 * (not words)
    way = h.rng.choice(ways)
    if way == 'enter':
        return h.say('enter', j, place, *words)
    if way == 'strike':
        return h.say('strike', j, place, struck)
    return h.say('replace', j, place, struck, *words)


def correct(h, j):
    return say_correction(h, j, *some_correction(h.rng, h.length(j)))


def too_many_words(h, j):
    """A correction refused with 3, by one word or by more."""
    count = MOST_WORDS - h.words_in_use(j) + h.rng.choice([1, 1, 2, 10])
    return say_correction(h, j, h.rng.randrange(h.length(j) + 1), 0, short_words(h.rng, count))


def too_long(h, j):
    """A start or a bottom refused with 2."""
    length = h.rng.choice([MOST_PLACES + 1, MOST_PLACES + 1, MOST_PLACES + 2, 2 ** 31, BITS32])
    if h.rng.random() < 0.5:
        return h.say('start', j, length)
    return h.say('nominal', some_word(h.rng), length)


def refuse(h, j):
    roll = h.rng.random()
    if roll < 0.8:
        return say_correction(h, j, *wrong_place(h.rng, h.length(j)))
    return too_long(h, j) if roll < 0.92 else too_many_words(h, j)


def draft_text(corrections):
    return ' ; '.join(' '.join(str(field) for field in [place, struck] + words) for place, struck, words in corrections)


def records(corrections):
    return [vectors.record(*correction) for correction in corrections]


def in_a_row(rng, length, count):
    """Corrections that are accepted one after another, from this length on."""
    made = []
    for _ in range(count):
        made.append(some_correction(rng, length))
        length += len(made[-1][2]) - made[-1][1]
    return made


# Questions.

def ask(h, j, times=1):
    for _ in range(times):
        question = h.rng.choice(['pieces', 'words', 'length', 'fits', 'origin', 'origin', 'read', 'read', 'read', 'pile', 'pile', 'flatten', 'walk'])
        if question == 'origin':
            h.say('origin', j, some_place(h, j))
        elif question == 'read':
            h.say('read', j, some_tag(h.rng), some_place(h, j))
        elif question == 'pile':
            k = h.rng.randrange(4)
            h.say('pile', j, k, some_place(h, k))
        elif question != 'flatten':
            h.say(question, j)
        elif h.length(j) <= MOST_FLATTENED:
            h.say('flatten', j, some_tag(h.rng))


def ask_all(h, j):
    for question in ('pieces', 'words', 'length', 'fits', 'walk'):
        h.say(question, j)
    for place in sorted({0, h.length(j) // 2, max(h.length(j), 1) - 1, h.length(j)}):
        h.say('origin', j, place)
        h.say('read', j, some_tag(h.rng), place)
    if h.length(j) <= MOST_FLATTENED:
        h.say('flatten', j, some_tag(h.rng))


def ask_ends(h, j):
    """What is cheap to ask of a long series."""
    length = h.length(j)
    h.say('length', j)
    for place in (max(length, 1) - 1, length, h.rng.randrange(length + 1)):
        h.say('origin', j, place)
        h.say('read', j, some_tag(h.rng), place)
        h.say('pile', h.rng.randrange(4), j, place)


# The series beneath, and journals for it.

def some_bottom(h, length):
    kind = h.rng.choice(['register', 'nominal', 'profile', 'profile'])
    if kind == 'register':
        return h.say('register', *[some_word(h.rng) for _ in range(length)])
    if kind == 'nominal':
        return h.say('nominal', some_word(h.rng), length)
    return h.say('profile', hexed(h.rng, some_profile(h.rng, length, h.rng.choice([1, 1, 0.8, 0.3])) + some_bytes(h.rng, 3)))


def some_check(h):
    if h.rng.random() < 0.5:
        return h.say('check', some_tag(h.rng), h.rng.choice(LIMITS))
    return h.say('nocheck')


def lay_out(h):
    """A bottom, a check or none, and the four journals, most of them for its length."""
    length = some_length(h.rng)
    some_bottom(h, length)
    some_check(h)
    for j in range(4):
        h.say('start', j, length if h.rng.random() < 0.8 else some_length(h.rng))


# The sorts.

def corrections(h):
    """Corrections, and between them such as are refused."""
    lay_out(h)
    for _ in range(h.rng.randrange(10, 30)):
        j = h.rng.randrange(2)
        if h.rng.random() < 0.7:
            correct(h, j)
        else:
            refuse(h, j)
        ask(h, j, h.rng.randrange(1, 4))
    ask_all(h, 0)


def drafts(h):
    """Drafts kept and dropped, with refused corrections inside."""
    lay_out(h)
    for _ in range(h.rng.randrange(8, 20)):
        j = h.rng.randrange(2)
        made = []
        length = h.length(j)
        for _ in range(h.rng.randrange(1, 7)):
            roll = h.rng.random()
            if roll < 0.7:
                made.append(some_correction(h.rng, length))
                length += len(made[-1][2]) - made[-1][1]
            elif roll < 0.97:
                made.append(wrong_place(h.rng, length))
            else:
                made.append((0, 0, short_words(h.rng, MOST_WORDS + 1)))
        h.say('draft', j, h.rng.choice(['keep', 'drop']), draft_text(made))
        ask(h, j, h.rng.randrange(1, 5))
        if h.rng.random() < 0.3:
            correct(h, j)
    ask_all(h, 0)
    ask_all(h, 1)


BAD_RECORDS = (
    bytes([8]), bytes([255]), bytes([9, 0, 0, 0, 1]), bytes([11, 0, 0, 0, 0, 0]), bytes([1, 0, 0, 0, 0]), bytes([2, 0, 0, 0, 0]),
    bytes([4, 0, 0]), bytes([3, 0, 0, 0, 0, 0]), bytes([3, 0, 0, 0, 1, 0, 0, 0, 0]), bytes([4, 4, 1]), bytes([4, 4, 0]),
    bytes([4, 255, 255]), bytes([7, 0, 0, 0, 1, 0, 0, 0, 1, 0, 0]), bytes([7, 0, 0, 0, 1, 0, 0, 0, 1, 4, 1]))


def damaged_batch(h, j):
    """The bytes of a batch that is refused, or that may be."""
    rng = h.rng
    made = records(in_a_row(rng, h.length(j), rng.randrange(1, 6)))
    good = vectors.batch(*made)
    at = rng.randrange(len(made) + 1)
    damage = rng.randrange(8)
    if damage == 0:
        return good[:rng.randrange(len(good))]
    if damage == 1:
        return good + bytes(rng.randrange(256) for _ in range(rng.randrange(1, 5)))
    if damage == 2:
        data = bytearray(good)
        for _ in range(rng.randrange(1, 4)):
            data[rng.randrange(len(data))] ^= 1 << rng.randrange(8)
        return bytes(data)
    if damage == 3:
        return vectors.batch(*made, count=len(made) + rng.choice([-1, 1, 2]))
    if damage == 4:
        return vectors.batch(*made[:at], vectors.record(*wrong_place(rng, h.length(j) + 100)), *made[at:])
    if damage == 5:
        return vectors.batch(*made[:at], vectors.record(0, 0, short_words(rng, MOST_WORDS)), vectors.record(0, 0, [1]))
    return vectors.batch(*made[:at], rng.choice(BAD_RECORDS), *made[at:])


def batches(h):
    """Batches of bytes: good, damaged, cut and over-long."""
    lay_out(h)
    for data in (b'', b'\0', b'\0\0', b'\0\0\0', b'\0\1', b'\0\1\0'):
        h.say('batch', 2, hexed(h.rng, data))
    for _ in range(h.rng.randrange(12, 30)):
        j = h.rng.randrange(2)
        if h.rng.random() < 0.4:
            data = vectors.batch(*records(in_a_row(h.rng, h.length(j), h.rng.randrange(6))))
        else:
            data = damaged_batch(h, j)
        h.say('batch', j, hexed(h.rng, data))
        ask(h, j, h.rng.randrange(1, 4))
    h.say('batch', 0, hexed(h.rng, vectors.batch(*[b'\0'] * h.rng.randrange(200, 400))))
    ask_all(h, 0)
    ask_all(h, 1)


def tidyings(h):
    """Tidyings between corrections."""
    lay_out(h)
    for _ in range(h.rng.randrange(5, 12)):
        j = h.rng.randrange(2)
        for _ in range(h.rng.randrange(4)):
            correct(h, j)
        if h.rng.random() < 0.3:
            h.say('draft', j, h.rng.choice(['keep', 'drop']), draft_text(in_a_row(h.rng, h.length(j), 3)))
        place = some_place(h, j)
        questions = [('pieces', j), ('words', j), ('walk', j), ('origin', j, place), ('read', j, some_tag(h.rng), place), ('flatten', j, some_tag(h.rng))]
        for question in questions:
            h.say(*question)
        h.say('tidy', j)
        for question in questions:
            h.say(*question)
        if h.rng.random() < 0.3:
            refuse(h, j)
        if h.rng.random() < 0.2:
            h.say('tidy', j)
    ask_all(h, 0)
    ask_all(h, 1)


def same_pieces(h, j, count):
    for _ in range(count):
        say_correction(h, j, *same_length(h.rng, h.length(j)))


def fold_three(h):
    """Three neighbours, folded in either order."""
    for j in range(3):
        h.say('start', j, h.length(j - 1) if j else some_length(h.rng))
        for _ in range(h.rng.randrange(1, 5)):
            correct(h, j)
    h.say('fold', 0, 1, 3)
    h.say('fold', 3, 2, 3)
    h.say('pieces', 3)
    h.say('walk', 3)
    h.say('fold', 1, 2, 3)
    h.say('fold', 0, 3, 3)
    h.say('pieces', 3)
    h.say('walk', 3)


def fold_pair(h):
    """A lower and an upper journal, read as a pile and then as their fold; at times they do not fit."""
    lower, upper, third = h.rng.sample(range(4), 3)
    h.say('start', lower, some_length(h.rng))
    for _ in range(h.rng.randrange(5)):
        correct(h, lower)
    h.say('start', upper, h.length(lower) + h.rng.choice([0, 0, 0, 0, 1]))
    for _ in range(h.rng.randrange(5)):
        correct(h, upper)
    places = [some_place(h, upper) for _ in range(3)]
    for place in places:
        h.say('pile', lower, upper, place)
    h.say('fold', lower, upper, third)
    h.say('length', third)
    for place in places:
        h.say('origin', third, place)
        h.say('read', third, some_tag(h.rng), place)
    ask(h, third, 3)


def fold_same(h):
    """The same journal as two or three of the arguments: it keeps the length it was started for."""
    length = some_length(h.rng)
    h.say('start', 0, length)
    h.say('start', 1, length)
    same_pieces(h, 0, 3)
    same_pieces(h, 1, 2)
    for _ in range(4):
        lower, upper, third = h.rng.choice([(0, 0, 0), (0, 0, 1), (0, 1, 0), (0, 1, 1), (1, 0, 0), (1, 1, 1), (2, 2, 2), (0, 0, 2)])
        h.say('pile', lower, upper, some_place(h, upper))
        h.say('fold', lower, upper, third)
        h.say('pieces', third)
        h.say('words', third)
        if h.rng.random() < 0.3:
            same_pieces(h, third, 1)
    correct(h, 0)
    h.say('fold', 0, 0, 0)
    h.say('fold', 0, 0, 1)
    ask(h, 0, 2)


def fold_many_words(h):
    """Around 1,024 words in the outcome; struck ones do not count."""
    below = h.rng.randrange(300, 700)
    above = MOST_WORDS - below + h.rng.choice([0, 1, 2])
    h.say('start', 0, 10)
    h.say('enter', 0, 5, *short_words(h.rng, below))
    h.say('start', 1, h.length(0))
    place = h.rng.randrange(h.length(0) + 1)
    h.say('enter', 1, place, *short_words(h.rng, above))
    for _ in range(3):
        h.say('fold', 0, 1, 2)
        h.say('length', 2)
        h.say('pieces', 2)
        h.say('strike', 1, place + h.rng.randrange(above - 3), 1)
    h.say('enter', 2, 0, 1)


def fold_many_pieces(h):
    """Around 256 pieces in the outcome, the half of them or more from the lower journal."""
    inside = h.rng.randrange(64, 128)
    h.say('start', 0, 400)
    h.say('draft', 0, 'keep', draft_text([(2 * k + 1, 0, [k % 10]) for k in range(inside)]))
    h.say('start', 1, h.length(0))
    free = 2 * inside + 5
    # 255 pieces with the upper's entries, and one more for each strike behind them
    h.say('draft', 1, 'keep', draft_text([(free + 2 * k, 0, [k % 10]) for k in range(127 - inside)] + [(0, 0, [])]))
    for k in range(h.rng.randrange(4)):
        h.say('strike', 1, h.length(1) - 10 - 2 * k, 1)
    if h.rng.random() < 0.15:
        # too many words as well
        h.say('enter', 1, h.length(1), *short_words(h.rng, MOST_WORDS - h.words_in_use(1)))
    for _ in range(4):
        h.say('fold', 0, 1, 2)
        h.say('length', 2)
        # a strike in the last piece makes one more, that of a word of the lower joins its neighbours
        place = h.rng.choice([h.length(1) - 3, 2 * h.rng.randrange(30) + 1])
        h.say('strike', 1, place, 1)
    h.say('pieces', 2)
    h.say('fold', 0, 1, 1)
    h.say('length', 1)


def folds(h):
    """Folds: of three journals, of the same ones, unfitting ones, and such as have too many words or pieces."""
    lay_out(h)
    for _ in range(2):
        fold_pair(h)
    fold_three(h)
    fold_same(h)
    h.rng.choice([fold_many_words, fold_many_pieces])(h)
    h.say('fold', 0, 1, 2)
    fold_pair(h)


def singles(h, j, count):
    """Single words inside kept pieces, in one draft, one batch or one by one."""
    made = [(2 * k + 1, 0, [k % 10]) for k in range(count)]
    way = h.rng.randrange(3) if made else 1
    if way == 0:
        h.say('draft', j, 'keep', draft_text(made))
    elif way == 1:
        h.say('batch', j, hexed(h.rng, vectors.batch(*records(made))))
    else:
        for correction in made:
            say_correction(h, j, *correction)


def many_pieces(h):
    """Around 256 pieces: what makes one or two more, and what joins them again."""
    rng = h.rng
    h.say('nominal', 7, 400)
    h.say('start', 0, 400)
    singles(h, 0, 127)
    h.say('pieces', 0)
    for _ in range(rng.randrange(10, 25)):
        length = h.length(0)
        correction = rng.choice([
            (0, 0, [1]), (1, 0, [2]), (length - 5, 0, [3]), (length - 5, 1, []), (length, 0, [4]),
            (2 * rng.randrange(1, 120), 1, []), (2 * rng.randrange(1, 120), 1, [5]), (rng.randrange(250), rng.randrange(3), [6]),
            (rng.randrange(length), 0, []), (length, 1, [])])
        if rng.random() < 0.2:
            more = (length - 3, 0, [8])
            h.say('draft', 0, rng.choice(['keep', 'drop']), draft_text([correction, more, more, (0, 0, [])]))
        elif rng.random() < 0.2:
            h.say('batch', 0, hexed(rng, vectors.batch(b'\0', *records([correction, (length - 3, 0, [8]), (length - 2, 0, [9])]))))
        else:
            say_correction(h, 0, *correction)
        h.say('length', 0)
        if rng.random() < 0.3:
            place = some_place(h, 0)
            h.say('origin', 0, place)
            h.say('read', 0, some_tag(rng), place)
        if rng.random() < 0.1:
            h.say('tidy', 0)
    for question in ('pieces', 'words', 'walk'):
        h.say(question, 0)


def many_words(h):
    """Around 1,024 words, in use though struck; then tidied."""
    rng = h.rng
    h.say('nominal', 7, 400)
    h.say('start', 1, 400)
    inside = rng.choice([0, 0, 3, 127])
    singles(h, 1, inside)
    left = MOST_WORDS - h.words_in_use(1)
    h.say('enter', 1, h.length(1), *short_words(rng, left + 1))
    h.say('enter', 1, h.length(1), *short_words(rng, left - rng.randrange(3)))
    for _ in range(rng.randrange(8, 20)):
        length = h.length(1)
        left = MOST_WORDS - h.words_in_use(1)
        correction = rng.choice([
            (0, 0, [1] * (left + 1)), (length, 0, [1] * left), (length + 1, 0, [1] * (left + 1)), (0, 1, [2]), (0, 1, []),
            (rng.randrange(length), 0, [3]), (rng.randrange(length), 1, []), (length, 0, [])])
        roll = rng.random()
        if roll < 0.2:
            h.say('draft', 1, rng.choice(['keep', 'drop']), draft_text([(0, 0, [7]), correction, (0, 0, [8]), (0, 1, [])]))
        elif roll < 0.4:
            h.say('batch', 1, hexed(rng, vectors.batch(*records([(0, 1, []), correction, (1, 1, [])]))))
        else:
            say_correction(h, 1, *correction)
        h.say('length', 1)
        ask_place = some_place(h, 1)
        h.say('origin', 1, ask_place)
        h.say('read', 1, some_tag(rng), ask_place)
    h.say('words', 1)
    h.say('walk', 1)
    struck = rng.randrange(1, h.length(1) - 400)
    h.say('strike', 1, h.length(1) - struck, struck)
    h.say('enter', 1, 0, *short_words(rng, MOST_WORDS - h.words_in_use(1) + 1))
    h.say('tidy', 1)
    h.say('enter', 1, 0, 1, 2, 3)
    h.say('pieces', 1)
    h.say('length', 1)


def full_tables(h):
    """256 pieces and 1,024 words."""
    if h.rng.random() < 0.5:
        many_pieces(h)
    else:
        many_words(h)


def longest_start(h):
    h.say('start', 0, MOST_PLACES + 1)
    h.say('start', 0, MOST_PLACES)
    h.say('enter', 0, h.rng.randrange(MOST_PLACES), 1)
    h.say('enter', 0, MOST_PLACES, 1, 2)
    h.say('enter', 0, MOST_PLACES)
    h.say('enter', 0, MOST_PLACES + 1)
    h.say('strike', 0, MOST_PLACES, 1)
    ask_ends(h, 0)
    h.say('pieces', 0)


def longest_bottom(h):
    h.say('nominal', some_word(h.rng), MOST_PLACES)
    h.say('nominal', some_word(h.rng), MOST_PLACES + 1)
    if h.rng.random() < 0.5:
        some_check(h)
    h.say('start', 0, MOST_PLACES)
    h.say('fits', 0)
    ask_ends(h, 0)
    h.say('strike', 0, h.rng.randrange(8), MOST_PLACES - 8)
    ask_all(h, 0)
    h.say('fits', 0)


def longest_entered(h):
    h.say('start', 1, MOST_PLACES - 2)
    h.say('enter', 1, h.rng.choice([0, 5, MOST_PLACES - 2]), 7, 8)
    h.say('enter', 1, 0, 1)
    ask_ends(h, 1)
    h.say('replace', 1, h.rng.randrange(MOST_PLACES - 2), 2, 4, 5)
    h.say('replace', 1, 3, 1, 4, 5)
    h.say('replace', 1, MOST_PLACES - 1, 2, 4, 5)
    # too long and too many words as well
    h.say('enter', 1, 3, *short_words(h.rng, MOST_WORDS))
    h.say('replace', 1, 3, MOST_WORDS, *short_words(h.rng, MOST_WORDS))
    h.say('pieces', 1)
    ask_ends(h, 1)


def longest_draft(h):
    h.say('start', 2, MOST_PLACES - 1)
    made = [(0, 0, [1]), (5, 0, [2]), (h.rng.randrange(1000), 1, []), (MOST_PLACES - 1, 0, [3]), (0, 0, [4])]
    h.say('draft', 2, h.rng.choice(['keep', 'drop']), draft_text(made))
    ask_ends(h, 2)
    h.say('pieces', 2)
    h.say('words', 2)


def longest_batch(h):
    h.say('start', 3, MOST_PLACES - 2)
    made = [(9, 0, [1]), (MOST_PLACES - 1, 0, [2]), (0, 0, [3])]
    h.say('batch', 3, hexed(h.rng, vectors.batch(*records(made))))
    h.say('length', 3)
    h.say('batch', 3, hexed(h.rng, vectors.batch(*records(made[:2]))))
    ask_ends(h, 3)
    h.say('walk', 3)


def longest_fold(h):
    h.say('start', 0, MOST_PLACES)
    h.say('strike', 0, h.rng.randrange(MOST_PLACES), 1)
    h.say('start', 1, MOST_PLACES - h.rng.choice([0, 1, 1]))
    h.say('enter', 1, h.rng.randrange(1000), 9)
    h.say('pile', 0, 1, MOST_PLACES - 1)
    h.say('fold', 0, 1, h.rng.choice([0, 1, 2]))
    for j in range(3):
        h.say('length', j)
        h.say('origin', j, MOST_PLACES - 1)


def longest_tidy(h):
    h.say('start', 2, MOST_PLACES)
    h.say('replace', 2, h.rng.randrange(1000), 3, 7, 8, 9)
    h.say('strike', 2, h.rng.randrange(1000), 3)
    h.say('tidy', 2)
    h.say('words', 2)
    h.say('pieces', 2)
    ask_ends(h, 2)


def longest_flatten(h):
    """Flattening stops soon where the series beneath is short."""
    h.say('register', *some_words(h.rng))
    h.say('start', 3, MOST_PLACES)
    h.say('fits', 3)
    h.say('flatten', 3, some_tag(h.rng))
    h.say('replace', 3, 0, 3, *some_words(h.rng, 2))
    h.say('flatten', 3, some_tag(h.rng))
    ask_ends(h, 3)
    h.say('strike', 3, 4, h.length(3) - 4)
    ask_all(h, 3)


LONGEST = (longest_start, longest_bottom, longest_entered, longest_draft, longest_batch, longest_fold, longest_tidy, longest_flatten)


def longest(h):
    """1,048,576 places: two matters of that length, and then the journals are let go."""
    h.say('nominal', some_word(h.rng), h.rng.choice([0, 10, MOST_PLACES - 1]))
    for matter in h.rng.sample(LONGEST, 2):
        matter(h)
    for j in range(4):
        h.say('start', j, some_length(h.rng))
    h.say('nominal', 5, 3)
    ask(h, 0, 5)


def emptied(h):
    """Series and journals with no places."""
    rng = h.rng
    for _ in range(rng.randrange(4, 9)):
        j, k = rng.randrange(4), rng.randrange(4)
        rng.choice([
            lambda: h.say('register'), lambda: h.say('nominal', some_word(rng), 0), lambda: h.say('profile', '00000000'),
            lambda: h.say('profile', '00000000ff'), lambda: some_bottom(h, some_length(rng))])()
        if rng.random() < 0.3:
            some_check(h)
        if rng.random() < 0.5:
            h.say('start', j, 0)
        else:
            h.say('start', j, some_length(rng))
            for _ in range(rng.randrange(3)):
                correct(h, j)
            ask(h, j, 1)
            h.say('strike', j, 0, h.length(j))
        ask_all(h, j)
        for place, struck, words in rng.sample([(0, 0, []), (0, 1, []), (1, 0, []), (1, 0, [5]), (0, 0, [5]), (0, 0, [6, 7])], 3):
            say_correction(h, j, place, struck, words)
            ask(h, j, 1)
        h.say('draft', j, rng.choice(['keep', 'drop']), draft_text([(0, h.length(j), []), (0, 1, []), (0, 0, [5]), (0, 1, [])]))
        if rng.random() < 0.5:
            h.say('batch', j, rng.choice(['-', '0000', '000100', '00010200000001']))
        if rng.random() < 0.5:
            h.say('strike', j, 0, h.length(j))
        h.say('tidy', j)
        h.say('walk', j)
        h.say('pieces', j)
        h.say('start', k, rng.choice([0, 0, 1]))
        h.say('fold', j, k, rng.randrange(4))
        h.say('pile', j, k, 0)
        ask(h, rng.randrange(4), 3)


def damaged_profile(rng):
    length = some_length(rng)
    good = some_profile(rng, length)
    damage = rng.randrange(5)
    if damage == 0:
        return good[:rng.randrange(len(good))]
    if damage == 1:
        data = bytearray(good)
        data[rng.randrange(4, len(data))] ^= 1 << rng.randrange(8)
        return bytes(data)
    if damage == 2:
        # a map bit at or past the length, its amounts there or missing
        places = rng.randrange(1, 8)
        return bytes([0, 0, 0, 8 + places]) + b'\0' + bytes([1 << rng.randrange(places, 8)]) + bytes(rng.choice([0, 4]))
    if damage == 3:
        return rng.choice([MOST_PLACES + 1, 2 ** 31, BITS32]).to_bytes(4, 'big') + some_bytes(rng, 5)
    return rng.choice([MOST_PLACES, MOST_PLACES - 1, 100]).to_bytes(4, 'big') + some_bytes(rng, 9)


def bottoms(h):
    """Every kind of bottom, with a check and without, amounts around the limit, and journals that fit or do not."""
    rng = h.rng
    for j in range(4):
        h.say('start', j, some_length(rng))
    for _ in range(rng.randrange(6, 14)):
        limit = rng.choice(LIMITS)
        amounts = [amount for amount in (limit - 1, limit, limit + 1, -limit, -limit - 1, 0, -1, 2 ** 31 - 1, -2 ** 31) if -2 ** 31 <= amount < 2 ** 31]
        rng.shuffle(amounts)
        kind = rng.choice(['register', 'nominal', 'profile', 'damaged', 'any', 'long'])
        if kind == 'register':
            h.say('register', *[vectors.word(amount, rng.randrange(256), rng.choice([0, 2 ** 24 - 1, rng.randrange(2 ** 24)])) for amount in amounts])
        elif kind == 'nominal':
            h.say('nominal', vectors.word(amounts[0], rng.randrange(256), rng.randrange(2 ** 24)), some_length(rng))
        elif kind == 'profile':
            data = vectors.profile([rng.choice([amount, amount, None]) for amount in amounts])
            h.say('profile', hexed(rng, data + some_bytes(rng, 4)))
        elif kind == 'damaged':
            for _ in range(3):
                h.say('profile', hexed(rng, damaged_profile(rng)))
        elif kind == 'long':
            h.say('profile', hexed(rng, some_profile(rng, rng.randrange(50, 200), rng.choice([0.1, 0.9, 1]))))
        else:
            some_bottom(h, some_length(rng))
        if rng.random() < 0.6:
            h.say('check', some_tag(rng), limit)
        elif rng.random() < 0.5:
            h.say('nocheck')
        j = rng.randrange(4)
        h.say('fits', j)
        h.say('flatten', j, some_tag(rng))
        h.say('start', j, len(h.console.bottom) + rng.choice([0, 0, 0, 1, 3]))
        h.say('fits', j)
        for place in range(min(len(amounts), h.length(j))):
            h.say('read', j, some_tag(rng), place)
        ask(h, j, 2)
        h.say('flatten', j, some_tag(rng))
        if rng.random() < 0.3:
            correct(h, j)
        ask(h, j, 3)
        # the series from its last place on, to get past faults before it
        h.say('strike', j, 0, max(h.length(j) - 2, 0))
        h.say('flatten', j, some_tag(rng))


def some_record(rng):
    number = [0, 0, 1, 2, 255, 256, 2 ** 31, BITS32, rng.randrange(2 ** 32)]
    return rng.choice(number), rng.choice(number), some_words(rng)


def records_and_back(h):
    """Records as bytes and bytes as records."""
    rng = h.rng
    h.say('record', 0, 0)
    for _ in range(rng.randrange(15, 40)):
        place, struck, words = some_record(rng)
        said = h.say('record', place, struck, *words)
        data = bytes.fromhex(said)
        h.say('unrecord', hexed(rng, data + some_bytes(rng, 3)))
        roll = rng.random()
        if roll < 0.2:
            h.say('unrecord', hexed(rng, data[:rng.randrange(len(data))]))
        elif roll < 0.4:
            h.say('unrecord', hexed(rng, rng.choice(BAD_RECORDS) + some_bytes(rng, 4)))
        elif roll < 0.6:
            changed = bytearray(data)
            changed[rng.randrange(len(data))] ^= 1 << rng.randrange(8)
            h.say('unrecord', hexed(rng, bytes(changed)))
        elif roll < 0.7:
            h.say('unrecord', hexed(rng, some_bytes(rng, 12)))
        elif roll < 0.75:
            # a field that is present and zero
            h.say('unrecord', hexed(rng, bytes([rng.randrange(1, 8)]) + bytes(rng.randrange(12))))
    many = rng.choice([MOST_WORDS - 1, MOST_WORDS, MOST_WORDS + 1])
    said = h.say('record', 1, 0, *short_words(rng, many))
    h.say('record', 0, 1, *short_words(rng, MOST_WORDS + 1))
    if said.startswith('05'):
        h.say('unrecord', hexed(rng, bytes.fromhex(said)))
        h.say('unrecord', hexed(rng, bytes.fromhex(said)[:-1]))
    announced = (4).to_bytes(1, 'big') + (MOST_WORDS + 1).to_bytes(2, 'big')
    h.say('unrecord', hexed(rng, announced))
    h.say('unrecord', hexed(rng, announced + bytes(8) * 3))
    h.say('unrecord', hexed(rng, bytes([4, 255, 255])))
    h.say('unrecord', hexed(rng, bytes([4, 4, 0])))
    h.say('unrecord', '-')
    # the bytes of a record in a batch
    h.say('start', 0, 10)
    correction = some_correction(rng, 10)
    h.say('batch', 0, '0001' + h.say('record', *correction[:2], *correction[2]))
    ask_all(h, 0)


# Lines that are refused.

# Each command with the sorts of its arguments, `W ..` as two words.
SHAPES = {name: kinds.split() for name, kinds in {
    'register': 'W W', 'nominal': 'W N', 'profile': 'HEX', 'check': 'TAG N', 'nocheck': '', 'start': 'J N', 'enter': 'J N W W',
    'strike': 'J N N', 'replace': 'J N N W W', 'batch': 'J HEX', 'draft': 'J END N N W W ; N N', 'tidy': 'J', 'fold': 'J J J',
    'pieces': 'J', 'words': 'J', 'length': 'J', 'fits': 'J', 'origin': 'J N', 'read': 'J TAG N', 'pile': 'J J N', 'flatten': 'J TAG',
    'walk': 'J', 'record': 'N N W W', 'unrecord': 'HEX'}.items()}
MOST = {'J': 3, 'TAG': 255, 'N': BITS32, 'W': BITS64}


def example(rng, command):
    """The fields of a good line of this command."""
    made = [command]
    for kind in SHAPES[command]:
        if kind == 'HEX':
            data = {'profile': some_profile(rng, 3), 'batch': vectors.batch(vectors.record(0, 0, [1])), 'unrecord': vectors.record(1, 2, [3])}[command]
            made.append(hexed(rng, data))
        elif kind == 'END':
            made.append(rng.choice(['keep', 'drop']))
        elif kind == ';':
            made.append(';')
        else:
            made.append(str(rng.randrange({'J': 4, 'TAG': 256, 'N': 12, 'W': 100}[kind])))
    return made


def numbered(command):
    """Where the numbers of a command stand, and of which sort they are."""
    return [(at, kind) for at, kind in enumerate(SHAPES[command], 1) if kind in MOST]


def with_field(fields, at, field):
    return fields[:at] + [field] + fields[at + 1:]


def unchanged(h):
    """A question now and then, to see that a refused line changes nothing."""
    if h.rng.random() < 0.1:
        j = h.rng.randrange(4)
        h.say(h.rng.choice(['length', 'pieces', 'words', 'walk', 'fits']), j)


def ranges(h):
    """For every argument that is a number, the greatest one and the one past it."""
    lay_out(h)
    for command in SHAPES:
        for at, kind in numbered(command):
            for number in (MOST[kind], MOST[kind] + 1):
                h.say(*with_field(example(h.rng, command), at, number))
        for fields in (example(h.rng, command)[:-1], example(h.rng, command) + ['0'], [command]):
            h.say(*fields)
        unchanged(h)
    ask_all(h, 0)


def odd_number(rng, kind):
    most = MOST[kind]
    return rng.choice([
        str(most + 1), str(most + 2), str(2 * most + 2), str(2 * most + 3), str(most) + '0', '9' + str(most)[1:] + '9', str(2 ** 32), str(2 ** 32 + 1),
        str(2 ** 63), str(2 ** 64), str(2 ** 64 + 1), str(2 ** 64 - 1), str(2 ** 65), str(2 ** 128), '1' + '0' * 100, '+1', '-1', '-0', '--1', '1-', '1.0', '1.',
        '1e0', '0x1', '1_0', "1'0", '1,0', '/', ':', '1/', '1:', 'a', 'f', 'k0', 'b1', '-', ';', '1;', ';1', 'keep', 'none', '"1"', '(1)', '~', '!', '1 1'])


def padded_number(rng, kind):
    """Leading zeros, however many."""
    number = rng.choice([0, 1, 2, rng.randrange(4), MOST[kind], MOST[kind] + 1])
    return '0' * rng.choice([1, 2, 10, 20, 40, 5000]) + str(number)


def odd_hex(rng):
    return rng.choice([
        '0', '000', '00000', '0g', 'g0', 'G0', '0G', '0x00', 'x0', '/0', '0/', ':0', '0:', '@0', '0@', '`0', '0`', '--', '-0', '0-', '-00', '00-',
        '+0', '0_', '0.0', '00;', ';', '00 00', '- -', '0 0', '00,00', '0000000', 'zz'])


def odd_command(rng, command):
    at = rng.randrange(len(command))
    return rng.choice([
        command.upper(), command.capitalize(), command[:at] + command[at].upper() + command[at + 1:], command[:-1], command[1:],
        command + command[-1], command + 's', command + '0', command + ':', command + ';', '-' + command, '.' + command, command + '-', '_' + command,
        command[::-1], 'help', '--help', 'quit', 'exit', 'ok', '?', '0', ';', '-', 'lengths', 'checks', 'nochecks', 'unrecorded', 'drafted', 'e', ''])


def odd_draft(rng):
    return 'draft %d %s' % (rng.randrange(4), rng.choice([
        '', 'keep', 'drop', 'keep ;', 'keep 0', 'keep 0 0 ;', 'keep ; 0 0', 'keep 0 0 ; ; 0 0', 'keep 0 0 ; 0', 'keep 0 0;0 0', 'keep 0 0; 0 0',
        'keep 0 0 ;0 0', 'keep 0 0 ;;', 'keep ; ;', 'drop 0 0 1 ; 1', 'drop 0 0 , 0 0', 'KEEP 0 0', 'Drop 0 0', 'keeps 0 0', '0 0', 'kept 0 0', 'dropped 0 0',
        'keep 0 0 ; drop', 'drop 0 0 keep', 'drop 0 0 ; 0 0 ; 0 0 1 2', 'keep 0 0 ; 0 0 4294967296', 'keep 0 0 1 ; 4294967296 0', 'keep 0 0 1 ; 0 0 18446744073709551616',
        'keep 0 0 7 ; 0 1', '; keep 0 0', 'keep 0 0 ; 0 0 # ; x', 'keep 0 0 ; # 0 0']))


def odd_blanks(rng, fields):
    """A good line with tabs and many blanks, and a comment right behind the last field."""
    def gap(least):
        return ''.join(rng.choice(' \t') for _ in range(rng.choice([least, 1, 2, 3, 20])))
    text = gap(0) + fields[0] + ''.join(gap(1) + field for field in fields[1:])
    return text + rng.choice(['', gap(0), '#', '# ', '#;', '#' + fields[0], gap(0) + '# x', '##'])


def some_comment(rng):
    """A comment of any bytes but a line feed."""
    return b'#' + bytes(rng.choice([rng.randrange(10), rng.randrange(11, 256)]) for _ in range(rng.randrange(12)))


def stray_byte(rng, line):
    """A line with a byte put into it that has no place there."""
    byte = rng.choice([0, 1, 8, 11, 12, 13, 13, 14, 27, 31, 127, 128, 133, 160, 178, 194, 255])
    at = rng.choice([0, len(line), rng.randrange(len(line) + 1)])
    return line[:at] + bytes([byte]) + line[at:]


def damaged_line(h):
    rng = h.rng
    command = rng.choice(list(SHAPES))
    fields = example(rng, command)
    numbers = numbered(command)
    damage = rng.randrange(13)
    if damage == 0:
        return ' '.join([odd_command(rng, command)] + fields[1:]).encode('ascii')
    if damage == 1:
        del fields[rng.randrange(len(fields))]
    elif damage == 2:
        fields.insert(rng.randrange(len(fields) + 1), rng.choice(['0', '1', ';', '-', '00', 'keep', command]))
    elif damage in (3, 4) and numbers:
        at, kind = rng.choice(numbers)
        fields[at] = odd_number(rng, kind)
    elif damage == 5 and numbers:
        at, kind = rng.choice(numbers)
        fields[at] = padded_number(rng, kind)
    elif damage == 6:
        command, kinds = rng.choice([('profile', ''), ('batch', '0 '), ('unrecord', '')])
        return ('%s %s%s' % (command, kinds, odd_hex(rng))).encode('ascii')
    elif damage == 7:
        return odd_draft(rng).encode('ascii')
    elif damage == 8:
        return odd_blanks(rng, fields).encode('ascii')
    elif damage == 9:
        return stray_byte(rng, ' '.join(fields).encode('ascii'))
    elif damage == 10:
        return ' '.join(fields).encode('ascii') + rng.choice([b'', b' ']) + some_comment(rng)
    elif damage == 11:
        return stray_byte(rng, ' '.join(fields).encode('ascii') + some_comment(rng))
    elif damage == 12:
        return rng.choice([b'', b' ', b'\t', b' \t  ', b'#', b' #', b'\r', b'\r#', b'#\r', b' \r', b'\0', b';', b'-', b'\xef\xbb\xbf', some_comment(rng)])
    return ' '.join(fields).encode('ascii')


def damaged_lines(h):
    """Lines that are refused, of every sort, among good ones; the last line has no line feed."""
    lay_out(h)
    for _ in range(h.rng.randrange(40, 100)):
        h.line(damaged_line(h))
        unchanged(h)
        if h.rng.random() < 0.2:
            correct(h, h.rng.randrange(4))
    ask_all(h, h.rng.randrange(4))
    ending = h.rng.choice([b'length 0', b'length 0 ', b'length 0#', b'length 4', b'pieces 0\r', b' ', b'#', b'length', b'unrecord 0'])
    h.line(ending)
    h.ended = False


def stray_bytes(h):
    """Every byte but the line feed, outside of a comment and inside of one."""
    lay_out(h)
    for byte in range(256):
        if byte != 10:
            sign = bytes([byte])
            j = b'%d' % h.rng.randrange(4)
            h.line(h.rng.choice([b'length ' + j + sign, b'length ' + sign + j, b'length' + sign + j, sign + b'length ' + j, b'len' + sign + b'gth ' + j, sign]))
            h.line(h.rng.choice([b'length ' + j + b'#' + sign, b'#' + sign, b'fits ' + j + b' #' + sign + b'# ' + sign, b'# ' + sign + b' x']))


# What makes a line long: each answers a line of this many bytes.

def long_by_blanks(h, size):
    return b'length 0'.ljust(size)


def long_by_tabs(h, size):
    return b'length' + b'\t' * (size - 7) + b'0'


def long_by_blanks_before(h, size):
    return b'fits 1'.rjust(size)


def long_by_comment(h, size):
    return (b'length 1 # ' + bytes([h.rng.randrange(128, 256)]) * 5).ljust(size, b'x')


def long_by_comment_only(h, size):
    return b'#' * size


def long_blank(h, size):
    return b' ' * size


def long_by_zeros(h, size):
    return b'length ' + b'2'.rjust(size - 7, b'0')


def long_by_digits(h, size):
    return b'length ' + b'2'.ljust(size - 7, b'0')


def long_by_words(h, size):
    return (b'register' + b' 7' * ((size - 8) // 2)).ljust(size)


def long_by_words_entered(h, size):
    return (b'enter 0 0' + b' 7' * ((size - 9) // 2)).ljust(size)


def long_by_hex(h, size):
    return (b'unrecord 00' + b'fE' * ((size - 11) // 2)).ljust(size)


def long_by_records(h, size):
    count = (size - 12) // 2
    return (b'batch 0 %04x' % count + b'00' * count).ljust(size)


def long_by_profile(h, size):
    maps = (size - 16) // 2
    return (b'profile %08x' % (8 * maps) + b'00' * maps).ljust(size)


def long_by_corrections(h, size):
    count = (size - 16) // 6
    return (b'draft 0 drop 0 0' + b' ; 0 0' * count).ljust(size)


LONG = (long_by_blanks, long_by_tabs, long_by_blanks_before, long_by_comment, long_by_comment_only, long_blank, long_by_zeros, long_by_digits,
        long_by_words, long_by_words_entered, long_by_hex, long_by_records, long_by_profile, long_by_corrections)


def long_lines(h):
    """Lines of 65,535, 65,536 and 65,537 bytes, and at times of many more."""
    lay_out(h)
    for size in (MOST_IN_LINE - 1, MOST_IN_LINE, MOST_IN_LINE + 1):
        for way in h.rng.sample(LONG, 2):
            h.line(way(h, size))
            ask(h, 0, 2)
    if h.rng.random() < 0.3:
        h.line(h.rng.choice(LONG)(h, h.rng.choice([MOST_IN_LINE + 2, 2 * MOST_IN_LINE, 2 * MOST_IN_LINE + 9, 200000])))
    for j in range(4):
        h.say('length', j)
        h.say('fits', j)


def scraps(h):
    """Scripts of no line, or of a few, that end in odd ways."""
    lines = [b'', b' ', b'#', b'\t#x', b'length 0', b'length 0 #', b'\r', b'x', b'start 0 5', b'pieces 0']
    for _ in range(h.rng.randrange(4)):
        h.line(h.rng.choice(lines))
    h.ended = not h.lines or h.rng.random() < 0.5


SORTS = {sort.__name__: sort for sort in (
    corrections, drafts, batches, tidyings, folds, emptied, bottoms, records_and_back, full_tables, longest, ranges, stray_bytes, scraps,
    long_lines, damaged_lines)}

# Which sort a seed has: the slow ones seldom.
OFTEN = ('corrections', 'drafts', 'batches', 'tidyings', 'folds', 'emptied', 'bottoms', 'records_and_back', 'damaged_lines')
SELDOM = ('full_tables', 'ranges', 'stray_bytes', 'scraps', 'long_lines', 'full_tables')


def sort_of(seed):
    if seed % 100 == 0:
        return 'longest'
    if seed % 10 == 0:
        return SELDOM[seed // 10 % len(SELDOM)]
    return OFTEN[seed % 10 - 1]


def add(h, seed, sort):
    h.rng = random.Random(seed)
    SORTS[sort](h)


def script(seed, sort):
    h = History()
    add(h, seed, sort)
    return h.script()


# The seeds of each sort that the stored script has: those of `longest` have all its matters between them, those of
# `long_lines` a skipped and a refused long comment, and the last of `damaged_lines` ends in a line that answers.
IN_GATE = {
    'corrections': (1, 2, 3, 4, 5), 'drafts': (1, 2, 3, 4, 5), 'batches': (1, 2, 3, 4), 'tidyings': (1, 2, 3), 'folds': (1, 2, 3, 4, 5),
    'emptied': (1, 2, 3), 'bottoms': (1, 2, 3), 'records_and_back': (1, 2, 3, 4), 'full_tables': (1, 2, 8, 10), 'longest': (2, 3, 4, 7),
    'ranges': (1, 2), 'stray_bytes': (1,), 'scraps': (1, 2, 3, 4, 5), 'long_lines': (16, 26), 'damaged_lines': (1, 2, 3, 4, 17)}


def gate():
    """Histories of every sort in one script; the last line has no line feed."""
    h = History()
    for sort in SORTS:
        for seed in IN_GATE[sort]:
            add(h, seed, sort)
    return h.script()


def main():
    arguments = sys.argv[1:]
    if arguments == ['--gate']:
        sys.stdout.buffer.write(gate())
    elif arguments == ['--sorts']:
        print('\n'.join(SORTS))
    elif len(arguments) == 2 and arguments[0] in SORTS and arguments[1].isdecimal():
        sys.stdout.buffer.write(script(int(arguments[1]), arguments[0]))
    else:
        sys.exit(__doc__)


if __name__ == '__main__':
    main()
