#!/usr/bin/env python3
"""The inputs that readout and the reference program are compared on: a line of hex digits each.

Made from a fixed seed, so that every run prints the same lines: worked samples, every length around
a group's end, damage of every sort, every limit and the one past it, and two faults at once, so that
the order of the checks shows.
"""
import random

random.seed(20)


def profile(amounts):
    """The bytes of a packed profile; None is a place that was not delivered."""
    out = len(amounts).to_bytes(4, 'big')
    for start in range(0, len(amounts), 8):
        group = amounts[start:start + 8]
        out += bytes([sum(1 << k for k, amount in enumerate(group) if amount is not None)])
        out += b''.join(amount.to_bytes(4, 'big', signed=True) for amount in group if amount is not None)
    return out


def record(place=0, struck=0, words=()):
    present = (place != 0) + 2 * (struck != 0) + 4 * (len(words) != 0)
    out = bytes([present])
    if place:
        out += place.to_bytes(4, 'big')
    if struck:
        out += struck.to_bytes(4, 'big')
    if words:
        out += len(words).to_bytes(2, 'big') + b''.join(word.to_bytes(8, 'big') for word in words)
    return out


def batch(*records, count=None):
    return (len(records) if count is None else count).to_bytes(2, 'big') + b''.join(records)


def word(amount, status=1, top=0):
    return amount % 2 ** 32 + status * 2 ** 32 + top * 2 ** 40


def some_amount():
    return random.choice([0, 1, -1, 19999, 20000, 20001, -20000, -20001, 2 ** 31 - 1, -2 ** 31, random.randrange(-2 ** 31, 2 ** 31), random.randrange(0, 4000)])


def some_profile(length, chance=0.8):
    return profile([some_amount() if random.random() < chance else None for _ in range(length)])


def some_record(length):
    place = random.randrange(0, length + 2)
    struck = random.choice([0, 0, 1, 2, random.randrange(0, length + 1)])
    words = [word(some_amount(), random.randrange(256), random.randrange(2 ** 24)) for _ in range(random.choice([0, 1, 1, 2, 3]))]
    return place, struck, words


def some_batch(length, records, good=True):
    """Records at random; where `good`, only such as no check refuses."""
    made = []
    for _ in range(records):
        place, struck, words = some_record(length)
        if good:
            place = min(place, length)
            struck = min(struck, length - place)
        made.append(record(place, struck, words))
        length += len(words) - struck
        length = max(length, 0)
    return batch(*made)


THREE = profile([5, None, -1])


def worked():
    yield THREE + batch(record(1, 1, [word(2)]))
    yield THREE + batch()


def lengths():
    for length in (0, 1, 7, 8, 9, 15, 16, 17):
        yield some_profile(length, 1) + batch()
        yield some_profile(length, 0) + batch()
        yield some_profile(length) + batch(record(length, 0, [word(7)]))
        yield some_profile(length) + batch(record(length + 1, 0, [word(7)]))
        yield some_profile(length) + batch(record(0, length))
        yield some_profile(length) + batch(record(0, length, [word(3), word(-4, 0)]), record(1, 1))
        yield some_profile(length) + batch(record(0, length + 1))


def damaged_profiles():
    good = profile([1, 2, None, 4, 5, 6, 7, 8, 9, None, 11]) + batch()
    for cut in range(len(good) + 1):
        yield good[:cut]
    for bit in range(8):
        for length in (1, 3, 7):
            yield length.to_bytes(4, 'big') + bytes([1 << bit]) + bytes(4) + batch()
    yield (9).to_bytes(4, 'big') + bytes([0]) + bytes([2]) + batch()
    for length in (1048575, 1048576, 1048577, 2 ** 31, 2 ** 32 - 1):
        yield length.to_bytes(4, 'big') + batch()
    # a stray bit with its amounts missing as well; too long and cut short as well
    yield (3).to_bytes(4, 'big') + bytes([8])
    yield (1048577).to_bytes(4, 'big')


def damaged_records():
    good = record(1, 1, [word(2), word(3)])
    for cut in range(len(good)):
        yield THREE + batch(good[:cut], count=1)
    for present in (8, 9, 16, 64, 128, 255):
        yield THREE + batch(bytes([present]) + good[1:])
    yield THREE + batch(bytes([1, 0, 0, 0, 0]))
    yield THREE + batch(bytes([2, 0, 0, 0, 0]))
    yield THREE + batch(bytes([4, 0, 0]))
    yield THREE + batch(bytes([3, 0, 0, 0, 1, 0, 0, 0, 0]))
    yield THREE + batch(bytes([7, 0, 0, 0, 1, 0, 0, 0, 1, 0, 0]))
    # a zero place before a short struck count; an unknown bit before all of it
    yield THREE + batch(bytes([3, 0, 0, 0, 0, 0]))
    yield THREE + batch(bytes([11, 0, 0, 0, 0, 0]))
    # 1,025 words announced, and none there
    yield THREE + batch(bytes([4, 4, 1]))
    yield THREE + batch(bytes([4, 4, 0]))
    yield THREE + batch(bytes([4, 255, 255]))


def batches():
    good = record(1, 1, [word(2)])
    yield THREE
    yield THREE + b'\0'
    yield THREE + batch(good, good, count=1)
    yield THREE + batch(good, count=2)
    yield THREE + batch(good) + b'\0'
    yield THREE + batch() + b'\0'
    # the second and the third record are bad; bytes left over as well
    yield THREE + batch(good, record(9, 1), bytes([8])) + b'\0'
    yield THREE + batch(good, bytes([8]), record(9, 1))
    # a refused correction before a record that cannot be read
    yield THREE + batch(record(4, 0, [word(1)]), bytes([255]))
    yield THREE + batch(*[bytes([0])] * 300)
    yield THREE + batch(*[bytes([0])] * 300, record(9, 9))


def sums():
    yield THREE + batch(record(2 ** 32 - 1, 1))
    yield THREE + batch(record(1, 2 ** 32 - 1))
    yield THREE + batch(record(2 ** 32 - 1, 2 ** 32 - 1))
    yield THREE + batch(record(3, 1))
    yield THREE + batch(record(2, 1))
    yield THREE + batch(record(2, 2))


def many_words(count):
    return [word(k % 1000, k % 256) for k in range(count)]


def words():
    yield THREE + batch(record(1, 1, many_words(1024)))
    yield THREE + batch(record(1, 1, many_words(1023)), record(0, 0, [word(1)]))
    yield THREE + batch(record(1, 1, many_words(1024)), record(0, 0, [word(1)]))
    # struck words stay in use
    yield THREE + batch(record(0, 0, many_words(1024)), record(0, 1024), record(0, 0, [word(1)]))
    # no such place and too many words as well
    yield THREE + batch(record(0, 0, many_words(1024)), record(2000, 0, [word(1)]))


def pieces():
    base = profile([k % 1000 for k in range(400)])
    inside = [record(2 * k + 1, 0, [word(7)]) for k in range(127)]
    yield base + batch(*inside)
    yield base + batch(*inside, record(300, 0, [word(7)]))
    yield base + batch(*inside, record(0, 0, [word(7)]))
    yield base + batch(*inside, record(0, 0, [word(7)]), record(0, 0, [word(8)]))
    yield base + batch(*inside, record(0, 0, [word(7)]), record(1, 0, [word(8)]))
    # a strike inside one more kept piece makes one more, an entry inside two
    yield base + batch(*inside, record(300, 1))
    yield base + batch(*inside, record(300, 1), record(350, 1))
    # 256 pieces, and room again where an entry is struck and its neighbours join
    yield base + batch(*inside, record(0, 0, [word(7)]), record(2, 1), record(2, 0, [word(9)]))
    # too many words and too many pieces as well
    yield base + batch(*inside, record(300, 0, many_words(1000)))
    yield base + batch(*inside, record(300, 1, many_words(897)))


def joins():
    ten = profile(list(range(10)))
    yield ten + batch(record(2, 3))
    yield ten + batch(record(2, 3), record(2, 0, [word(70), word(71)]))
    yield ten + batch(record(2, 3), record(2, 0, [word(70), word(71)]), record(2, 2))
    yield ten + batch(record(2, 0, [word(70), word(71)]), record(2, 2))
    yield ten + batch(record(2, 0, [word(70)]), record(3, 0, [word(71)]), record(2, 1))
    yield ten + batch(record(2, 0, [word(70)]), record(2, 0, [word(71)]))


def emptied():
    ten = profile(list(range(10)))
    yield ten + batch(record(0, 10))
    yield ten + batch(record(0, 10), record(0, 0, [word(1), word(2)]))
    yield ten + batch(record(0, 10), record(0, 1))
    yield ten + batch(record(0, 10), record(1, 0, [word(1)]))
    yield profile([]) + batch(record(0, 0, [word(20001)]))


def limits():
    amounts = [19999, 20000, 20001, -20000, -20001, 2 ** 31 - 1, -2 ** 31, 0, None]
    yield profile(amounts) + batch()
    yield profile(amounts) + batch(record(0, 2))
    # what is entered lies above the check
    yield profile(amounts) + batch(record(0, 0, [word(20001), word(-20001), word(2 ** 31 - 1), word(-2 ** 31)]))
    yield profile(amounts) + batch(record(4, 0, [2 ** 64 - 1, 2 ** 63, 2 ** 40, 2 ** 39]))


def sizes():
    def filled(size):
        records = size - len(THREE) - 2
        return THREE + batch(*[bytes([0])] * records)
    yield filled(65535)
    yield filled(65536)
    # over the size: refused before the profile or the batch is looked at
    yield filled(65537 - 1) + b'\0'
    yield b'\xff' * 65537


def at_random():
    for k in range(60):
        length = random.randrange(0, 40)
        yield some_profile(length) + some_batch(length, random.randrange(0, 12))
    for k in range(30):
        length = random.randrange(0, 40)
        yield some_profile(length) + some_batch(length, random.randrange(0, 12), good=False)
    for k in range(40):
        length = random.randrange(1, 20)
        data = bytearray(some_profile(length) + some_batch(length, random.randrange(1, 6)))
        for _ in range(random.randrange(1, 4)):
            data[random.randrange(len(data))] ^= 1 << random.randrange(8)
        # a long length asks for maps that are not there, so nothing grows
        yield bytes(data)
    for k in range(20):
        length = random.randrange(1, 20)
        data = some_profile(length) + some_batch(length, random.randrange(1, 6))
        yield data[:random.randrange(len(data))]


def main():
    for sort in (worked, lengths, damaged_profiles, damaged_records, batches, sums, words, pieces, joins, emptied, limits, sizes, at_random):
        for data in sort():
            print(data.hex())


if __name__ == '__main__':
    main()
