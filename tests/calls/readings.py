"""Calls of opening facts: floats of every kind, marks around their tenths, marks out of range."""
import struct
from fractions import Fraction

from call import Call
from draft import MOST

SIGN = 1 << 63
NAN, INFINITY = 0x7ff8 << 48, 0x7ff0 << 48


def bits_of(value):
    return struct.unpack('<Q', struct.pack('<d', value))[0]


def value_of(bits):
    return struct.unpack('<d', struct.pack('<Q', bits))[0]


HUNDRED = bits_of(100.0)

# Zero, the least and the largest subnormal, the least normal, the range's ends with neighbours, what is not finite.
SPECIAL = [0, 1, 2, (1 << 52) - 1, 1 << 52, (1 << 52) + 1, HUNDRED - 1, HUNDRED, HUNDRED + 1, INFINITY - 1, INFINITY,
           INFINITY + 1, NAN, NAN + 1, SIGN - 1, bits_of(0.05), bits_of(0.1), bits_of(99.99), bits_of(1e-300), bits_of(24.0),
           bits_of(23.999999999999996), bits_of(24.000000000000004), bits_of(2.3), bits_of(0.25), bits_of(101.0),
           bits_of(1000.0)]
SPECIAL += [bits | SIGN for bits in SPECIAL]


def near_tenth(dice):
    """The float nearest a tenth, or its neighbour."""
    bits = bits_of(float(f'{dice.randint(-1000, 1000)}e-1'))
    return max(bits & SIGN, bits + dice.choice((-1, 0, 1)))


def beside(dice, twentieth):
    """The float nearest a twentieth that is not zero, or its neighbour."""
    return bits_of(twentieth / 20) + dice.choice((-1, 0, 1))


def some_float(dice):
    chance = dice.random()
    if chance < 0.45:
        return near_tenth(dice)
    if chance < 0.65:
        return bits_of(dice.uniform(-100, 100))
    if chance < 0.8:
        return dice.randint(0, HUNDRED) | dice.choice((0, SIGN))
    return dice.choice(SPECIAL) if chance < 0.92 else dice.getrandbits(64)


def level_near(dice, bits):
    """A level at ten times the float, rounded down, one off, or any; any too where the float is out of range. The tenths are what is
    rounded down, or one more."""
    if bits & ~SIGN > HUNDRED or dice.random() < 0.2:
        return dice.randint(-1000, 1000)
    down = Fraction(value_of(bits)) * 10 // 1
    return max(-1000, min(1000, down + dice.choice((-1, 0, 0, 1))))


def readings_call(floats, marks, count=None, facts=0, lengths=None):
    """Marks are (channel, level, fact); lengths cut or keep the three tables."""
    lengths = lengths or (len(marks),) * 3
    channels = bytes(mark[0] for mark in marks)[:lengths[0]]
    levels = struct.pack(f'<{len(marks)}h', *(mark[1] for mark in marks))[:2 * lengths[1]]
    places = bytes(mark[2] for mark in marks)[:lengths[2]]
    head = [10, 0, 0, facts, 0, 0, floats[0], len(marks) if count is None else count, 0, *lengths, floats[1]]
    return Call(head, (), channels + levels + places)


def some_mark(dice, floats):
    channel = dice.randrange(2)
    return channel, level_near(dice, floats[channel]), dice.choice((0, 1, 2, 3, 62, 63, dice.randrange(64)))


def bad_mark(dice, mark):
    channel, level, fact = mark
    return dice.choice(((dice.choice((2, 128, 255)), level, fact), (channel, level, dice.choice((64, 65, 255))),
                        (channel, dice.choice((-32768, -1001, 1001, 1024, 32767)), fact)))


def opening(dice):
    floats = some_float(dice), some_float(dice)
    if dice.random() < 0.4:
        floats = near_tenth(dice), near_tenth(dice)
    marks = [some_mark(dice, floats) for _ in range(dice.choice((0, 1, 2, 3, 5, 15, 16, 16, 17)))]
    if marks and dice.random() < 0.15:
        at = dice.randrange(len(marks))
        marks[at] = bad_mark(dice, marks[at])
    # Marks behind the count are not looked at.
    count = len(marks) if dice.random() < 0.8 else dice.randint(0, len(marks))
    if dice.random() < 0.05:
        count = dice.choice((len(marks) + 1, 64, 2 ** 16, 2 ** 32 + 1, MOST))
    return readings_call(floats, marks, count, dice.choice((0, MOST, dice.getrandbits(64))))


def every_float(dice):
    """Each special float on both channels, with a mark at each level around its tenths."""
    for bits in SPECIAL:
        levels = {level_near(dice, bits) for _ in range(9)}
        marks = [(0, level, place) for place, level in enumerate(sorted(levels))]
        marks += [(1, level, 40 + fact) for _, level, fact in marks]
        yield readings_call((bits, bits), marks[:16], facts=dice.getrandbits(64))
        yield readings_call((bits_of(20.0), bits), marks[:16])


def every_short_table(dice):
    """Each of the three tables one too short, in a reading that is itself out of range."""
    for count in (1, 16, 17, 64):
        marks = [(0, 0, 0)] * count
        for short in range(3):
            lengths = tuple(count - (place == short) for place in range(3))
            for bits in (0, NAN):
                yield readings_call((bits, 0), marks, lengths=lengths)
        yield readings_call((NAN, INFINITY), marks)
        yield readings_call((0, INFINITY), marks)
        yield readings_call((0, 0), marks)


def every_bad_mark(dice):
    """Each place of 16 with a bad mark, another behind it; the ends of what is in range are taken."""
    for place in range(16):
        marks = [(dice.randrange(2), dice.choice((-1000, 1000)), dice.choice((0, 63))) for _ in range(16)]
        for at in (place, dice.randint(place, 15)):
            marks[at] = bad_mark(dice, marks[at])
        yield readings_call((0, 0), marks, facts=5)
        yield readings_call((0, 0), marks, place, facts=5)


def rounded(dice, twentieths=None):
    """Two floats at or beside halves of a tenth, each with the marks around its tenths, a fact a mark."""
    first, second = twentieths or (dice.randrange(-1999, 2000, 2) for _ in range(2))
    floats = beside(dice, first), beside(dice, second)
    levels = [(channel, (twentieth - 1) // 2 + more) for channel, twentieth in enumerate((first, second)) for more in (-1, 0, 1, 2)]
    marks = [(channel, max(-1000, min(1000, level)), fact) for fact, (channel, level) in enumerate(levels)]
    return readings_call(floats, marks, facts=dice.getrandbits(64))


def beside_halves(dice):
    """Every half of a tenth from -99.95 to 99.95, on either channel."""
    for twentieth in range(-1999, 2000, 2):
        yield rounded(dice, (twentieth, -twentieth))


def walk(dice):
    for part in (every_float, every_short_table, every_bad_mark):
        yield from part(dice)
