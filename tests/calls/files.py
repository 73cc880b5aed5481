"""Calls of the reader with files in order and damaged, and of the writer at its limits."""
import struct

from call import TRAILER, Call, Job, marked, with_trailer
from draft import MOST, RECORD, Draft, landed, save_bytes
from tables import chain, jobs_u, large_table, small_table

LONGEST_FILE = 65536


def read_call(file, lent):
    return Call([8] + [0] * 7 + [len(lent), len(file)], lent, file)


def some_records(dice, count):
    """What stands in the lent records before the call."""
    return [Job(dice.getrandbits(64), dice.getrandbits(64), dice.getrandbits(64), dice.getrandbits(16))
            for _ in range(count)]


def save_of(problem, notes=b''):
    count = len(problem.jobs)
    return save_bytes(problem.jobs, count, marked(problem.atoms, problem.gap), problem.opening, problem.goals,
                      problem.bound, RECORD * count + len(notes), notes)


def some_problem(dice, crates):
    return landed(dice, crates, dice.choice((small_table, large_table))(dice))


def some_file(dice, crates):
    """A save with older saves or other bytes before it and notes within; and its job count."""
    problem = some_problem(dice, crates)
    older = dice.randbytes(dice.randint(1, 200)), save_of(some_problem(dice, crates)), save_of(problem) * 2
    before = dice.choice((b'', *older))
    notes = dice.choice((b'', b'', dice.randbytes(dice.randint(1, 90))))
    return before + save_of(problem, notes), len(problem.jobs)


# Damage. Each takes a file and gives another.

def flipped(dice, file):
    at = dice.randrange(len(file))
    return file[:at] + bytes([file[at] ^ 1 << dice.randrange(8)]) + file[at + 1:]


def flipped_trailer(dice, file):
    at = dice.randrange(TRAILER)
    return with_trailer(file, at, bytes([file[len(file) - TRAILER + at] ^ 1 << dice.randrange(8)]))


def other_distance(dice, file):
    distance = struct.unpack('<I', file[-4:])[0]
    most = len(file) - TRAILER
    other = dice.choice((distance - 1, distance + 1, distance - 32, distance + 32, 0, most, most + 1, 2 ** 31, 2 ** 32 - 1))
    return with_trailer(file, 20, struct.pack('<I', other % 2 ** 32))


def other_count(dice, file):
    count = file[len(file) - TRAILER + 18]
    return with_trailer(file, 18, bytes([dice.choice((count - 1, count + 1, 0, 24, 25, 255)) % 256]))


def not_zero(dice, file):
    """One of the six bytes behind a duration; two are the release and may be, four may not."""
    distance, count = struct.unpack('<I', file[-4:])[0], file[len(file) - TRAILER + 18]
    if count == 0:
        return file
    at = len(file) - TRAILER - distance + RECORD * dice.randrange(count) + dice.randint(26, 31)
    return file[:at] + bytes([dice.randint(1, 255)]) + file[at + 1:]


def cut_short(dice, file):
    return file[:dice.randrange(len(file))]


def cut_front(dice, file):
    """The trailer stands, the records may reach over the front."""
    return file[dice.randrange(len(file)):]


def appended(dice, file):
    """Bytes behind the trailer, so that the last 24 are others."""
    return file + dice.randbytes(dice.randint(1, 40))


def stretched(dice, file):
    """As long as a file may be, or a byte off."""
    return bytes(max(0, LONGEST_FILE + dice.choice((-1, 0, 1)) - len(file))) + file


DAMAGE = (flipped, flipped, flipped_trailer, flipped_trailer, other_distance, other_count, not_zero, cut_short, cut_front,
          appended)


def reading(dice, crates):
    file, count = some_file(dice, crates)
    if dice.random() < 0.6:
        file = dice.choice(DAMAGE)(dice, file)
    if dice.random() < 0.03:
        file = stretched(dice, file)
    lent = some_records(dice, dice.choice((count, count, count, count + 1, max(0, count - 1), 24, 255)))
    return read_call(file, crates.land(dice, lent))


# The writer.

def writing(dice, crates):
    """Behind some bytes in use, with the buffer just long enough, longer, or too short."""
    draft = Draft(9, some_problem(dice, crates))
    draft.used = dice.choice((0, 0, 1, 31, dice.randint(0, 300)))
    length = draft.used + RECORD * draft.count + TRAILER + dice.choice((0, 0, 0, 1, 40, -1, -24))
    draft.buffer = dice.randbytes(max(0, length))
    if dice.random() < 0.1:
        draft.used = dice.choice((LONGEST_FILE, LONGEST_FILE - 24, 2 ** 32, MOST, MOST - 100, len(draft.buffer)))
    return draft.call()


def write_limits(dice):
    """Around 65,536 bytes after appending, and counts and uses that no buffer serves."""
    for jobs in (0, 4, 24):
        save = RECORD * jobs + TRAILER
        for off in (-1, 0, 1):
            for length in (LONGEST_FILE - 1, LONGEST_FILE, LONGEST_FILE + 1, 65700):
                draft = Draft(9, chain([7] * jobs, True))
                draft.used = LONGEST_FILE - save + off
                draft.buffer = dice.randbytes(16) * (length // 16) + bytes(length % 16)
                yield draft.call()
    for used in (0, 1, 2 ** 16, 2 ** 32, 2 ** 63, MOST - 23, MOST):
        for count in (0, 5, 25, 255, 2046, 2047, 2048, 3000, 2 ** 27, 2 ** 59 - 1, 2 ** 59, 2 ** 63, MOST):
            draft = Draft(9, jobs_u([2], 12))
            draft.used, draft.count, draft.buffer = used, count, bytes(200)
            yield draft.call()


# Files of every short length, and each part of a file damaged.

def short_files(dice):
    for length in range(TRAILER + 2):
        yield read_call(bytes(length), some_records(dice, 2))
        trailer = struct.pack('<QQHBBI', 0, 0, 0, 0, 1, 0)
        yield read_call((b'\1\1' + trailer)[-length:] if length else b'', [])


def long_files(dice):
    """65,536 bytes are read, one more is refused."""
    for problem in (jobs_u([2, 3], 12), chain([5] * 24, False)):
        save = save_of(problem)
        for length in (LONGEST_FILE - 1, LONGEST_FILE, LONGEST_FILE + 1, 65700):
            yield read_call(b'\xff' * (length - len(save)) + save, some_records(dice, 24))
        notes = b'\xff' * (LONGEST_FILE - len(save))
        yield read_call(save_of(problem, notes), some_records(dice, 24))
        yield read_call(save_of(problem, notes + b'\xff'), some_records(dice, 24))


def many_records(dice):
    """25 to 255 jobs in the file, with records lent or not; one of the last record's four bytes comes first."""
    for count in (24, 25, 26, 100, 254, 255):
        save = save_bytes([Job(0, 1, 0, 1)] * count, count, 1, 0, 0, 9, RECORD * count)
        spoilt = save[:RECORD * count - 1] + b'\1' + save[RECORD * count:]
        for lent in (24, count - 1, count, 255):
            yield read_call(save, some_records(dice, lent))
            yield read_call(spoilt, some_records(dice, lent))


def every_damage(dice):
    """Each of the six bytes behind each duration, each distance around the right ones, each byte of the trailer."""
    file = save_of(jobs_u([2, 3], 12), b'notes')
    for at in (RECORD * j + byte for j in range(4) for byte in range(26, 32)):
        yield read_call(file[:at] + b'\x80' + file[at + 1:], some_records(dice, 4))
    for distance in (0, 127, 128, 129, 132, 133, 134, 165, 2 ** 16, 2 ** 32 - 1):
        yield read_call(with_trailer(file, 20, struct.pack('<I', distance)), some_records(dice, 4))
    for at in range(TRAILER):
        for value in (0, 1, 24, 65, 255):
            yield read_call(with_trailer(file, at, bytes([value])), some_records(dice, 5))


def walk(dice):
    for part in (write_limits, short_files, long_files, many_records, every_damage):
        yield from part(dice)
