"""Calls that tidy a job file in its buffer: saves alone and behind others, with notes, every refusal, and the limits."""
import struct

from call import TRAILER, Call, with_trailer
from draft import HYGIENE, LATE, MOST, RECORD, base_draft
from files import DAMAGE, LONGEST_FILE, save_of, some_file, some_problem
from tables import chain, jobs_u, ruled

CRATES = LATE, HYGIENE
# Notes around the lengths at which another byte of the distance begins.
NOTES = 0, 1, 31, 32, 33, 255, 256, 257, 1000


def tidy_call(file, behind=b'', used=None):
    """The file at the front of a buffer, and what stands behind it."""
    buffer = file + behind
    return Call([12, 0, 0, 0, 0, 0, len(file) if used is None else used, 0, 0, len(buffer)], [], buffer)


def filler(dice, length):
    """Bytes of which none is zero, so that a byte that is left is seen."""
    return bytes(dice.randint(1, 255) for _ in range(length))


def problems():
    """No jobs, four, and as many as there may be; by either rule."""
    for problem in (chain([], True), jobs_u([2, 3], 12), chain([5] * 24, False)):
        yield problem
        yield ruled(problem)


def alone(dice):
    """A save that is at the front already, with and without notes, and with bytes behind those in use."""
    for problem in problems():
        for notes in NOTES:
            file = save_of(problem, filler(dice, notes))
            yield from (tidy_call(file, filler(dice, behind)) for behind in (0, 1, 40))


def behind_others(dice):
    """Bytes before a save that are fewer than its own, as many, and more, so that it moves over itself or not."""
    for problem in problems():
        for notes in (0, 5, 700):
            save = save_of(problem, filler(dice, notes))
            for before in (1, 2, TRAILER, len(save) - 1, len(save), len(save) + 1, 3 * len(save)):
                yield tidy_call(filler(dice, before) + save, filler(dice, dice.choice((0, 3, 90))))
            yield tidy_call(save_of(problem) * 9 + save, filler(dice, 5))


def tidied(dice):
    """What a tidied buffer holds, tidied again: the length in use, and the zeros behind it."""
    for crates in CRATES:
        for _ in range(20):
            file, _ = some_file(dice, crates)
            save = file[-TRAILER - struct.unpack('<I', file[-4:])[0]:]
            yield tidy_call(save, bytes(len(file) - len(save)) + filler(dice, dice.choice((0, 7))))


def long_files(dice):
    """65,536 bytes in use are tidied, one more is refused, whether the buffer has it or not; notes may fill the file."""
    save = save_of(jobs_u([2, 3], 12))
    full = b'\xff' * (LONGEST_FILE - len(save))
    for file in (full[1:] + save, full + save, save_of(jobs_u([2, 3], 12), full), full + b'\xff' + save):
        yield tidy_call(file)
        yield tidy_call(file, filler(dice, 60))
    yield tidy_call(full[400:] + save_of(jobs_u([2, 3], 12), filler(dice, 400)))
    yield tidy_call(save_of(jobs_u([2, 3], 12), full + b'\xff'))
    yield from (tidy_call(full + save, b'', used) for used in (LONGEST_FILE - 1, LONGEST_FILE + 1))


def lengths(dice):
    """Lengths in use that are over the buffer's, that no buffer has, and that cut a save short; 1 comes before 3."""
    save = save_of(jobs_u([2, 3], 12))
    for file in (b'', save[:23], save, filler(dice, 7) + save):
        for used in (len(file) + 1, len(file) + 40, LONGEST_FILE, LONGEST_FILE + 1, 2 ** 32, 2 ** 63, MOST - 23, MOST):
            yield tidy_call(file, b'', used)
    trailer = save_of(chain([], True))
    for used in range(TRAILER + 3):
        yield tidy_call(bytes(used), filler(dice, 30))
        yield tidy_call(filler(dice, 2) + trailer + filler(dice, 4), b'', used)
        yield tidy_call(save, b'', used)


def every_damage(dice):
    """Each byte behind a release, distances around the right ones, each byte of the trailer; nothing may change."""
    file = filler(dice, 9) + save_of(jobs_u([2, 3], 12), b'notes')
    for at in (9 + RECORD * job + byte for job in range(4) for byte in range(26, 32)):
        yield tidy_call(file[:at] + b'\x80' + file[at + 1:], b'behind')
    for distance in (0, 127, 128, 132, 133, 134, 141, 142, 143, 165, 2 ** 16, 2 ** 32 - 24, 2 ** 32 - 1):
        yield tidy_call(with_trailer(file, 20, struct.pack('<I', distance)), b'behind')
    for at in range(TRAILER):
        for value in (0, 1, 24, 65, 193, 255):
            yield tidy_call(with_trailer(file, at, bytes([value])), b'behind')
    for crates in CRATES:
        for damage in DAMAGE * 3:
            yield tidy_call(damage(dice, some_file(dice, crates)[0]), filler(dice, 3))


def faulty_file(dice, crates, fault, jobs=None):
    """The file of a table with a fault in it, notes and older bytes too."""
    draft = base_draft(dice, 8, jobs, crates)
    draft.before, draft.notes = filler(dice, dice.choice((0, 50))), filler(dice, dice.choice((0, 6)))
    fault(draft, dice, dice.randrange(len(draft.jobs)) if draft.jobs else 0)
    return tidy_call(draft.file(), filler(dice, 4))


def every_fault(dice):
    """Each fault of a table, by either rule, in a few jobs and in 24."""
    for crates in CRATES:
        for fault in crates.faults:
            yield from (faulty_file(dice, crates, fault, jobs) for jobs in (None, 24))


def drawn(dice):
    """A file in order, damaged or of a faulty table, with any bytes behind it; now and then another length in use."""
    crates = dice.choice(CRATES)
    chance = dice.random()
    if chance < 0.25:
        return faulty_file(dice, crates, dice.choice(crates.faults))
    file = some_file(dice, crates)[0]
    if chance < 0.5:
        file = dice.choice(DAMAGE)(dice, file)
    elif chance < 0.6:
        file = dice.randbytes(dice.randint(1, 90)) * dice.randint(1, 9) + save_of(some_problem(dice, crates), dice.randbytes(dice.randint(0, 999)))
    buffer = file + dice.randbytes(dice.choice((0, 0, 1, 30)))
    used = len(file) if dice.random() < 0.9 else dice.choice((dice.randint(0, len(buffer)), len(buffer) + 1, LONGEST_FILE + 1, MOST))
    return tidy_call(buffer, b'', used)


WALKS = alone, behind_others, tidied, long_files, lengths, every_damage, every_fault
