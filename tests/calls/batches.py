"""Calls that expand batches of the house groups into a job table: every list of up to two groups, drawn ones of three and four, tables around
24 jobs, groups that there are not at every place, more batches than may be, and records lent that are enough or too few."""
from itertools import product

from call import Call, Job
from draft import BATCHES
from tables import GROUPS, MOST_JOBS, house

MOST_BATCHES = 4
KNOWN = range(len(GROUPS))
# How many jobs a batch of each group has.
JOBS = [len(house((group,)).jobs) for group in KNOWN]
# Groups that there are not: the first ones, those around a bit, the last.
UNKNOWN = 12, 13, 16, 127, 128, 255
# Lists of just as many jobs as there may be, and of one more, of three more, and of the most that four batches give.
FULL = (7, 7, 7, 7), (10, 10, 10), (9, 9, 9, 1), (10, 10, 9, 0), (5, 5, 9, 9), (1, 9, 7, 10)
OVER = (10, 10, 10, 0), (9, 9, 9, 2), (7, 7, 7, 9), (10, 10, 10, 1), (10, 10, 10, 10)


def some_record(dice):
    """Any bits at all, so that a record that is changed is seen."""
    return Job(*(dice.getrandbits(64) for _ in range(3)), dice.getrandbits(16), dice.getrandbits(16))


def batch_call(dice, groups, lent):
    """These batches, with so many records lent."""
    records = [some_record(dice) for _ in range(lent)]
    return Call([BATCHES] + [0] * 7 + [lent, len(groups)], records, bytes(groups))


def jobs_of(groups):
    return sum(JOBS[group] for group in groups)


def with_room(dice, groups):
    """Known groups, with just enough records or a few more."""
    return batch_call(dice, groups, jobs_of(groups) + dice.choice((0, 0, 1, 5)))


def some_groups(dice, count):
    return [dice.choice(KNOWN) for _ in range(count)]


# Tables.

def few_batches(dice):
    """Every list of up to two groups."""
    return (with_room(dice, groups) for count in range(3) for groups in product(KNOWN, repeat=count))


def many_batches(dice):
    """Lists of three and four, some over 24 jobs."""
    return (with_room(dice, some_groups(dice, count)) for count in (3, 4) for _ in range(150))


def every_place(dice):
    """Each group as third and as fourth batch, behind short ones."""
    for count, group in product((2, 3), KNOWN):
        yield with_room(dice, [dice.choice((0, 1, 3, 6, 11)) for _ in range(count)] + [group])


def around_full(dice):
    """22 to 26 jobs, and the named lists, with records for 24 and for all of them."""
    lists = {jobs: [] for jobs in range(MOST_JOBS - 2, MOST_JOBS + 3)}
    for groups in product(KNOWN, repeat=MOST_BATCHES):
        lists.get(jobs_of(groups), []).append(groups)
    drawn = [groups for near in lists.values() for groups in dice.sample(near, 12)]
    for groups in (*FULL, *OVER, *drawn):
        yield from (batch_call(dice, groups, lent) for lent in (MOST_JOBS, 40))


# Refusals.

def every_byte(dice):
    """Each byte that there is as the only group."""
    return (batch_call(dice, [group], 9) for group in range(256))


def unknown_groups(dice):
    """A group that there is not at each place of one to four batches, then with another one there or behind it; with records and without."""
    for count in range(1, MOST_BATCHES + 1):
        for place, group in product(range(count), UNKNOWN):
            groups = some_groups(dice, count)
            groups[place] = group
            yield batch_call(dice, groups, dice.choice((0, MOST_JOBS, 40)))
            groups[dice.randint(place, count - 1)] = dice.choice(UNKNOWN)
            yield batch_call(dice, groups, dice.choice((0, MOST_JOBS)))


def too_many(dice):
    """Five batches and more, of short groups and of long ones, with records and without."""
    for count in (5, 6, 7, 24, 25, 64, 255, 256, 257, 1000):
        for groups in ([0] * count, [10] * count, some_groups(dice, count)):
            yield batch_call(dice, groups, dice.choice((0, MOST_JOBS, 40)))


def unknown_among_many(dice):
    """Five batches and more with a group that there is not among the first four, behind them and as the last."""
    for count in (5, 6, 24, 260):
        for place in sorted({0, 3, 4, count // 2, count - 1}):
            groups = some_groups(dice, count)
            groups[place] = dice.choice(UNKNOWN)
            yield batch_call(dice, groups, dice.choice((0, MOST_JOBS)))
            yield batch_call(dice, groups + [255], 0)


def far_behind(dice):
    """A group that there is not at the last place but one that can be named, and behind all that can be."""
    for place in (65534, 65599):
        yield batch_call(dice, bytes(place) + b'\x0c', 2)


def records_lent(dice):
    """None, one too few, just enough, one more, many more: for each group alone, for no batches, and for longer lists."""
    for groups in (*((group,) for group in KNOWN), (), (1, 1), (7, 7, 1), *FULL):
        jobs = jobs_of(groups)
        for lent in sorted({0, max(0, jobs - 1), jobs, jobs + 1, 60}):
            yield batch_call(dice, groups, lent)


def before_records(dice):
    """Few records or none: what else is refused is said before that."""
    for groups in (*OVER, (0,) * 5, (10,) * 5, (0, 12), (255, 10, 10, 10), (0, 0, 0, 0, 12)):
        yield from (batch_call(dice, groups, lent) for lent in (0, 1, 23))


# Drawn calls.

def drawn(dice):
    """Mostly one to four batches of groups that there are, with records enough."""
    groups = some_groups(dice, dice.choice((0, 1, 2, 3, 3, 3, 4, 4, 4, 4, 4, 5, 9)))
    for place in range(len(groups)):
        if dice.random() < 0.03:
            groups[place] = dice.choice((*UNKNOWN, dice.randint(12, 255)))
    return batch_call(dice, groups, dice.choice((MOST_JOBS, MOST_JOBS, MOST_JOBS, 30, dice.randint(0, MOST_JOBS))))


WALKS = (few_batches, many_batches, every_place, around_full, every_byte, unknown_groups, too_many, unknown_among_many, far_behind, records_lent,
         before_records)
