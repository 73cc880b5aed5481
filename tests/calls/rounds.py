"""Calls for estimates that take many rounds: chains in any order, facts that get cheaper again and again, circles."""
from dataclasses import replace

from draft import Draft
from tables import LAST_RELEASE, MOST_JOBS, OUT, Problem, chain, job, landing, ruled, word


def called(dice, table):
    """By both rules, and once with releases; the bound plays no part, and more may be lent than needed."""
    for asked in (table, ruled(table), replace(table, jobs=landing(dice, table.jobs), gap=dice.choice((0, 1)))):
        draft = Draft(6, replace(asked, bound=dice.choice((0, 12, OUT))))
        draft.room += dice.choice((0, 0, 1))
        yield draft.call()


def orders(dice, table):
    """The jobs as they are, the last first, and mixed."""
    yield table
    yield replace(table, jobs=table.jobs[::-1])
    for _ in range(3):
        yield replace(table, jobs=tuple(dice.sample(table.jobs, len(table.jobs))))


def ladder(steps, rise, atoms=0):
    """Each fact from the one before it by a short job, and from the opening by one that is the longer the higher the fact: every
    round makes each fact cheaper, by a chain that begins one lower."""
    climbs = [job([fact], [fact + 1], [], 1) for fact in range(steps)]
    jumps = [job([0], [fact + 1], [], rise * fact + 2) for fact in range(steps)]
    return Problem(tuple(climbs + jumps), atoms or steps + 1, 1, word(steps), 0)


def wide_ladder(steps):
    """The same with jobs that need the two facts below, and add two."""
    climbs = [job([fact, max(0, fact - 1)], [fact + 1, fact + 2], [], 2) for fact in range(steps)]
    jumps = [job([0], [fact + 1], [], 9 * fact + 5) for fact in range(steps)]
    return Problem(tuple(climbs + jumps), steps + 2, 1, word(steps), 0)


def circle(length, entry, dear):
    """A chain whose last job gives the first fact, which is not open; a job that needs nothing enters it, or none does."""
    jobs = [job([fact], [(fact + 1) % length], [], fact + 1) for fact in range(length)]
    return Problem(tuple(jobs + ([] if entry is None else [job([], [entry], [], dear)])), length, 0, word(0), 0)


def chains(dice):
    for length in (1, 2, 12, MOST_JOBS - 1, MOST_JOBS):
        for table in orders(dice, chain([dice.randint(1, 9) for _ in range(length)], False)):
            yield from called(dice, table)


def ladders(dice):
    """The last at the highest facts that there are."""
    for table in (ladder(1, 10), ladder(5, 3), ladder(12, 10), ladder(12, 87), ladder(12, 2), ladder(12, 10, 64), wide_ladder(12)):
        for other in orders(dice, table):
            yield from called(dice, other)


def circles(dice):
    for length, entry, dear in ((2, None, 0), (5, None, 0), (5, 0, 960), (5, 3, 1), (23, 0, 7), (23, 22, 40), (24, None, 0)):
        for table in orders(dice, circle(length, entry, dear)):
            yield from called(dice, table)


def without_conditions(dice):
    """Jobs that need nothing, at their releases, of which some give what others need; and facts that no job needs or gives."""
    for late in (0, 1, 40, LAST_RELEASE):
        jobs = [job([], [fact], [], 3)._replace(release=late * (fact % 2)) for fact in range(6)]
        jobs += [job([fact, fact + 1], [fact + 8], [], 2) for fact in range(5)] + [job([60], [61], [], 1), job([8, 62], [62], [], 1)]
        for table in orders(dice, Problem(tuple(jobs), 64, word(5), word(9), 0)):
            yield Draft(6, table).call()
            yield Draft(6, ruled(table)).call()


def drawn(dice):
    """A chain, a ladder or a circle with any numbers, in any order."""
    steps, rise = dice.randint(1, MOST_JOBS // 2), dice.randint(1, 85)
    table = dice.choice((chain([dice.randint(1, rise) for _ in range(2 * steps)], False), ladder(steps, rise), wide_ladder(steps),
                         circle(steps + 1, dice.choice((None, 0, steps)), rise)))
    mixed = replace(table, jobs=tuple(dice.sample(table.jobs, len(table.jobs))))
    return dice.choice(list(called(dice, mixed)))


WALKS = chains, ladders, circles, without_conditions
