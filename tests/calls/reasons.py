"""Calls that ask for reasons. Why a job starts: chains of every length, releases that end them, several jobs that fit, jobs outside the set,
pairs that cannot be settled. Why there is no plan: goals in every way, at the bounds around what they cost. Both with every refusal."""
from dataclasses import replace
from itertools import combinations, product

import rounds
from draft import (HYGIENE, LATE, MOST, ON_TIME, WHY_NO_PLAN, WHY_START, Draft, base_draft, cut_to_limits, each_fault, landed,
                   two_faults, with_lengths)
from releases import chain_releases
from settlings import least_starts, limits, rising_pairs, some_settling
from tables import (LAST_BOUND, LAST_RELEASE, LONGEST, MOST_JOBS, NAMED, Problem, chain, drawn_table, facts_in, house, job, jobs_u,
                    large_table, random_chain, released, ruled, some_facts, tower, word)

CRATES = ON_TIME, LATE, HYGIENE
KINDS = WHY_START, WHY_NO_PLAN
# Jobs of tables of four and of 24 and the next ones, the last that a word of jobs has, and others up to the last of a byte.
STRANGE_JOBS = 0, 3, 4, 5, 22, 23, 24, 25, 31, 32, 62, 63, 64, 67, 127, 128, 254, 255


# Why a job starts: a draft, and jobs without conditions.

def question(problem, pairs, number, inside=None):
    """The draft that asks of this job; all jobs are in the set unless it is given."""
    draft = Draft(WHY_START, problem)
    draft.pairs, draft.pair_count, draft.job = list(pairs), len(pairs), number
    if inside is not None:
        draft.set = inside
    return draft


def loose_jobs(durations, gap, bound=LAST_BOUND):
    """Jobs that need nothing; pairs alone bind them."""
    return Problem(tuple(job([], [0], [], long) for long in durations), 1, 0, 1, bound, gap)


def line(dice, gap):
    """24 jobs one behind the other in a drawn order, the pairs in any order; the table, the order and the pairs."""
    order = dice.sample(range(MOST_JOBS), MOST_JOBS)
    pairs = list(zip(order, order[1:]))
    return loose_jobs([dice.randint(1, 9) for _ in order], gap), order, dice.sample(pairs, len(pairs))


def long_chains(dice):
    """The chain of every job of such a line, the longest one of all 24; and lines in order, at the last end and one less."""
    for gap in (0, 1):
        table, _, pairs = line(dice, gap)
        yield from (question(table, pairs, number).call() for number in range(MOST_JOBS))
        for order, less in product((range(MOST_JOBS), range(MOST_JOBS - 1, -1, -1)), (0, 1)):
            end = 3 * MOST_JOBS + gap * (MOST_JOBS - 1) - less
            yield question(loose_jobs([3] * MOST_JOBS, gap, end), list(zip(order, order[1:])), order[-1]).call()


def ended_chains(dice):
    """The last job of a line, of which one job is released a quarter hour before it starts anyway, just then, and later."""
    for gap, place in product((0, 1), range(1, MOST_JOBS)):
        table, order, pairs = line(dice, gap)
        number, start = order[place], least_starts(question(table, pairs, 0))[order[place]]
        for release in (start - 1, start, start + dice.randint(1, 99)):
            late = released(table, [release if j == number else 0 for j in range(MOST_JOBS)])
            yield question(late, pairs, order[-1]).call()


def several(dice):
    """Some of 23 jobs are over just when the last starts, some before; the pairs rise, fall, and are mixed, each asked twice."""
    for gap, second, fitting in product((0, 1), (0, 11, 23), (2, 5, 23)):
        firsts = [j for j in range(MOST_JOBS) if j != second]
        fit = dice.sample(firsts, fitting)
        table = loose_jobs([6 if j in fit else dice.randint(1, 5) for j in range(MOST_JOBS)], gap)
        rising = [(first, second) for first in firsts]
        for pairs in (rising, rising[::-1], dice.sample(rising * 2, 2 * len(rising))):
            yield question(table, pairs, second).call()


def some_of_p3(dice):
    """Each choice of P3's binding pairs and each job: some are in no pair. Wash is released when unpack is over, or later, or not."""
    binding = [(0, 1), (0, 2), (0, 3), (3, 1)]
    for count, gap in product(range(5), (0, 1)):
        for pairs in combinations(binding, count):
            release = dice.choice((0, 4, 5, 6))
            table = replace(released(jobs_u([2], 30), [0, 0, 0, release]), gap=gap)
            yield from (question(table, pairs, number).call() for number in range(4))


def outsiders(dice):
    """Every strange job, of a set of three jobs, of 23, of none, and where there are no jobs at all."""
    links = chain([2] * MOST_JOBS, False)
    for number in STRANGE_JOBS:
        for table, pairs, inside in ((jobs_u([2], 12), [(0, 1)], 0b1011), (links, [(0, 23), (23, 4)], 0xffffdf),
                                     (jobs_u([2], 12), [], 0), (chain([], False), [], 0)):
            yield question(replace(table, gap=dice.choice((0, 1))), pairs, number, inside).call()


def unsettled(dice):
    """A circle, one that the job is not in, a job before itself, and bounds at the last end and one less: 16 comes before 27."""
    table = jobs_u([2], LAST_BOUND)
    for pairs, gap, number in product(([(1, 3), (3, 1)], [(0, 1), (1, 0), (0, 3)], [(1, 1)]), (0, 1), (0, 1, 3, 2, 255)):
        yield question(replace(table, gap=gap), pairs, number, 0b1011).call()
    for end, gap, number in product((8, 9, 10, 11), (0, 1), (0, 3, 2, 64)):
        yield question(replace(table, gap=gap, bound=end), [(0, 1), (1, 3)], number, 0b1011).call()


def wrong_pairs(dice):
    """Each fault of 15, alone and before 16 and 27: sets beyond the table, 601 pairs, the first of two pairs outside the set."""
    circle, table = [(0, 1), (1, 0)], ruled(jobs_u([2], LAST_BOUND))
    for number in (0, 2, 255):
        yield from (question(table, circle, number, 0b1011 | 1 << beyond).call() for beyond in (4, 23, 24, 63))
        yield from (question(table, pairs * 300 + more, number, 0b1011).call()
                    for pairs, more in (([(0, 1)] * 2, []), ([(0, 1)] * 2, [(0, 1)]), (circle, []), (circle, [(2, 2)])))
        for pair in ((2, 0), (0, 2), (2, 2), (4, 0), (0, 64), (255, 255)):
            yield question(table, [(0, 1), pair, (1, 0), (2, 2)], number, 0b1011).call()


def pair_limits(dice):
    """The pair counts and the sets of settling, asked of the first job, a middle one, the last and one more."""
    for draft in limits(dice, WHY_START):
        draft.job = dice.choice((0, 12, 23, 24))
        yield draft.call()


def lengths(dice):
    """One byte too few, just enough, more, and none, for 0, 1 and 24 jobs; the chain of 24 fills all that is needed."""
    for jobs, more, fill in product((0, 1, MOST_JOBS), (-1, 0, 1, 9, -MOST_JOBS), (0, 0xff)):
        draft = question(loose_jobs([2] * jobs, dice.choice((0, 1))), list(zip(range(jobs), range(1, jobs))), max(0, jobs - 1))
        draft.room, draft.fill = max(0, draft.room + more), fill
        yield draft.call()


# Why there is no plan: what the estimates say.

def costs(problem):
    """What each fact costs that is ever reachable."""
    told = {}
    cost = dict.fromkeys(facts_in(problem.opening), 0)
    while told != cost:
        told = dict(cost)
        for j in problem.jobs:
            needs = facts_in(j.conditions)
            if all(fact in told for fact in needs):
                over = max([j.release, *(told[fact] + problem.gap for fact in needs if told[fact])]) + j.duration
                cost.update((fact, min(over, cost.get(fact, over))) for fact in facts_in(j.additions))
    return cost


def around(problem, goals=None):
    """Asked at the bounds around what the dearest goal costs that is ever reachable, by both rules."""
    wanted = problem.goals if goals is None else goals
    for gap in (0, 1):
        table = replace(problem, goals=wanted, gap=gap)
        told = costs(table)
        dear = max((told.get(fact, 0) for fact in facts_in(wanted)), default=0)
        for bound in sorted({max(0, min(LAST_BOUND, dear + more)) for more in (-1, 0, 1)}):
            yield Draft(WHY_NO_PLAN, replace(table, bound=bound)).call()


# The ways of a goal, by the jobs that add it. What two jobs give costs a quarter hour more under rule 2; no job adds fact 30.
WAYS = {
    'open': lambda goal, helper, bound: [],
    'in time': lambda goal, helper, bound: [job([], [goal], [], bound), job([], [goal], [], bound + 5)],
    'by two': lambda goal, helper, bound: [job([], [helper], [], 2), job([helper], [goal], [], bound - 2)],
    'too dear': lambda goal, helper, bound: [job([], [goal], [], bound + 1)],
    'too dear by two': lambda goal, helper, bound: [job([], [helper], [], 3), job([helper], [goal], [], bound - 2)],
    'released late': lambda goal, helper, bound: [job([], [goal], [], bound - 1)._replace(release=2)],
    'not added': lambda goal, helper, bound: [],
    'never': lambda goal, helper, bound: [job([30], [goal], [], 1)],
}
REACHABLE = list(WAYS)[:6]


def goals_table(goals, ways, gap, bound=7):
    """A table in which each goal has its way; facts from 31 on stand between two jobs."""
    jobs = [j for at, (goal, way) in enumerate(zip(goals, ways)) for j in WAYS[way](goal, 31 + at, bound)]
    opening = word(*(goal for goal, way in zip(goals, ways) if way == 'open'))
    return Problem(tuple(jobs), 64, opening, word(*goals), bound, gap)


def every_way(dice):
    """The first and the last fact, each in each way, by both rules; and more goals, in drawn ways."""
    for *ways, gap in product(WAYS, WAYS, (0, 1)):
        yield Draft(WHY_NO_PLAN, goals_table((0, 63), ways, gap)).call()
    for _ in range(60):
        goals = sorted(dice.sample([fact for fact in range(64) if not 30 <= fact < 40], dice.randint(3, 8)))
        ways = dice.choices(dice.choice((list(WAYS), REACHABLE)), k=len(goals))
        yield Draft(WHY_NO_PLAN, goals_table(goals, ways, dice.choice((0, 1)))).call()


def all_facts(dice):
    """All 64 facts are goals: all open, one not added, one too dear, one too dear while 40 is not added, and the other way round."""
    for fact in (0, 1, 31, 32, 62, 63):
        dear, also_dear = job([], [fact], [], 9), job([], [40], [], 9)
        for missing, jobs in ((0, ()), (word(fact), ()), (word(fact), (dear,)), (word(fact, 40), (dear,)), (word(fact, 40), (also_dear,))):
            table = Problem(jobs, 64, MOST & ~missing, MOST, dice.choice((0, 8, 9)), dice.choice((0, 1)))
            yield Draft(WHY_NO_PLAN, table).call()


def chain_costs(dice):
    """Chains of jobs, without releases and with, of which the last fact or a middle one is wanted; some cost more than any bound."""
    for length in (1, 2, 12, MOST_JOBS):
        yield from around(chain([dice.randint(1, 9) for _ in range(length)], False))
    for late, long in product(chain_releases(), (1, 70)):
        yield from around(released(chain([long] * MOST_JOBS, dice.random() < 0.5), late), word(dice.choice((12, MOST_JOBS))))
    latest = released(chain([LONGEST] * MOST_JOBS, False), [LAST_RELEASE] * MOST_JOBS)
    yield from around(latest)
    yield from around(replace(latest, opening=word(1)), word(1, 12))


def many_rounds(dice):
    """Facts that get cheaper again and again, and circles that are entered or not; the dearest goal or several."""
    for table in (rounds.ladder(12, 10), rounds.wide_ladder(12), rounds.circle(5, None, 0), rounds.circle(5, 3, 1), rounds.circle(23, 0, 7)):
        yield from around(table)
        yield from around(table, table.goals | some_facts(dice, 4, table.atoms))


def named(dice):
    """The named problems and houses around their bounds, by both rules: with a plan, and without one though no goal is too dear."""
    houses = [house(groups) for groups in ((1, 1), (5, 7), (1, 7, 7))]
    for problem, gap in product([*NAMED, *houses, tower(3)], (0, 1)):
        for bound in (0, 11, 12, 13, LAST_BOUND):
            yield Draft(WHY_NO_PLAN, replace(problem, bound=bound, gap=gap)).call()


def nothing_wanted(dice):
    """No goals, and goals that are open or not, with jobs and without, at the first bound and the last."""
    for jobs, goals, bound in product(((), jobs_u([], 0).jobs), (0, 1, 2, 3, 1 << 4), (0, LAST_BOUND)):
        yield Draft(WHY_NO_PLAN, Problem(jobs, 5, 1, goals, bound, dice.choice((0, 1)))).call()


# Bad input.

def every_fault(dice):
    """By rule 1 at the first and the last job, by rule 2 at a middle one."""
    yield from each_fault(dice, LATE, (0, MOST_JOBS - 1), KINDS)
    yield from each_fault(dice, HYGIENE, (11,), KINDS)


def every_two_faults(dice):
    return two_faults(dice, KINDS)


def before_the_pairs(dice):
    """Each fault of a table before 15, 16 and 27, all three of which are due."""
    for crates in (LATE, HYGIENE):
        for fault in crates.faults:
            draft = base_draft(dice, WHY_START, 8, crates)
            draft.pairs, draft.pair_count, draft.job = [(1, 1), (0, 63)], 2, 200
            fault(draft, dice, dice.randrange(8))
            yield cut_to_limits(draft).call()


# Drawn calls.

def some_job(dice, draft):
    """Mostly one of the set, else any of the table or of a byte."""
    inside = [j for j in range(draft.count) if draft.set >> j & 1]
    if inside and dice.random() < 0.85:
        return dice.choice(inside)
    return dice.choice((dice.randrange(draft.count + 1), dice.randrange(256)))


def tight(dice):
    """Short jobs with many pairs, so that several fit, some released just when they start anyway."""
    count = dice.choice((6, 12, MOST_JOBS))
    table = loose_jobs([dice.randint(1, dice.choice((1, 3, 9))) for _ in range(count)], dice.choice((0, 1)))
    table = replace(table, jobs=dice.choice((ON_TIME, LATE)).land(dice, table.jobs))
    draft = question(table, rising_pairs(dice, range(count), 6 * count), 0)
    for number, start in least_starts(draft).items():
        if dice.random() < 0.1 and start <= LAST_RELEASE:
            draft.set_field(number, 'release', start)
    return draft


def some_question(dice):
    """A settling of any kind, mostly in order, and any job."""
    draft = tight(dice) if dice.random() < 0.5 else some_settling(dice, dice.choice(CRATES), WHY_START)
    draft.job = some_job(dice, draft)
    return with_lengths(draft, dice)


def some_reason(dice):
    """A table of any kind with any goals, at a bound around what one of them costs."""
    table = dice.choice((drawn_table, random_chain, large_table))(dice)
    table = landed(dice, dice.choice(CRATES), replace(table, goals=table.goals | some_facts(dice, 5, table.atoms)))
    told = [cost for fact, cost in costs(table).items() if table.goals >> fact & 1] or [12]
    bound = max(0, dice.choice(told) + dice.choice((-1, 0, 0, 1, 50, LAST_BOUND)))
    return Draft(WHY_NO_PLAN, replace(table, bound=min(bound, LAST_BOUND)))


def drawn(dice):
    """Either question; now and then a fault of the table."""
    draft = dice.choice((some_question, some_reason))(dice)
    if dice.random() < 0.06:
        dice.choice(LATE.faults)(draft, dice, dice.randrange(max(1, len(draft.jobs))))
    return cut_to_limits(draft).call()


WALKS = (long_chains, ended_chains, several, some_of_p3, outsiders, unsettled, wrong_pairs, pair_limits, lengths, every_way, all_facts,
         chain_costs, many_rounds, named, nothing_wanted, every_fault, every_two_faults, before_the_pairs)
