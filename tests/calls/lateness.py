"""Calls that ask how late a plan can get: overruns at their limits, chains of every length whose jobs support, clash or both, plans with slack,
releases before, at and behind what the pairs give, jobs beside the longest chain, jobs that are out; and plans with every refusal, which come
before that of the overrun."""
from dataclasses import replace
from itertools import product

from call import Job, with_overrun
from draft import HOW_LATE, HYGIENE, LATE, MOST, ON_TIME, Draft, cut_to_limits, each_fault, landed, planned_table, some_offer, two_faults
from follows import ADDERS, PLANS, UNWASHED, near, spread_table, too_near
from reasons import question
from settlings import least_starts, rising_pairs
from tables import (LAST_BOUND, LAST_RELEASE, LONGEST, MOST_JOBS, MOST_OVERRUN, OUT, Problem, chain, clashing, drawn_table, house, job, jobs_u,
                    released, ruled, some_plan, to_its_end, with_goals, word)

CRATES = ON_TIME, LATE, HYGIENE
# The overruns that are taken, at their ends and beside them, and those that are not: also such as would be taken without their high bits.
TAKEN = 0, 1, 2, MOST_OVERRUN - 1, MOST_OVERRUN
OVER = MOST_OVERRUN + 1, MOST_OVERRUN + 2, 127, 128, 255, 256, 257, 256 + MOST_OVERRUN, 32768, 65535
FEW = 0, 1, MOST_OVERRUN


def late_draft(problem, starts, most=0):
    """A draft that asks it of a plan, each job running over by so much at most."""
    draft = Draft(HOW_LATE, problem, starts)
    draft.most = most
    return draft


def asked(plan, overruns):
    """It is asked of a plan once for each of the overruns."""
    return (late_draft(*plan, most).call() for most in overruns)


def some_overrun(dice):
    return dice.randint(1, MOST_OVERRUN)


# Tables of which every binding pair is known.

def woven(durations, pairs, gap, clashes=()):
    """Jobs that bind in these pairs: the first adds what the second needs or, where the pair clashes, what the second deletes."""
    def linked(number, clashing):
        return [first for first, second in pairs if second == number and ((first, second) in clashes) == clashing]

    jobs = (job(linked(j, False), [j, MOST_JOBS + j], [MOST_JOBS + first for first in linked(j, True)], long)
            for j, long in enumerate(durations))
    return Problem(tuple(jobs), 2 * MOST_JOBS, 0, word(*range(len(durations))), LAST_BOUND, gap)


def settled_plan(problem, pairs, late=()):
    """The plan of such a table that is as early as can be or, with these releases instead of its own, some later one."""
    least = least_starts(question(released(problem, late), pairs, 0))
    starts = [least[j] for j in range(len(problem.jobs))]
    return to_its_end(problem, starts), starts


def some_order(dice, length):
    """Jobs in a drawn order, and the pairs that lead from one to the next."""
    order = dice.sample(range(length), length)
    return order, list(zip(order, order[1:]))


# Overruns.

def small_plans(dice):
    """P3, with warm released later, under rule 2, without wash, and with two that add what the last job needs, at every limit."""
    for plan in (*PLANS, UNWASHED, ADDERS, (ruled(ADDERS[0]), ADDERS[1])):
        yield from asked(plan, (*TAKEN, *OVER))


def every_overrun(dice):
    """P3 under rule 2 with every overrun that is taken, and the next."""
    return asked(PLANS[-1], range(MOST_OVERRUN + 2))


# Chains.

def long_chains(dice):
    """Chains of 1 to 24 jobs in a drawn order that support, that clash, and that do either by turns, by either rule."""
    for gap, length in product((0, 1), range(1, MOST_JOBS + 1)):
        durations = [dice.randint(1, 9) for _ in range(length)]
        for part in range(3):
            _, pairs = some_order(dice, length)
            clashes = [pair for number, pair in enumerate(pairs) if part == 1 or part == 2 and number % 2]
            overruns = (0, MOST_OVERRUN) if part == 2 else (some_overrun(dice),)
            yield from asked(settled_plan(woven(durations, pairs, gap, clashes), pairs), overruns)


def full_tables(dice):
    """24 jobs of which every two bind, one after the other in a drawn order; 24 that bind none; 24 that end at the last bound; few long jobs."""
    for gap in (0, 1):
        order, _ = some_order(dice, MOST_JOBS)
        starts = [(1 + gap) * place for place in order]
        yield from asked((to_its_end(replace(clashing(MOST_JOBS), gap=gap), starts), starts), FEW)
        for durations, pairs in (([7] * MOST_JOBS, []), ([120 - gap] * 23 + [120], list(zip(range(23), range(1, 24)))),
                                 ([LONGEST, LONGEST, LONGEST - 2 * gap], [(0, 1), (1, 2)])):
            yield from asked(settled_plan(woven(durations, pairs, gap), pairs), FEW)


def webs(dice):
    """Many pairs between few jobs and between many, so that chains cross: as early as can be, and with slack; some released."""
    for gap, count, late in product((0, 1), (5, 12, MOST_JOBS), (False, True)):
        for _ in range(4):
            pairs = rising_pairs(dice, range(count), 3 * count)
            clashes = [pair for pair in pairs if dice.random() < 0.3]
            table = woven([dice.randint(1, dice.choice((2, 40))) for _ in range(count)], pairs, gap, clashes)
            landing = dice.choice((ON_TIME, LATE)).land(dice, table.jobs)
            table = released(table, [min(j.release, 900) for j in landing])
            waits = [j.release + dice.randint(0, 60) for j in table.jobs] if late else ()
            yield from asked(settled_plan(table, pairs, waits), (0, some_overrun(dice)))


# Slack and releases.

def slack(dice):
    """Chains of which the first job, a middle one or the last waits for nothing; a lone job that starts as late as it can."""
    for gap, length in product((0, 1), (1, 2, 5, MOST_JOBS)):
        order, pairs = some_order(dice, length)
        table = woven([dice.randint(1, 9) for _ in order], pairs, gap)
        for place in sorted({0, length // 2, length - 1}):
            late = [dice.randint(300, 400) if j == order[place] else 0 for j in range(length)]
            yield from asked(settled_plan(table, pairs, late), (0, some_overrun(dice)))
    for gap in (0, 1):
        yield from asked((woven([LONGEST], [], gap), [LAST_BOUND - LONGEST]), FEW)


def releases_around(dice):
    """A chain of five jobs, one of them released a quarter hour before it starts anyway, just then, a quarter hour later and far later."""
    for gap, place in product((0, 1), range(5)):
        order, pairs = some_order(dice, 5)
        table = woven([dice.randint(2, 9) for _ in order], pairs, gap)
        start = settled_plan(table, pairs)[1][order[place]]
        for release in (max(0, start - 1), start, start + 1, start + 500):
            late = released(table, [release if j == order[place] else 0 for j in range(5)])
            yield from asked(settled_plan(late, pairs), (0, some_overrun(dice)))


def lone_releases(dice):
    """One job in no pair, released so late that it alone is finished last, just as late as the chain beside it, and sooner; as late as can be."""
    for gap, number in product((0, 1), (0, 2, 4)):
        order = [j for j in range(5) if j != number]
        pairs = list(zip(order, order[1:]))
        table = woven([3] * 5, pairs, gap)
        end = settled_plan(table, pairs)[0].bound
        for release in (end - 4, end - 3, end - 2, LAST_RELEASE - 3):
            late = released(table, [release if j == number else 0 for j in range(5)])
            yield from asked(settled_plan(late, pairs), FEW)


# Jobs beside the longest chain.

def beside(dice):
    """A long job, and two long jobs that bind, beside a chain of short ones: the job finished last is not in the longest chain."""
    for gap, short, long in product((0, 1), (2, 5, 22), (1, 2)):
        numbers = dice.sample(range(short + long), short + long)
        chains = numbers[:short], numbers[short:]
        pairs = [pair for links in chains for pair in zip(links, links[1:])]
        durations = [300 if j in chains[1] else dice.randint(1, 3) for j in range(short + long)]
        yield from asked(settled_plan(woven(durations, pairs, gap), pairs), FEW)


def two_ways(dice):
    """A job behind one long job and behind a chain of short ones, which is over sooner or later; every numbering of the firsts."""
    for gap, long, numbers in product((0, 1), (1, 9, 10, 90), ((0, 1, 2), (2, 0, 1), (1, 2, 0))):
        first, *links = numbers
        pairs = [(first, 3), (links[0], links[1]), (links[1], 3)]
        durations = [long if j == first else 5 for j in range(3)] + [4]
        yield from asked(settled_plan(woven(durations, pairs, gap), pairs), (0, some_overrun(dice)))


def jobs_out(dice):
    """Chains of which the last jobs are out, down to one and to none; and plans with about half of their jobs."""
    for gap, inside in product((0, 1), range(7)):
        order, pairs = some_order(dice, 6)
        table, starts = settled_plan(woven([dice.randint(1, 9) for _ in order], pairs, gap), pairs)
        starts = [start if j in order[:inside] else OUT for j, start in enumerate(starts)]
        yield from asked((replace(table, goals=word(*order[:inside])), starts), (0, some_overrun(dice)))
    for crates in CRATES:
        for _ in range(6):
            table = landed(dice, crates, dice.choice((drawn_table(dice), house((5, 7)))))
            starts = some_plan(dice, table, left_out=0.5)
            yield from asked((with_goals(dice, table, starts), starts), (0, some_overrun(dice)))


def nothing_to_do(dice):
    """No jobs, and none of four or of 24 in the plan, some released late."""
    links = released(replace(chain([9] * MOST_JOBS, True), goals=1), [LAST_RELEASE] * 5)
    for table, gap in product((Problem((), 2, 1, 0, 0), jobs_u([0], 0), links), (0, 1)):
        yield from asked((replace(table, gap=gap), [OUT] * len(table.jobs)), (*FEW, *OVER[:1], *OVER[-1:]))


# Wrong plans and bad input: the overrun is looked at last.

def wrong_plans(dice):
    """The plans of P3 within a shorter bound, with each job released too late, sooner, later and out; and plans with jobs too near."""
    for plan in (*(other for plan in PLANS for other in near(*plan)), *too_near()):
        yield from asked(plan, (dice.choice(TAKEN), dice.choice(OVER)))


def every_fault(dice):
    """By rule 1 at the first and the last job, by rule 2 at a middle one, with an overrun that is taken and with one that is not."""
    for crates, places in ((LATE, (0, MOST_JOBS - 1)), (HYGIENE, (11,))):
        for call in each_fault(dice, crates, places, (HOW_LATE,)):
            yield from (with_overrun(call, most) for most in (dice.choice(TAKEN), dice.choice(OVER)))


def every_two_faults(dice):
    return (with_overrun(call, dice.choice(TAKEN + OVER)) for call in two_faults(dice, (HOW_LATE,)))


def lengths(dice):
    """One start too few, just enough, more, and none, for 0, 1 and 24 jobs, and as many records."""
    for jobs, more, most in product((0, 1, MOST_JOBS), (-1, 0, 1, -MOST_JOBS), (3, MOST_OVERRUN + 1)):
        problem, starts = settled_plan(chain([2] * jobs, True), list(zip(range(jobs), range(1, jobs))))
        behind = [dice.choice((0, 7, OUT))] * more
        yield late_draft(problem, starts[:max(0, jobs + more)] + behind, most).call()
        draft = late_draft(problem, starts, most)
        draft.jobs = draft.jobs[:max(0, jobs + more)] + [Job(MOST, MOST, MOST, OUT, OUT)] * more
        yield draft.call()


# Drawn calls.

def drawn(dice):
    """A plan, mostly a valid one, and any overrun, mostly one that is taken; now and then a fault of the table."""
    crates = dice.choice(CRATES)
    plan = dice.choice((planned_table, planned_table, spread_table, some_offer))(dice, crates)
    most = some_overrun(dice) if dice.random() < 0.8 else dice.choice((*TAKEN, *OVER, dice.randrange(65536)))
    draft = late_draft(*plan, most)
    if dice.random() < 0.08:
        dice.choice(crates.faults)(draft, dice, dice.randrange(max(1, draft.count)))
    draft.starts += [dice.choice((0, 7, OUT))] * dice.choice((0, 0, 1))
    draft.jobs += [Job(MOST, MOST, MOST, OUT)] * dice.choice((0, 0, 1))
    return cut_to_limits(draft).call()


WALKS = (small_plans, every_overrun, long_chains, full_tables, webs, slack, releases_around, lone_releases, beside, two_ways, jobs_out,
         nothing_to_do, wrong_plans, every_fault, every_two_faults, lengths)
