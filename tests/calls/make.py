#!/usr/bin/env python3
"""The stream of calls that both programs answer, made from a seed.

    make.py               the fixed corpus of the gate
    make.py N SEED        N calls of the same families from another seed
"""
import random
import sys
from dataclasses import replace

sys.dont_write_bytecode = True
import batches
import clashes
import edits
import files
import follows
import gaps
import lateness
import readings
import reasons
import releases
import rounds
import settlings
import texts
import tidies
from call import Call, Job
from draft import (FAULTS, HYGIENE, LATE, OFFERED, ON_TIME, TABLED, Draft, base_draft, cut_to_limits, each_fault, landed,
                   some_offer, with_lengths)
from tables import LAST_BOUND, LONGEST, NAMED, OUT, Problem, chain, clashing, drawn_table, house, large_table, planned, tower

SEED, DRAWN = 20040725, 7000
LATE_SEED, LATE_DRAWN = 20050725, 800
GAP_SEED, GAP_DRAWN = 20060725, 600
CLASH_SEED = 20070725
TENTHS_SEED = 20080725
ROUNDS_SEED = 20090725
TIDY_SEED, TIDY_DRAWN = 20100725, 600
FOLLOW_SEED, FOLLOW_DRAWN = 20110725, 100
REASON_SEED, REASON_DRAWN = 20120725, 150
LATENESS_SEED, LATENESS_DRAWN = 20130725, 150
BATCHES_SEED, BATCHES_DRAWN = 20140725, 100
TEXTS_SEED, TEXTS_DRAWN = 20150725, 200
EDITS_SEED, EDITS_DRAWN = 20160725, 150


# Planning.

def planning_table(dice, crates):
    """Mostly with a plan; else with goals that may be out of reach."""
    if dice.random() < 0.06:
        return landed(dice, crates, dice.choice(NAMED))
    problem, _ = planned(dice, landed(dice, crates, drawn_table(dice)))
    if dice.random() < 0.15:
        return replace(problem, goals=problem.goals | 1 << dice.randrange(problem.atoms))
    return problem


def planning(dice, crates):
    """Within the bound of a plan, one less, half of it, or all the time there is."""
    problem = planning_table(dice, crates)
    bound = dice.choice((problem.bound, problem.bound, max(0, problem.bound - 1), problem.bound // 2, LAST_BOUND))
    draft = Draft(dice.choice((2, 2, 3)), replace(problem, bound=bound))
    return with_lengths(draft, dice).call()


# Offered plans.

def offered(dice, crates):
    problem, starts = some_offer(dice, crates)
    draft = Draft(dice.choice(OFFERED), problem, starts)
    draft.starts += [dice.choice((0, 7, OUT))] * dice.choice((0, 0, 1))
    return with_lengths(draft, dice).call()


# Estimates.

def estimating(dice, crates):
    """The bound plays no part here, so it may be any."""
    problem = landed(dice, crates, dice.choice((drawn_table, large_table, large_table))(dice))
    return with_lengths(Draft(6, replace(problem, bound=dice.choice((0, 12, 65535)))), dice).call()


# Bad input.

def faulty(dice, crates):
    """One to four faults at once, in a random order of places."""
    draft = base_draft(dice, dice.choice(TABLED), dice.choice((None, 2, 8, 24)), crates)
    for fault in dice.sample(crates.faults, dice.choice((1, 1, 2, 3, 4))):
        fault(draft, dice, dice.randrange(len(draft.jobs)) if draft.jobs else 0)
    return cut_to_limits(draft).call()


def every_fault(dice):
    """At the first, a middle and the last job."""
    return each_fault(dice, ON_TIME, (0, 11, 23))


def every_place(dice):
    """The lowest job is named: two jobs with the same fault, at each place of the lower."""
    for place in range(23):
        for fault in FAULTS[6:10]:
            draft = base_draft(dice, dice.choice((1, 6, 7, 9)), 24)
            for at in (place, dice.randint(place + 1, 23)):
                fault(draft, dice, at)
            yield draft.call()


def every_length(dice):
    """Each kind with one element too few, just enough, one more, and none, for 0, 1 and 24 jobs."""
    for kind in (2, 3, 4, 5, 6, 7):
        for jobs in (0, 1, 24):
            for more in (-1, 0, 1, -4096):
                problem = replace(chain([1] * jobs, True), goals=1)
                draft = Draft(kind, problem, [OUT] * jobs)
                draft.room = max(0, draft.room + more)
                yield draft.call()


def every_count(dice):
    """25 to 255 jobs with everything lent that so many need, where the lent table can be so long."""
    for kind in TABLED[:-2]:
        for count in (24, 25, 26, 31, 32, 64, 254, 255):
            draft = base_draft(dice, kind, 24)
            draft.jobs, draft.starts = [Job(0, 1, 0, 1)] * count, [OUT] * count
            draft.count, draft.room = count, 2048
            yield draft.call()


def edges(dice):
    """The last values that are taken and the first that are not."""
    for kind in (1, 2, 3, 6, 7):
        for long in (1, LONGEST, LONGEST + 1):
            for bound in (long, LAST_BOUND, LAST_BOUND + 1):
                for atoms in (1, 2, 64, 65):
                    yield Draft(kind, Problem((Job(0, 2, 0, long),), atoms, 1, 2, min(bound, 65535)), [0]).call()
    yield from (Call([kind]) for kind in (0, 11))


def opening(dice, crates):
    """Readings know nothing of crates."""
    return readings.opening(dice)


# Named problems, at their bounds.

def named(dice):
    """Planning of the named problems at and around their bounds."""
    lists = ((0,), (1,), (10,), (2, 1), (5, 7), (7, 7), (9, 4), (11, 6), (1, 7, 7), (0, 1, 2, 3))
    houses = [house(groups) for groups in lists]
    towers = [tower(2), tower(3), chain([1, 960, 960, 959], True), chain([5] * 24, True), chain([3] * 12, False)]
    for problem in NAMED + houses + towers:
        for bound in (0, 11, 12, 13, LAST_BOUND):
            yield Draft(2, replace(problem, bound=bound)).call()
            yield Draft(3, replace(problem, bound=bound)).call()
        yield Draft(6, problem).call()
    empty = Problem((), 2, 1, 0, 0)
    yield from (Draft(kind, replace(empty, goals=goals)).call() for kind in (1, 2, 3, 4, 5, 6, 7) for goals in (0, 1, 2))


def all_clash(dice):
    """24 jobs of which all 276 pairs interfere, one after the other in either order and with one moved by one."""
    problem = clashing(24)
    for kind in OFFERED:
        for starts in (list(range(24)), list(range(24))[::-1]):
            yield Draft(kind, problem, starts).call()
            at = dice.randrange(1, 24)
            yield Draft(kind, problem, starts[:at] + starts[at - 1:at] + starts[at + 1:]).call()
    draft = Draft(7, problem)
    draft.pairs = [(a, b) for a in range(24) for b in range(a + 1, 24)]
    draft.pair_count = len(draft.pairs)
    yield draft.call()


WALKS = (settlings.settling_limits, all_clash, every_fault, every_place, every_length, every_count, edges, named, files.walk,
         readings.walk)
FAMILIES = ((20, planning), (27, offered), (7, estimating), (11, settlings.settling), (11, files.reading), (6, files.writing),
            (10, opening), (12, faulty))
LATE_FAMILIES = [(weight, family) for weight, family in FAMILIES if family is not opening]


def drawn(dice, count, crates):
    """Calls of all families, by weight."""
    weights, families = zip(*(FAMILIES if crates is ON_TIME else LATE_FAMILIES))
    for _ in range(count):
        yield dice.choices(families, weights)[0](dice, crates)


def several(draw, count):
    """The walk that draws so many calls."""
    return lambda dice: (draw(dice) for _ in range(count))


def mixed(seed, walks, count=0, crates=ON_TIME):
    """Every walk, then drawn calls, in a mixed order."""
    dice = random.Random(seed)
    calls = [call for walk in walks for call in walk(dice)]
    calls += drawn(dice, count, crates)
    dice.shuffle(calls)
    return calls


def corpus():
    """The fixed calls: those that stood before there were releases, unchanged, behind them those with releases, those
    under rule 2, those on clashes, those beside halves of a tenth, estimates that take many rounds, files to tidy, plans to
    follow, those that ask for reasons, those that ask how late it can get, batches, plans as text, and last edits of an open table."""
    return (mixed(SEED, WALKS, DRAWN, ON_TIME) + mixed(LATE_SEED, releases.WALKS, LATE_DRAWN, LATE)
            + mixed(GAP_SEED, gaps.WALKS, GAP_DRAWN, HYGIENE) + mixed(CLASH_SEED, clashes.WALKS)
            + mixed(TENTHS_SEED, (readings.beside_halves,)) + mixed(ROUNDS_SEED, rounds.WALKS)
            + mixed(TIDY_SEED, (*tidies.WALKS, several(tidies.drawn, TIDY_DRAWN)))
            + mixed(FOLLOW_SEED, (*follows.WALKS, several(follows.drawn, FOLLOW_DRAWN)))
            + mixed(REASON_SEED, (*reasons.WALKS, several(reasons.drawn, REASON_DRAWN)))
            + mixed(LATENESS_SEED, (*lateness.WALKS, several(lateness.drawn, LATENESS_DRAWN)))
            + mixed(BATCHES_SEED, (*batches.WALKS, several(batches.drawn, BATCHES_DRAWN)))
            + mixed(TEXTS_SEED, (*texts.WALKS, several(texts.drawn, TEXTS_DRAWN)))
            + mixed(EDITS_SEED, (*edits.WALKS, several(edits.drawn, EDITS_DRAWN))))


def more(count, seed):
    """A tenth of the calls on clashes, one in fifty beside halves of a tenth, one in fifty for estimates that take many rounds, one in
    twenty each on files to tidy, on plans to follow, for reasons and for how late it can get, one in fifty each on batches, on plans as
    text and on edits of an open table; of the others half under rule 2, half of all on tables with releases."""
    dice = random.Random(seed)
    for _ in range(count):
        chance = dice.random()
        if chance < 0.1:
            yield dice.choice(clashes.DRAWN)(dice)
        elif chance < 0.12:
            yield readings.rounded(dice)
        elif chance < 0.14:
            yield rounds.drawn(dice)
        elif chance < 0.19:
            yield tidies.drawn(dice)
        elif chance < 0.24:
            yield follows.drawn(dice)
        elif chance < 0.29:
            yield reasons.drawn(dice)
        elif chance < 0.34:
            yield lateness.drawn(dice)
        elif chance < 0.36:
            yield batches.drawn(dice)
        elif chance < 0.38:
            yield texts.drawn(dice)
        elif chance < 0.4:
            yield edits.drawn(dice)
        else:
            yield from drawn(dice, 1, dice.choice((ON_TIME, LATE, HYGIENE, HYGIENE)))


def main(words):
    if len(words) not in (0, 2) or not all(word.isdigit() for word in words):
        sys.exit('usage: make.py [N SEED]')
    calls = more(int(words[0]), int(words[1])) if words else corpus()
    for call in calls:
        sys.stdout.buffer.write(call.pack())


if __name__ == '__main__':
    main(sys.argv[1:])
