"""Calls under rule 2: every atom count with its mark, jobs that touch, and tables on which the quarter hour decides."""
from dataclasses import replace
from itertools import product

import releases
from call import ATOMS_AT, Job, marked, with_atom_byte, with_trailer
from draft import HYGIENE, OFFERED, RECORD, TABLED, Draft, at_bounds, each_fault, each_named, landed, settled
from files import read_call, save_of, some_records
from tables import (LAST_BOUND, OUT, Problem, chain, clashing, drawn_table, go_again, house, job, jobs_u, large_table,
                    last_end, planned, released, ruled)

# Atom counts with their marks: the first and the last that each rule takes, and those beside them.
COUNTS = (0, 1, 2, 64, 65, 127, 128, 129, 130, 192, 193, 255)


# Check 4, and 7 behind it.

def every_count(dice):
    """Each kind with each of the counts, the one job adding the first fact there is or the last that may be."""
    for kind in TABLED:
        for atoms, fact in product(COUNTS, (1, 1 << 63)):
            yield Draft(kind, Problem((Job(0, fact, 0, 1),), atoms, 0, fact, 1), [0]).call()


def every_fault(dice):
    """At a middle job."""
    return each_fault(dice, HYGIENE, (11,))


# Offered plans. Unpack, drench, warm, wash: each waits a quarter hour for unpack, and drench for wash.

KEPT = [0, 9, 5, 5]


def around_the_plan(dice):
    """The plan, that of rule 1, and each job a quarter hour sooner, later and out, at the bounds around the least."""
    others = [[*KEPT[:j], start, *KEPT[j + 1:]] for j in range(4) for start in (KEPT[j] - 1, KEPT[j] + 1, OUT) if start >= 0]
    for kind, bound in product(OFFERED, (12, 13, 14)):
        for starts in (KEPT, [0, 7, 4, 4], *others):
            yield Draft(kind, ruled(jobs_u([2, 3, 4], bound)), starts).call()


def every_start(dice):
    """Three jobs at every start of the first quarter hours, the last of them ending at the bound: an adder, a deleter and
    a job that needs the fact, which may be open; and two adders, so that one may be too near to be a support."""
    adder, needer = job([], [0], [], 1), job([0], [2], [], 1)
    between = Problem((adder, job([], [1], [0], 1), needer), 3, 0, 4, 0)
    tables = between, replace(between, opening=1), replace(between, jobs=(job([], [0], [], 2), adder, needer))
    for kind, table, starts in product((4, 5), tables, product(range(4), repeat=3)):
        yield Draft(kind, ruled(replace(table, bound=last_end(table, starts))), starts).call()


def touching_plans(dice):
    """Plans made for rule 1 offered under rule 2, plans made for it, and these with one job a quarter hour sooner."""
    for number in range(60):
        table = landed(dice, HYGIENE, dice.choice((drawn_table, drawn_table, large_table))(dice))
        kind = OFFERED[number % 3]
        near, starts = planned(dice, replace(table, gap=0))
        yield Draft(kind, ruled(near), starts).call()
        problem, starts = planned(dice, table)
        yield Draft(kind, problem, starts).call()
        later = [j for j, start in enumerate(starts) if 0 < start < OUT]
        if later:
            starts[dice.choice(later)] -= 1
            yield Draft(kind, problem, starts).call()


def all_clash(dice):
    """24 jobs of which all 276 pairs interfere: a quarter hour apart, touching, and with one moved by one."""
    problem = ruled(replace(clashing(24), bound=48))
    for kind in OFFERED:
        for starts in ([2 * j for j in range(24)], [2 * j for j in reversed(range(24))], list(range(24))):
            yield Draft(kind, problem, starts).call()
            at = dice.randrange(24)
            yield Draft(kind, problem, [start + (j == at) for j, start in enumerate(starts)]).call()
    yield from settled(problem, range(24), (46, 47))


# Planning.

def around_the_least(dice):
    """Bounds from below the least, as counted by hand, to above it."""
    for problem, least in ((jobs_u([2, 3, 4], 0), 13), (jobs_u([2], 0), 7), (go_again(), 9), (house((1, 1)), 14),
                           (chain([2, 3, 4], True), 11), (chain([2, 3, 4], False), 11), (clashing(4), 7)):
        for kind, bound in product((2, 3), range(least - 2, least + 3)):
            yield Draft(kind, ruled(replace(problem, bound=bound))).call()


def named(dice):
    """With releases and without."""
    return each_named(dice, HYGIENE)


def rivals(dice):
    """Jobs of which no two can run at once and one is needed by another, at bounds with and without room for the gaps."""
    for durations in product((1, 2, 4), repeat=3):
        jobs = [rival._replace(duration=long) for rival, long in zip(clashing(3).jobs, durations)]
        needing = jobs[0]._replace(conditions=1 << dice.choice((1, 2)))
        problem = ruled(replace(clashing(3), jobs=(needing, *jobs[1:])))
        yield from at_bounds(problem, (sum(durations) + 1, sum(durations) + 2))


def marked_again(dice):
    """The calls on late crates, same jobs, lone jobs and long chains, with the mark."""
    for walk in (releases.late_crate, releases.same_jobs, releases.one_by_one, releases.one_job, releases.long_chains):
        yield from (with_atom_byte(call, marked(call.head[2], 1)) for call in walk(dice))


# Settling.

def settled_chains(dice):
    """Pairs of a chain, whole and in part, at the last end and around it; 24 times 120 leaves no room for gaps."""
    for long, every in product((1, 70, 119, 120), (1, 2, 24)):
        asked = range(0, 24, every)
        end = len(asked) * (long + 1) - 1
        problem = ruled(chain([long] * 24, False))
        yield from settled(problem, asked, {min(end + more, LAST_BOUND) for more in (-1, 0, 1)})
        yield from settled(released(problem, [7]), asked, {min(end + more, LAST_BOUND) for more in (6, 7)})


def settled_loosely(dice):
    """No pair, the same pair twice, a job before itself, and a circle."""
    for pairs in ([], [(0, 1)] * 2, [(3, 3)], [(0, 1), (1, 0)], [(0, 3), (1, 3), (2, 3)]):
        for bound in (7, 8, 9, 12):
            draft = Draft(7, ruled(jobs_u([2], bound)))
            draft.pairs, draft.pair_count = pairs, len(pairs)
            yield draft.call()


# Files.

def file_marks(dice):
    """Each of the counts in a file: read into records enough and too few, behind a save of either rule, and written there."""
    plain = jobs_u([2, 3], 12)
    for atoms in (*COUNTS, 5, 132, 133):
        file = with_trailer(save_of(plain, b'notes'), ATOMS_AT, bytes([atoms]))
        yield read_call(file, some_records(dice, 3))
        for older in (save_of(plain), save_of(ruled(plain))):
            yield read_call(older + file, some_records(dice, 4))
            draft = Draft(9, replace(plain, atoms=atoms))
            draft.buffer, draft.used = older + dice.randbytes(RECORD * 4 + 30), len(older)
            yield draft.call()


WALKS = (every_count, every_fault, around_the_plan, every_start, touching_plans, all_clash, around_the_least, named, rivals,
         marked_again, settled_chains, settled_loosely, file_marks)
