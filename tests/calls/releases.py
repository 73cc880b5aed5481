"""Calls with releases: every limit, every order of refusals, and tables on which a release decides."""
from dataclasses import replace
from itertools import product

from call import Job, with_trailer
from draft import (FAULTS, LATE, MOST, OFFERED, RECORD, TABLED, Draft, at_bounds, bad_release, base_draft,
                   cut_to_limits, each_named, landed, settled)
from files import read_call, save_of, some_records
from tables import (LAST_BOUND, LAST_RELEASE, LONGEST, OUT, Problem, chain, clashing, drawn_table, go_again, jobs_in,
                    jobs_u, large_table, planned, released, word)

EDGES = (0, 1, 255, 256, LAST_RELEASE - 1, LAST_RELEASE, LAST_RELEASE + 1, 32768, 65535)


# Refusal 20.

def every_limit(dice):
    """Each kind with releases around the last that is taken, at the first, a middle and the last job of 24."""
    for kind in TABLED:
        for release in EDGES[-5:]:
            for place in (0, 11, 23):
                draft = base_draft(dice, kind, 24, LATE)
                draft.set_field(place, 'release', release)
                yield draft.call()


def behind_the_count(dice):
    """A record that is no job may have any release."""
    for kind in (kind for kind in TABLED if kind != 8):
        draft = base_draft(dice, kind, 5, LATE)
        draft.jobs.append(Job(MOST, MOST, MOST, OUT, OUT))
        yield draft.call()


def every_place(dice):
    """The lowest job is named: two jobs with a bad release, at each place of the lower."""
    for place in range(23):
        draft = base_draft(dice, TABLED[place % len(TABLED)], 24, LATE)
        for at in (place, dice.randint(place + 1, 23)):
            bad_release(draft, dice, at)
        yield draft.call()


def beside_every_fault(dice):
    """Each kind with a bad release and each other fault, at a higher job, a lower one and the same."""
    for kind in TABLED:
        for fault in FAULTS:
            for here, there in ((3, 17), (17, 3), (9, 9)):
                draft = base_draft(dice, kind, 24, LATE)
                bad_release(draft, dice, here)
                fault(draft, dice, there)
                yield cut_to_limits(draft).call()


# Refusal 21. Unpack, drench, warm, wash with a plan in which all but unpack start at their releases.

LATE_U = released(jobs_u([2, 3, 4], 14), [0, 8, 6, 5])
KEPT = [0, 8, 6, 5]
# Plans that break one rule each: all in order, a late end, an overlap, a missing condition, a missing goal.
BROKEN = (KEPT, [0, 8, 7, 5], [0, 8, 6, 7], [3, 8, 6, 5], [0, OUT, 6, 5])


def early_starts(dice):
    """Each job at its release, and a quarter hour before; in plans in order and in plans that break another rule."""
    for kind in OFFERED:
        for starts in BROKEN:
            yield Draft(kind, LATE_U, starts).call()
            for early in range(4):
                releases = [job.release for job in LATE_U.jobs]
                releases[early] = starts[early] + 1 if starts[early] != OUT else LAST_RELEASE
                yield Draft(kind, released(LATE_U, releases), starts).call()


def tight_plans(dice):
    """Plans that start each job at its release, then one of them and then more a quarter hour before: all else is in order."""
    for number in range(45):
        problem, starts = planned(dice, landed(dice, LATE, dice.choice((drawn_table, large_table))(dice)))
        tight = [0 if start == OUT else start for start in starts]
        inside = jobs_in(starts)
        kind = OFFERED[number % 3]
        yield Draft(kind, released(problem, tight), starts).call()
        for early in (1, 3):
            for j in dice.sample(inside, min(early, len(inside))):
                tight[j] = min(starts[j] + 1, LAST_RELEASE)
            yield Draft(kind, released(problem, tight), starts).call()


# Planning.

def late_crate(dice):
    """Each of the jobs U released at each time around the plan, at the bounds around the least."""
    for number in range(4):
        for release in range(12):
            problem = released(jobs_u([2, 3, 4], LAST_BOUND), [release if j == number else 0 for j in range(4)])
            yield Draft(3, problem).call()
    for bound in range(10, 17):
        for kind in (2, 3):
            yield Draft(kind, replace(released(jobs_u([2, 3, 4], 0), [0, 0, 6, 0]), bound=bound)).call()


def same_jobs(dice):
    """Jobs that are the same but for their releases, of which one is wanted; and go, back, drop, pick with a second go."""
    for releases in ([5, 0], [0, 5], [5, 5], [0, 3, 9], [9, 3, 0], [4, 4, 2], [2, 4, 4], [7, 1, 7, 1]):
        copies = Problem((Job(0, 1, 0, 3),) * len(releases), 1, 0, 1, LAST_BOUND)
        yield from at_bounds(released(copies, releases), (min(releases) + 3, max(releases) + 2, LAST_BOUND))
    for first, second in product((0, 2, 3, 7), repeat=2):
        yield from at_bounds(released(go_again(), [first, 0, 0, 0, second]), (5, 12))


def one_by_one(dice):
    """Jobs of which no two can run at once, released in order of their lengths, against it, and in between."""
    for durations in ([4, 2, 5], [1, 2, 3, 4], [4, 3, 2, 1]):
        jobs = [job._replace(duration=long) for job, long in zip(clashing(len(durations)).jobs, durations)]
        problem = replace(clashing(len(jobs)), jobs=tuple(jobs))
        for releases in ([9, 4, 1], [1, 4, 9], [0, 6, 0, 6], [3] * 4, [2, 0, 14, 0]):
            total = sum(durations)
            yield from at_bounds(released(problem, releases), (total, max(releases) + total, LAST_BOUND))


def named(dice):
    """With drawn releases."""
    return each_named(dice, LATE)


def one_job(dice):
    """A job that from its release on ends at the bound, and a quarter hour off it: offered, planned, settled."""
    for release in (0, 1, 1920, LAST_RELEASE - 1, LAST_RELEASE):
        for long in (1, LONGEST):
            for bound in {min(LAST_BOUND, release + long + more) for more in (-1, 0, 1)}:
                problem = Problem((Job(0, 1, 0, long, release),), 1, 0, 1, bound)
                for kind in (1, 2, 3, 6, 7):
                    yield Draft(kind, problem, [release]).call()


# Estimates and settling.

def chain_releases():
    """Releases of 24 jobs: at one place, at all, rising, falling, in turns."""
    yield from ([LAST_RELEASE if j == place else 0 for j in range(24)] for place in (0, 12, 23))
    yield [LAST_RELEASE] * 24
    yield [100 * j for j in range(24)]
    yield [100 * j for j in reversed(range(24))]
    yield [j % 3 * 50 for j in range(24)]


def long_chains(dice):
    """Estimates far over the last bound, now the release and now the condition cost, and some never reachable."""
    for releases in chain_releases():
        for long in (1, 70, LONGEST):
            problem = released(chain([long] * 24, dice.random() < 0.5), releases)
            yield Draft(6, problem).call()
            yield Draft(6, replace(problem, opening=word(dice.randint(1, 23)))).call()


def settled_chains(dice):
    """Pairs of a chain with releases, whole and in part, with bounds at the last end and around it; a circle too."""
    for releases in chain_releases():
        for long in (1, 70):
            problem = released(chain([long] * 24, False), releases)
            for asked in (range(24), range(0, 24, 2)):
                end = 0
                for j in asked:
                    end = max(end, releases[j]) + long
                yield from settled(problem, asked, {min(max(0, end + more), LAST_BOUND) for more in (-1, 0, 1)})
    problem = released(chain([1] * 24, False), [7] * 24)
    circle = Draft(7, problem)
    circle.pairs, circle.pair_count = [(0, 1), (1, 0)], 2
    yield circle.call()


def all_clash(dice):
    """24 jobs of which all 276 pairs interfere, one after the other as they land, and with one a quarter hour early."""
    for rising in (True, False):
        order = range(24) if rising else range(23, -1, -1)
        starts = [3 * place for place in order]
        problem = replace(released(clashing(24), starts), bound=max(starts) + 1)
        for kind in OFFERED:
            yield Draft(kind, problem, starts).call()
            at = starts.index(3 * dice.randrange(1, 24))
            yield Draft(kind, problem, [start - (j == at) for j, start in enumerate(starts)]).call()
        yield from settled(problem, sorted(range(24), key=starts.__getitem__), {problem.bound - 1, problem.bound})


# Files.

def file_bytes(dice):
    """Each of the six bytes behind a duration: two are the release, four must be zero."""
    file = save_of(jobs_u([2, 3], 12), b'notes')
    for at in (RECORD * j + byte for j in (0, 3) for byte in range(26, 32)):
        for value in (0x01, 0x0b, 0x0c, 0x40, 0x41, 0xff):
            yield read_call(file[:at] + bytes([value]) + file[at + 1:], LATE.land(dice, some_records(dice, 4)))


def file_releases(dice):
    """Files with a release at each edge: read into records enough and too few, and written behind an older save."""
    for release in EDGES:
        for place in (0, 3):
            problem = released(jobs_u([2, 3], 12), [release if j == place else 0 for j in range(4)])
            for lent in (4, 3, 5):
                yield read_call(save_of(problem), LATE.land(dice, some_records(dice, lent)))
            draft = Draft(9, problem)
            draft.buffer = save_of(LATE_U) + dice.randbytes(RECORD * 4 + 30)
            draft.used = len(save_of(LATE_U))
            yield draft.call()


def file_orders(dice):
    """A bad release with a byte that is not zero, an atom count, a bound or too many jobs beside it."""
    many = replace(chain([1] * 24, False), jobs=(Job(0, 1, 0, 1, 0),) * 25)
    for problem in (jobs_u([2, 3], 12), many):
        count = len(problem.jobs)
        file = save_of(released(problem, [0] * (count - 1) + [LAST_RELEASE + 1]))
        at = RECORD * count - 1
        for spoilt in (file, file[:at] + b'\1' + file[at + 1:], with_trailer(file, 19, b'\x41'),
                       with_trailer(file, 17, b'\xff')):
            for lent in (count, count - 1):
                yield read_call(spoilt, LATE.land(dice, some_records(dice, lent)))


WALKS = (every_limit, behind_the_count, every_place, beside_every_fault, early_starts, tight_plans, late_crate,
         same_jobs, one_by_one, named, one_job, long_chains, settled_chains, all_clash, file_bytes, file_releases,
         file_orders)
