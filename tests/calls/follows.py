"""Calls that follow a plan: walks to the end in the plan's order and in others, every event at every moment, words that no events give,
jobs and events that there are not, and plans with every refusal."""
from dataclasses import replace
from itertools import product

from call import Job
from clashes import WAYS, two_jobs
from draft import (FOLLOW, HYGIENE, LATE, MOST, ON_TIME, Draft, cut_to_limits, each_fault, landed, planned_table,
                   some_offer)
from gaps import KEPT
from tables import (MOST_JOBS, OUT, Problem, chain, clashing, go_again, house, interfere, job, jobs_in, jobs_u, random_table,
                    released, ruled, some_plan, to_its_end, tower, trolley, with_goals)

START, FINISH = 0, 1
CRATES = ON_TIME, LATE, HYGIENE

# The plan of P3, with warm released at 6, and under rule 2; and a plan without wash.
P3 = jobs_u([2, 3, 4], 12), [0, 7, 4, 4]
PLANS = P3, (released(jobs_u([2, 3, 4], 14), [0, 0, 6]), [0, 7, 6, 4]), (ruled(jobs_u([2, 3, 4], 13)), KEPT)
UNWASHED = jobs_u([2, 3], 12), [0, 4, 4, OUT]
# Two jobs add what the last needs. The first of them touches it, so by rule 1 the first is the support, by rule 2 the second.
ADDERS = Problem((job([], [0], [], 2), job([], [0], [], 1), job([0], [1], [], 1)), 2, 0, 2, 3), [0, 0, 2]


# The binding pairs of a valid plan.

def over(problem, starts, a, b):
    """Job a is over before job b starts, with the gap between."""
    return starts[a] + problem.jobs[a].duration + problem.gap <= starts[b]


def named_support(problem, starts, fact, needer):
    """The job named for a condition of a job; None for Start, before which no deleter can be over."""
    inside = jobs_in(starts)
    deleters = [j for j in inside if problem.jobs[j].deletions >> fact & 1 and j != needer]

    def unbroken(support):
        return all(over(problem, starts, needer, j) or support is not None and over(problem, starts, j, support)
                   for j in deleters)

    adders = [j for j in inside if problem.jobs[j].additions >> fact & 1 and over(problem, starts, j, needer)]
    return next(filter(unbroken, [None] * (problem.opening >> fact & 1) + adders), None)


def waits_of(problem, starts):
    """For each job of the plan the jobs that bind it."""
    inside = jobs_in(starts)
    waits = {}
    for b in inside:
        conditions = (fact for fact in range(64) if problem.jobs[b].conditions >> fact & 1)
        named = {named_support(problem, starts, fact, b) for fact in conditions}
        binding = (a for a in inside if a in named or a != b and interfere(problem.jobs[a], problem.jobs[b]))
        waits[b] = [a for a in binding if over(problem, starts, a, b)]
    return waits


# A plan as it is worked.

class House:
    """The draft of the next call, whose words are the jobs that have started and finished."""

    def __init__(self, problem, starts):
        self.draft, self.waits = Draft(FOLLOW, problem, starts), waits_of(problem, starts)

    def has(self, event, job):
        return (self.draft.started, self.draft.finished)[event] >> job & 1

    def allowed(self):
        """The events that may come next, starts first."""
        starts = [(START, j) for j, firsts in self.waits.items()
                  if not self.has(START, j) and all(self.has(FINISH, first) for first in firsts)]
        return starts + [(FINISH, j) for j in self.waits if self.has(START, j) and not self.has(FINISH, j)]

    def others(self):
        """The events of the table's jobs that may not come next."""
        allowed = self.allowed()
        return [event for event in product((START, FINISH), range(self.draft.count)) if event not in allowed]

    def call(self, event, job):
        """The call with this event, allowed or not."""
        self.draft.event, self.draft.job = event, job
        return self.draft.call()

    def words_after(self, event, job):
        return self.draft.started | (event == START) << job, self.draft.finished | (event == FINISH) << job

    def stand_at(self, words):
        self.draft.started, self.draft.finished = words

    def planned_at(self, event):
        """When the plan has an event; of those at one time the finishes come first."""
        start = self.draft.starts[event[1]]
        return (start, 1) if event[0] == START else (start + self.draft.jobs[event[1]].duration, 0)


def moments(problem, starts):
    """A house at each two words that allowed events give."""
    met, left = set(), [(0, 0)]
    while left:
        words = left.pop()
        if words not in met:
            met.add(words)
            standing = House(problem, starts)
            standing.stand_at(words)
            yield standing
            left += [standing.words_after(*event) for event in standing.allowed()]


# How the next event is picked out of the allowed ones.

def in_time(dice, work):
    return min(work.allowed(), key=work.planned_at)


def against_time(dice, work):
    """What the plan has last."""
    return max(work.allowed(), key=work.planned_at)


def all_at_once(dice, work):
    """Starts as long as there is one."""
    return work.allowed()[0]


def one_by_one(dice, work):
    """A finish as soon as there is one, else the start of the highest job."""
    return max(work.allowed())


def by_chance(dice, work):
    return dice.choice(work.allowed())


PICKS = in_time, against_time, all_at_once, one_by_one, by_chance


# Walks to the end.

def worked(dice, problem, starts, pick):
    """A call for each event until all has finished."""
    work = House(problem, starts)
    while work.allowed():
        event = pick(dice, work)
        yield work.call(*event)
        work.stand_at(work.words_after(*event))


def stumbled(dice, problem, starts):
    """The same by chance, with an event before each that is not allowed; its words stay."""
    work = House(problem, starts)
    while work.allowed():
        if work.others():
            yield work.call(*dice.choice(work.others()))
        work.stand_at(work.words_after(*by_chance(dice, work)))


def small_plans(dice):
    """P3, with a release and under rule 2, and without wash, in every order."""
    for (problem, starts), pick in product((*PLANS, UNWASHED), PICKS):
        yield from worked(dice, problem, starts, pick)


def spread(dice, crates, problem):
    """A plan in which many jobs come one after the other that do not bind."""
    table = landed(dice, crates, problem)
    starts = some_plan(dice, table, slack=range(40))
    return with_goals(dice, table, starts), starts


def spread_table(dice, crates):
    """Many jobs, most of what they need being open."""
    table = random_table(dice, dice.choice((8, 10, 12)), 20, 1, 9)
    return spread(dice, crates, replace(table, opening=dice.getrandbits(20) | dice.getrandbits(20)))


def named(dice):
    """Houses, a trolley, a tower, a chain: on time, with releases and under rule 2, in any order but the plan's."""
    for problem in (house((1, 1)), house((5, 7)), trolley(2), tower(3), go_again(), chain([3] * 12, False)):
        for crates in CRATES:
            yield from worked(dice, *spread(dice, crates, problem), dice.choice(PICKS[1:]))


def drawn_plans(dice):
    """Events out of the plan's order, events in any, and events that are not allowed."""
    for crates in CRATES:
        for pick in (against_time, one_by_one, by_chance):
            yield from worked(dice, *spread_table(dice, crates), pick)
        yield from worked(dice, *planned_table(dice, crates), dice.choice(PICKS))
        yield from stumbled(dice, *spread_table(dice, crates))


def full_tables(dice):
    """24 jobs of which every two bind, one after the other; and 24 that bind none, all running at once."""
    yield from worked(dice, clashing(MOST_JOBS), list(range(MOST_JOBS)), in_time)
    free = Problem(tuple(job([], [fact], [], 1) for fact in range(MOST_JOBS)), MOST_JOBS, 0, MOST >> 40, 1)
    yield from worked(dice, free, [0] * MOST_JOBS, all_at_once)


# Every moment, every two words, every bit.

def watched(problem, starts, words, event):
    """One call with any words and any event."""
    work = House(problem, starts)
    work.stand_at(words)
    return work.call(*event)


def every_event(dice):
    """Both events of each job at every moment."""
    for plan in (P3, ADDERS, (ruled(ADDERS[0]), ADDERS[1])):
        for work in moments(*plan):
            yield from (work.call(*event) for event in work.allowed() + work.others())


def every_words(dice):
    """All words over the four jobs of P3, with any event of them."""
    for words in product(range(16), repeat=2):
        yield watched(*P3, words, (dice.choice((START, FINISH)), dice.randrange(4)))


def every_bit(dice):
    """Each bit that no job of the plan has, of three jobs in it and of 24, started, finished and both by turns, at some moment with an
    event that would be allowed there; and all bits at once."""
    full = clashing(MOST_JOBS), list(range(MOST_JOBS))
    for plan in (UNWASHED, full):
        going_on = [work for work in moments(*plan) if work.allowed()]
        for bit in range(len(jobs_in(plan[1])), 64):
            work, (one, other) = dice.choice(going_on), ((1, 0), (0, 1), (1, 1))[bit % 3]
            words = work.draft.started | one << bit, work.draft.finished | other << bit
            yield watched(*plan, words, by_chance(dice, work))
        for words in ((MOST, MOST), (MOST, 0), (0, MOST), (MOST, 1), (MOST ^ 15, MOST ^ 15)):
            yield watched(*plan, words, (START, 0))


def strangers(dice):
    """Jobs that are not in the table where one with the same low bits may start or finish, and events that are none."""
    for words in ((1, 1), (0b1101, 1)):
        for unknown in (4, 5, 23, 24, 31, 32, 34, 63, 64, 66, 67, 130, 131, 194, 254, 255):
            yield from (watched(*P3, words, (event, unknown)) for event in (START, FINISH))
        for event in (2, 3, 4, 127, 128, 129, 254, 255):
            yield from (watched(*P3, words, (event, known)) for known in (2, 3))


def nothing_to_do(dice):
    """No jobs, and none of four in the plan."""
    for plan in ((Problem((), 2, 1, 0, 0), []), (jobs_u([0], 0), [OUT] * 4)):
        for event in product((START, FINISH, 2), (0, 3, 4, 255)):
            yield watched(*plan, (0, 0), event)
        for words in ((1, 0), (0, 1), (1, 1), (8, 0), (15, 15), (1 << 63, 0), (MOST, MOST)):
            yield watched(*plan, words, (START, 0))


# Wrong plans.

def near(problem, starts):
    """The plan within a shorter bound, with each job released too late for it, and with each a quarter hour sooner, later and out."""
    yield replace(problem, bound=problem.bound - 1), starts
    for j, start in enumerate(starts):
        late = [job.release for job in problem.jobs]
        late[j] = start + 1
        yield released(problem, late), starts
        others = (start - 1, start + 1, OUT) if start else (start + 1, OUT)
        yield from ((problem, [*starts[:j], other, *starts[j + 1:]]) for other in others)


def too_near():
    """Plans in which two jobs clash over the first or the last fact, in each way, by either rule; and plans of which two jobs touch."""
    for fact, way, gap in product((0, 63), WAYS, (0, 1)):
        yield to_its_end(Problem(two_jobs([(fact, way)]), 64, 0, 0, 0, gap), [0, 0]), [0, 0]
    # By rule 1 all is in order: drench touches wash, then warm touches unpack.
    for starts in ([0, 8, 5, 5], [0, 9, 4, 5]):
        yield ruled(jobs_u([2, 3, 4], 13)), starts
    # The first two touch, the last two overlap.
    yield from ((to_its_end(rivals, [0, 1, 1]), [0, 1, 1]) for rivals in (clashing(3), ruled(clashing(3))))


def wrong_plans(dice):
    """Whatever the words and the event: in order, words that no events give, an event that is not allowed."""
    for plan in PLANS:
        for other in near(*plan):
            yield watched(*other, *dice.choice((((0, 0), (START, 0)), ((2, 0), (START, 0)), ((1, 1), (START, 1)))))
    yield from (watched(*plan, (0, 0), (START, 0)) for plan in too_near())


def every_fault(dice):
    """By rule 1 at the first and the last job, by rule 2 at a middle one."""
    yield from each_fault(dice, LATE, (0, 23), (FOLLOW,))
    yield from each_fault(dice, HYGIENE, (11,), (FOLLOW,))


# Drawn calls.

def some_event(dice, work):
    """Mostly one that is allowed; else one of a job of the table, or any numbers."""
    if work.allowed() and dice.random() < 0.6:
        return by_chance(dice, work)
    if work.others() and dice.random() < 0.7:
        return dice.choice(work.others())
    return dice.choice((START, FINISH, dice.randrange(256))), dice.randrange(256)


def spoil_words(dice, draft):
    """A bit more or less in one word, the two words exchanged, or any words."""
    bit = 1 << dice.choice((dice.randrange(64), dice.randrange(max(1, draft.count))))
    draft.started, draft.finished = dice.choice((
        (draft.started ^ bit, draft.finished), (draft.started, draft.finished ^ bit),
        (dice.getrandbits(64), dice.getrandbits(64)), (draft.finished, draft.started)))


def drawn(dice):
    """A plan, mostly a valid one, some events into its work; now and then wrong words, or a fault of the table."""
    crates = dice.choice(CRATES)
    work = House(*dice.choice((planned_table, planned_table, spread_table, some_offer))(dice, crates))
    for _ in range(dice.randint(0, 2 * len(work.waits))):
        if work.allowed():
            work.stand_at(work.words_after(*by_chance(dice, work)))
    draft = work.draft
    draft.event, draft.job = some_event(dice, work)
    if dice.random() < 0.2:
        spoil_words(dice, draft)
    if dice.random() < 0.08:
        dice.choice(crates.faults)(draft, dice, dice.randrange(max(1, draft.count)))
    draft.starts += [dice.choice((0, 7, OUT))] * dice.choice((0, 0, 1))
    draft.jobs += [Job(MOST, MOST, MOST, OUT)] * dice.choice((0, 0, 1))
    return cut_to_limits(draft).call()


WALKS = (small_plans, named, drawn_plans, full_tables, every_event, every_words, every_bit, strangers, nothing_to_do, wrong_plans,
         every_fault)
