"""A call on a job table before it is packed: in order as it stands, and faults that can be put into it."""
import struct
from collections import namedtuple
from dataclasses import replace
from itertools import combinations

from call import NAME, TRAILER, Call, Job, marked
from tables import (LAST_BOUND, LAST_RELEASE, LONGEST, MOST_JOBS, NAMED, OUT, chain, drawn_table, house, jobs_in,
                    landing, large_table, last_end, on_time, planned, random_table, some_facts, some_landing, tower, trolley,
                    word)

PAIR_TABLE = 552
RECORD = 32
OFFERED, TABLED = (1, 4, 5), (1, 2, 3, 4, 5, 6, 7, 8, 9)
SETTLE, FOLLOW, WHY_START, WHY_NO_PLAN, HOW_LATE, BATCHES, READ_TEXT, WRITE_TEXT = 7, 13, 14, 15, 16, 17, 18, 19
SETTLING, TEXTS = (SETTLE, WHY_START), (READ_TEXT, WRITE_TEXT)
# The kinds that take a plan's starts, and those of the last ones that fill no memory.
STARTED, UNFILLED = (*OFFERED, FOLLOW, HOW_LATE, WRITE_TEXT), (FOLLOW, WHY_NO_PLAN, HOW_LATE)
# The most bytes of a line that is written.
LINE = 39
MOST = 2 ** 64 - 1


def room_needed(kind, count):
    """Elements of the lent output table."""
    return {4: 64 * (count + 1), 5: PAIR_TABLE, WRITE_TEXT: LINE * count, **dict.fromkeys((1, 8, 9, *UNFILLED), 0)}.get(kind, count)


def name_table(names):
    """16 bytes a name, with zeros behind; a name may be bytes that no name has."""
    return b''.join((name if isinstance(name, bytes) else name.encode()).ljust(NAME, b'\0') for name in names)


def numbered(count):
    """A name a job."""
    return name_table(f'job-{number}' for number in range(count))


def save_bytes(jobs, count, atoms, opening, goals, bound, distance, notes=b''):
    """A save with notes behind its records."""
    records = b''.join(struct.pack('<QQQHH4x', *job) for job in jobs)
    trailer = struct.pack('<QQHBBI', opening, goals, bound, count, atoms, distance)
    return records + notes + trailer


class Draft:
    """Everything a call on a table is made with; call() packs it."""

    def __init__(self, kind, problem, starts=()):
        self.kind, self.jobs, self.count = kind, list(problem.jobs), len(problem.jobs)
        self.atoms, self.opening, self.goals, self.bound = problem.atoms, problem.opening, problem.goals, problem.bound
        self.gap = problem.gap
        self.starts = list(starts)
        self.set, self.pairs, self.pair_count = (1 << self.count) - 1, [], 0
        self.before, self.notes, self.behind = b'', b'', b''
        self.used, self.buffer = 0, bytes(RECORD * self.count + TRAILER)
        self.lent = [Job(0x1111, 0x2222, 0x4444, 77)] * self.count
        self.room, self.fill = room_needed(kind, self.count), 0 if kind in UNFILLED else 0xab
        self.started = self.finished = self.event = self.job = self.most = 0
        self.names, self.text = numbered(self.count) if kind in TEXTS else b'', b''

    def file(self):
        distance = RECORD * self.count + len(self.notes)
        numbers = (self.count, marked(self.atoms, self.gap), self.opening, self.goals, self.bound, distance)
        return self.before + save_bytes(self.jobs, *numbers, self.notes)

    def given(self):
        if self.kind == READ_TEXT:
            return self.names + self.text
        if self.kind in STARTED:
            return self.names + struct.pack(f'<{len(self.starts)}H', *self.starts)
        if self.kind in SETTLING:
            return b''.join(bytes(pair) for pair in self.pairs) + self.behind
        return {8: self.file, 9: lambda: self.buffer}.get(self.kind, bytes)()

    def call(self):
        given = self.given()
        if self.kind == 8:
            return Call([8] + [0] * 7 + [len(self.lent), len(given)], self.lent, given)
        settling = dict.fromkeys(SETTLING, (self.set, self.pair_count))
        named = dict.fromkeys(TEXTS, (len(self.names), 0))
        six, seven = {**settling, **named, 9: (self.used, 0), FOLLOW: (self.started, self.finished)}.get(self.kind, (0, 0))
        head = [self.kind, self.count, marked(self.atoms, self.gap), self.opening, self.goals, self.bound, six, seven,
                len(self.jobs), len(given), self.room, self.fill, self.most if self.kind == HOW_LATE else self.event, self.job]
        return Call(head, self.jobs, given)

    def set_field(self, place, field, value):
        self.jobs[place] = self.jobs[place]._replace(**{field: value})


# Faults. Each takes the draft, the dice and a job's place, and changes the draft where it can.

def short_records(draft, dice, place):
    if draft.kind == 8:
        draft.lent = draft.lent[:-1]
    elif draft.jobs:
        draft.jobs.pop()


def short_room(draft, dice, place):
    draft.room = max(0, draft.room - dice.choice((1, 1, 2, 500)))
    draft.buffer = draft.buffer[:-1]


def short_given(draft, dice, place):
    draft.starts = draft.starts[:-1]
    draft.pair_count += 1 if draft.kind in SETTLING else 0
    draft.behind = bytes(1) if draft.kind in SETTLING else b''
    draft.names = draft.names[:-1] if draft.kind == READ_TEXT else draft.names


def bad_atoms(draft, dice, place):
    """A byte that no rule takes, as it stands in the call."""
    draft.atoms, draft.gap = dice.choice((0, 65, 66, 128, 255)), 0


def bad_marked_atoms(draft, dice, place):
    """The same with the mark of rule 2."""
    draft.atoms, draft.gap = dice.choice((0, 65, 66, 127)), 1


def many_jobs(draft, dice, place):
    """Over 24 jobs with everything lent that so many need."""
    draft.count = MOST_JOBS + dice.choice((1, 1, 2, 7))
    filler = draft.jobs[-1] if draft.jobs else Job(0, 1, 0, 1)
    draft.jobs += [filler] * (draft.count - len(draft.jobs))
    draft.starts += [OUT] * (draft.count - len(draft.starts))
    draft.room = room_needed(draft.kind, draft.count)
    draft.lent = [Job(1, 2, 4, 8)] * dice.choice((draft.count, draft.count, 255, MOST_JOBS))
    draft.buffer = bytes(RECORD * draft.count + TRAILER + draft.used)
    draft.names = numbered(draft.count) if draft.kind in TEXTS else b''


def huge_count(draft, dice, place):
    """A job count that nothing lent can serve; a file's count is one byte."""
    if draft.kind == 8:
        draft.count = dice.choice((100, 255))
        draft.jobs += [Job(0, 1, 0, 1)] * (draft.count - len(draft.jobs))
    else:
        draft.count = dice.choice((draft.count + 1, 256, 2 ** 16, 2 ** 32, 2 ** 58, 2 ** 59, 2 ** 63, MOST - 1, MOST))


def bad_duration(draft, dice, place):
    if draft.jobs:
        draft.set_field(place, 'duration', dice.choice((0, 0, LONGEST + 1, 1024, 32768, 65535)))


def bad_release(draft, dice, place):
    if draft.jobs:
        draft.set_field(place, 'release', dice.choice((LAST_RELEASE + 1, LAST_RELEASE + 1, 4096, 32768, 65535)))


def stray_fact(draft, dice, place):
    """A fact at or above the atom count, often the very next."""
    draft.atoms = min(draft.atoms, 63)
    stray = 1 << dice.choice((draft.atoms, draft.atoms, 63, dice.randint(draft.atoms, 63)))
    if draft.jobs:
        field = Job._fields[dice.randrange(3)]
        draft.set_field(place, field, getattr(draft.jobs[place], field) | stray)


def stray_beside(draft, dice, place):
    """The same of opening facts or goals."""
    draft.atoms = min(draft.atoms, 63)
    stray = 1 << dice.randint(draft.atoms, 63)
    if dice.random() < 0.5:
        draft.opening |= stray
    else:
        draft.goals |= stray


def both_ways(draft, dice, place):
    """A job that adds and deletes one fact."""
    if draft.jobs:
        fact = 1 << dice.randrange(max(1, min(draft.atoms, 64)))
        for field in ('additions', 'deletions'):
            draft.set_field(place, field, getattr(draft.jobs[place], field) | fact)


def late_bound(draft, dice, place):
    draft.bound = dice.choice((LAST_BOUND + 1, LAST_BOUND + 1, 4096, 32768, 65535))


FAULTS = [short_records, short_room, short_given, bad_atoms, many_jobs, huge_count, bad_duration, stray_fact,
          stray_beside, both_ways, late_bound]


# Crates: whether jobs get releases, the faults that may be put in, and the gap of the rule. The calls that stood before
# there were releases are drawn with ON_TIME, by the same throws as ever, those that stood before rule 2 with LATE.

Crates = namedtuple('Crates', 'land faults gap')
ON_TIME = Crates(on_time, FAULTS, 0)
LATE = Crates(landing, FAULTS + [bad_release, bad_release], 0)
HYGIENE = Crates(some_landing, FAULTS + [bad_release, bad_marked_atoms], 1)


def landed(dice, crates, problem):
    return replace(problem, jobs=crates.land(dice, problem.jobs), gap=crates.gap)


def planned_table(dice, crates):
    return planned(dice, landed(dice, crates, dice.choice((drawn_table, drawn_table, large_table))(dice)))


def base_draft(dice, kind, jobs=None, crates=ON_TIME):
    """A call in order, for faults to be put in; its plan is valid."""
    table = random_table(dice, jobs, dice.choice((5, 33, 64)), 2, 9) if jobs else drawn_table(dice)
    problem, starts = planned(dice, landed(dice, crates, table))
    draft = Draft(kind, problem, starts)
    draft.lent = list(crates.land(dice, draft.lent))
    return draft


def cut_to_limits(draft):
    """What is lent stays within what the product's program takes in."""
    draft.room = min(draft.room, 2048)
    draft.jobs = draft.jobs[:255]
    return draft


def with_lengths(draft, dice):
    """More is lent than needed, now and then."""
    draft.room += dice.choice((0, 0, 1, 3))
    draft.jobs += [Job(MOST, MOST, MOST, OUT)] * dice.choice((0, 0, 1))
    draft.fill = dice.choice((0, 0xff, 0xab, 0x01))
    return draft


# Offered plans: a valid one, and what may be done to it.

def moved(dice, problem, starts):
    """One job a quarter hour sooner or later."""
    if jobs_in(starts):
        j = dice.choice(jobs_in(starts))
        starts[j] = max(0, starts[j] + dice.choice((-1, 1)))


def left_out(dice, problem, starts):
    if starts:
        starts[dice.randrange(len(starts))] = OUT


def put_in(dice, problem, starts):
    """A job anywhere, also beyond all bounds."""
    if starts:
        starts[dice.randrange(len(starts))] = dice.choice((0, dice.randint(0, problem.bound + 1), OUT - 1, OUT - LONGEST))


def swapped(dice, problem, starts):
    if len(starts) > 1:
        a, b = dice.sample(range(len(starts)), 2)
        starts[a], starts[b] = starts[b], starts[a]


def kept(dice, problem, starts):
    """The valid plan as it is."""


def some_offer(dice, crates):
    """A plan that is valid or nearly so; now and then the bound is too early for it, or more is wanted."""
    problem, starts = planned_table(dice, crates)
    dice.choice((kept, kept, kept, moved, moved, left_out, put_in, swapped))(dice, problem, starts)
    if dice.random() < 0.1:
        problem = replace(problem, bound=max(0, last_end(problem, starts) - 1))
    if dice.random() < 0.15:
        problem = replace(problem, goals=problem.goals | some_facts(dice, 4, problem.atoms))
    return replace(problem, bound=min(problem.bound, LAST_BOUND)), starts


# Calls of more than one walk.

def each_fault(dice, crates, places, kinds=TABLED):
    """Each fault by itself, in each kind of call, at each of the places of 24 jobs."""
    for kind in kinds:
        for fault in crates.faults:
            for place in places:
                draft = base_draft(dice, kind, 24, crates)
                fault(draft, dice, place)
                yield cut_to_limits(draft).call()


def two_faults(dice, kinds):
    """Every two faults together, at any jobs, in each kind of call."""
    for number, faults in enumerate(combinations(dict.fromkeys([*LATE.faults, *HYGIENE.faults]), 2)):
        for kind in kinds:
            draft = base_draft(dice, kind, MOST_JOBS, (LATE, HYGIENE)[number % 2])
            for fault in dice.sample(faults, 2):
                fault(draft, dice, dice.randrange(len(draft.jobs)))
            yield cut_to_limits(draft).call()


def at_bounds(problem, bounds):
    """The least bound, and planning within each of the bounds."""
    yield Draft(3, replace(problem, bound=LAST_BOUND)).call()
    yield from (Draft(2, replace(problem, bound=bound)).call() for bound in bounds)


def each_named(dice, crates):
    """Houses, trolleys, towers and chains, at all the time there is and at the end of some plan."""
    houses = [house(groups) for groups in ((1, 1), (2, 1), (5, 7), (7, 7), (4, 3, 1))]
    for problem in NAMED + houses + [trolley(3), tower(3), chain([5] * 12, True), chain([3] * 12, False)]:
        for _ in range(3):
            late = landed(dice, crates, replace(problem, bound=LAST_BOUND))
            yield Draft(3, late).call()
            yield Draft(6, late).call()
            within, starts = planned(dice, late)
            for less in (0, 1):
                yield Draft(2, replace(within, bound=max(0, last_end(within, starts) - less))).call()


def settled(problem, asked, bounds):
    """Settling of the jobs asked, one behind the other, within each of the bounds."""
    for bound in sorted(bounds):
        draft = Draft(SETTLE, replace(problem, bound=bound))
        draft.set = word(*asked)
        draft.pairs = list(zip(asked, asked[1:]))
        draft.pair_count = len(draft.pairs)
        yield draft.call()
