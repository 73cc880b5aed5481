"""Calls that edit an open job table: begun with every atom byte, filled to the last job and one more; every count and every job around the edges;
each fault at every place and every set of faults at once, in the table and in the new record; jobs removed from every place and their room used
again; rows handed in wrong, records behind the jobs, tables of any bits; plans of what stands there; and long runs of drawn edits."""
from functools import lru_cache
from itertools import chain as joined, combinations

from call import ADD, BEGIN, EDITS, LEAST, PLAN, REMOVE, REPLACE, RULE_2, Call, Edit, Job, Open, edits_call
from draft import MOST
from tables import (LAST_BOUND, LAST_RELEASE, LONGEST, MOST_JOBS, chain, clashing, house, interfere, jobs_u, planned, small_table, some_facts, some_job,
                    word)

NO_JOB = Job(0, 0, 0, 0)
WHOLE_ROW = 2 ** 32 - 1
# Counts that a table may say: few, around the last one, around those of a byte and of a word, and the most there is.
COUNTS = 0, 1, 2, 12, 22, 23, 24, 25, 26, 31, 32, 33, 63, 64, 255, 256, 257, 2 ** 16, 2 ** 32, 2 ** 32 + 3, 2 ** 63, MOST - 1, MOST
# Jobs that an edit may name.
NAMED_JOBS = 0, 1, 11, 22, 23, 24, 25, 31, 32, 63, 64, 128, 254, 255
BAD_ATOMS = 0, 65, 66, 127, 128, 193, 255


# Jobs and tables.

def some_record(dice, atoms):
    """A job in order that often clashes with others, now and then with a release."""
    return some_job(dice, atoms, dice.choice((1, 3, 5)), dice.choice((1, 9, LONGEST)))._replace(release=dice.choice((0, 0, 5, LAST_RELEASE)))


def any_record(dice):
    """Any bits at all."""
    return Job(*(dice.getrandbits(64) for _ in range(3)), dice.getrandbits(16), dice.getrandbits(16))


def some_rule(dice):
    return dice.choice((0, RULE_2))


@lru_cache
def right_rows(jobs):
    """The clash bits of these jobs, and of none behind them."""
    rows = [sum(1 << j for j, other in enumerate(jobs) if i != j and interfere(job, other)) for i, job in enumerate(jobs)]
    return (*rows, *[0] * (MOST_JOBS - len(rows)))


def opened(atoms, jobs):
    """The right table of these jobs."""
    jobs = tuple(jobs)
    return Open(atoms, len(jobs), jobs + (NO_JOB,) * (MOST_JOBS - len(jobs)), right_rows(jobs))


def some_open(dice, count, atoms=None):
    """A right table of so many drawn jobs, by either rule."""
    atoms = atoms or dice.choice((2, 5, 33, 63))
    return opened(atoms + some_rule(dice), [some_record(dice, atoms) for _ in range(count)])


def facts_below(table):
    """How many facts a table has."""
    return table.atoms % RULE_2


def any_open(dice):
    """Any bits at all, with a count that may be one."""
    count = dice.choice((dice.randint(0, MOST_JOBS), dice.choice(COUNTS), dice.getrandbits(64)))
    jobs = tuple(any_record(dice) for _ in range(MOST_JOBS))
    return Open(dice.getrandbits(8), count, jobs, tuple(dice.getrandbits(32) for _ in range(MOST_JOBS)))


def with_job(table, place, job):
    """The same table with another record at a place, the rows as they were."""
    return table._replace(jobs=(*table.jobs[:place], job, *table.jobs[place + 1:]))


# Edits.

def begin(atoms):
    return Edit(BEGIN, atoms)


def add(job):
    return Edit(ADD, record=job)


def replace(number, job):
    return Edit(REPLACE, number, job)


def remove(number):
    return Edit(REMOVE, number)


def plan(problem, lent, bound=None, what=PLAN):
    """What is wanted of a table's jobs, with so many starts lent."""
    return Edit(what, 0, NO_JOB, problem.opening, problem.goals, problem.bound if bound is None else bound, lent)


def filling(atoms, jobs):
    """A table begun and given these jobs, one by one."""
    return [begin(atoms), *map(add, jobs)]


# Faults of a record in a table of so many facts, by the number that each gives.

def bad_long(dice, job, atoms):
    return job._replace(duration=dice.choice((0, 0, LONGEST + 1, 1024, 32768, 65535)))


def bad_landing(dice, job, atoms):
    return job._replace(release=dice.choice((LAST_RELEASE + 1, LAST_RELEASE + 1, 4096, 65535)))


def strange(dice, job, atoms):
    field = Job._fields[dice.randrange(3)]
    return job._replace(**{field: getattr(job, field) | 1 << dice.choice((atoms, 63))})


def both_ways(dice, job, atoms):
    fact = 1 << dice.randrange(atoms)
    return job._replace(additions=job.additions | fact, deletions=job.deletions | fact)


FAULTS = {6: bad_long, 20: bad_landing, 7: strange, 8: both_ways}


def bad_record(dice, atoms, number=None):
    """A record with this fault, or with any."""
    return FAULTS[number or dice.choice(list(FAULTS))](dice, some_record(dice, atoms), atoms)


# Tables begun and filled.

def every_atom_byte(dice):
    """Each byte, over any bits, and a job of the first fact behind it."""
    return (edits_call(any_open(dice), [begin(byte), add(Job(1, 0, 1, 1))]) for byte in range(256))


def every_atom_count(dice):
    """Each count by each rule with a job of its last fact, and one of the fact behind it."""
    for atoms in range(1, 65):
        last, behind = (Job(0, 1 << fact, 0, 1) for fact in (atoms - 1, min(atoms, 63)))
        yield from (edits_call(any_open(dice), [begin(atoms + rule), add(last), add(behind), replace(0, behind)]) for rule in (0, RULE_2))


def full_lists(dice):
    """Lists of 24 jobs: all clash, each with the next, none, batches, and drawn ones."""
    yield from ((clashing(24).jobs, 48), (chain([1] * 24, True).jobs, 25), ([Job(0, 1, 0, 1)] * 24, 1), (house((7, 7, 7, 7)).jobs, 17))
    yield from (([some_record(dice, atoms) for _ in range(MOST_JOBS)], atoms) for atoms in (2, 5, 12, 33, 63, 64))


def to_the_last(dice):
    """Filled, one more, then one removed and its room used again, and all removed from the front, from the back and from anywhere."""
    for jobs, atoms in full_lists(dice):
        more, place = add(jobs[0]), dice.randrange(MOST_JOBS)
        used_again = [*filling(atoms + some_rule(dice), jobs), more, more, remove(place), more, more]
        for left in (lambda count: 0, lambda count: count - 1, dice.randrange):
            emptied = [remove(left(count)) for count in range(MOST_JOBS, 0, -1)]
            yield edits_call(any_open(dice), [*used_again, *emptied, remove(0), *filling(atoms, jobs[:3])])


# Counts, jobs and faults.

def every_count(dice):
    """Each count with each job that an edit may name, and an addition; the records of all 24 places are in order."""
    for count in COUNTS:
        for number in NAMED_JOBS:
            table = some_open(dice, MOST_JOBS)._replace(count=count)
            jobs = [some_record(dice, facts_below(table)) for _ in range(2)]
            yield edits_call(table, [replace(number, jobs[0]), remove(number), add(jobs[1])])


def behind_the_last(dice):
    """The job right behind the last one of each count, and the last one."""
    for count in range(MOST_JOBS + 1):
        table = some_open(dice, count)
        job = some_record(dice, facts_below(table))
        last = [replace(count - 1, job), remove(count - 1)] if count else []
        yield edits_call(table, [replace(count, job), remove(count), *last])


def one_fault(dice):
    """Each fault at each place: all that is refused for it, also by removing it, another one in its place, and a good one, which is taken."""
    for number in FAULTS:
        for place in range(MOST_JOBS):
            table = some_open(dice, MOST_JOBS - (place < MOST_JOBS - 1 and dice.random() < 0.7))
            atoms = facts_below(table)
            good, other = (some_record(dice, atoms) for _ in range(2))
            beside = dice.choice([job for job in range(table.count) if job != place])
            edits = [add(good), replace(beside, good), remove(beside), remove(place), replace(place, bad_record(dice, atoms)), replace(place, other)]
            bad = with_job(table, place, bad_record(dice, atoms, number))
            yield edits_call(bad, [*edits, remove(place), add(bad_record(dice, atoms, number)), add(good)])


def bad_addition(dice):
    """Each fault in a job that is to be added as each number, and in one that is to replace each."""
    for number in FAULTS:
        for count in range(MOST_JOBS):
            table = some_open(dice, count)
            bad = bad_record(dice, facts_below(table), number)
            yield edits_call(table, [add(bad), *(replace(place, bad) for place in range(count)[-2:]), remove(0)])


def two_bad(dice):
    """Two bad jobs: the lowest of the first fault is told, and it is not enough to replace one of them."""
    for _ in range(60):
        table = some_open(dice, dice.choice((2, 5, MOST_JOBS - 1, MOST_JOBS)))
        atoms = facts_below(table)
        places = dice.sample(range(table.count), 2)
        for place in places:
            table = with_job(table, place, bad_record(dice, atoms))
        goods = [replace(place, some_record(dice, atoms)) for place in places]
        yield edits_call(table, [add(some_record(dice, atoms)), remove(places[0]), goods[0], remove(places[1]), remove(places[0]), goods[1]])


def every_set(dice):
    """Every set of faults at once, each at any job or in the new record, with a job that is there and with one that is not; plans too."""
    for size in range(len(FAULTS) + 3):
        for numbers in combinations((4, 5, *FAULTS), size):
            for count in (1, 24):
                yield faulty(dice, numbers, count)


def faulty(dice, numbers, count):
    """A table with these faults and every edit of it."""
    table = some_open(dice, MOST_JOBS, dice.choice((2, 5, 33, 63)))._replace(count=count)
    atoms = facts_below(table)
    record = some_record(dice, atoms)
    for number in numbers:
        place = dice.randrange(MOST_JOBS if 5 in numbers else count)
        if number in FAULTS and dice.random() < 0.7:
            table = with_job(table, place, FAULTS[number](dice, table.jobs[place], atoms))
        elif number in FAULTS:
            record = FAULTS[number](dice, record, atoms)
    table = table._replace(atoms=dice.choice(BAD_ATOMS)) if 4 in numbers else table
    table = table._replace(count=dice.choice((25, 26, 255, 256, MOST))) if 5 in numbers else table
    there = dice.randrange(min(table.count, MOST_JOBS))
    absent = [255, min(table.count + dice.choice((0, 0, 1)), 255)] if table.count < 255 else []
    edits = joined.from_iterable((replace(number, record), remove(number)) for number in (*absent, there))
    wanted = [Edit(what, 0, NO_JOB, 0, 0, 9, min(table.count, 300)) for what in (PLAN, LEAST)]
    return edits_call(table, [*wanted, *edits, add(record)])


# Removals, and rows that are not right.

def removals(dice):
    """Each place of tables of few and of many jobs, then its room used again."""
    for count in (1, 2, 3, 12, 23, 24):
        for place in range(count):
            table = some_open(dice, count)
            job = some_record(dice, facts_below(table))
            yield edits_call(table, [remove(place), add(job), replace(place, job), remove(count - 1)])


def wrong_rows(dice):
    """Rows of any bits, of all, of each job's own and of those that no job has, with each place edited in every way."""
    rows = {
        'any': lambda row: dice.getrandbits(32), 'all': lambda row: WHOLE_ROW, 'own': lambda row: 1 << row, 'beyond': lambda row: 0xff << 24,
        'none': lambda row: 0}
    for place in range(MOST_JOBS):
        for bits in rows.values():
            count = dice.choice((MOST_JOBS, MOST_JOBS, dice.randint(place + 1, MOST_JOBS)))
            table = some_open(dice, count)._replace(rows=tuple(bits(row) for row in range(MOST_JOBS)))
            record = some_record(dice, facts_below(table))
            edits = [replace(place, record), remove(place), add(record)]
            yield edits_call(table, dice.choice((edits, edits[1:], edits[::-1])))


def behind_the_jobs(dice):
    """Records and rows of any bits behind the jobs, which no edit looks at and a removal moves."""
    for count in range(MOST_JOBS):
        table = some_open(dice, count)
        behind = tuple(any_record(dice) for _ in range(MOST_JOBS - count))
        table = table._replace(jobs=table.jobs[:count] + behind, rows=tuple(dice.getrandbits(32) for _ in range(MOST_JOBS)))
        job = some_record(dice, facts_below(table))
        for edits in ([add(job)], [remove(dice.randrange(max(1, count)))] * 2, [replace(max(0, count - 1), job), add(job), remove(0)]):
            yield edits_call(table, edits)


def any_bits(dice):
    """Tables of any bits and edits of any; then one that begins anew."""
    for _ in range(80):
        edits = [dice.choice((add(any_record(dice)), replace(dice.getrandbits(8), any_record(dice)), remove(dice.getrandbits(8)))) for _ in range(5)]
        yield edits_call(any_open(dice), [*edits, begin(dice.getrandbits(8)), *edits[:2]])


def unlike_a_call(dice):
    """One record or one byte too few, and bytes behind the last edit."""
    call = edits_call(some_open(dice, 3), [remove(1)])
    yield Call([EDITS])
    for records, table in ((23, call.table), (24, call.table[:95]), (24, call.table[:-1]), (24, call.table + b'\0')):
        yield Call([*call.head[:8], records, len(table), *call.head[10:]], call.records[:records], table)


# Plans of what stands there.

def both_plans(problem, lent, bound=None):
    return [plan(problem, lent, bound), plan(problem, lent, LAST_BOUND if bound is None else bound, LEAST)]


def p3_by_edits(dice):
    """P3 by each rule: planned after every edit; wash replaced by one that deletes nothing, drench removed and added again."""
    for rule in (0, RULE_2):
        p3 = jobs_u([2, 3, 4], 13)
        wash, drench = p3.jobs[3]._replace(deletions=0), p3.jobs[1]
        edits = [*filling(5 + rule, p3.jobs), replace(3, wash), remove(1), add(drench), replace(9, wash), replace(3, drench._replace(duration=0))]
        yield edits_call(any_open(dice), joined.from_iterable((edit, *both_plans(p3, 5)) for edit in edits), 0x2d)


def plan_edges(dice):
    """Starts lent for as many jobs, one fewer and more; bounds around the last; facts behind the last; rows that are wrong; counts that are too large."""
    for problem in (jobs_u([2, 3, 4], 12), chain([3, 1, 2], True, 6), house((1,))):
        table, jobs = opened(problem.atoms + some_rule(dice), problem.jobs), len(problem.jobs)
        yield edits_call(table, joined.from_iterable(both_plans(problem, lent) for lent in (0, jobs - 1, jobs, jobs + 1, 40)))
        yield edits_call(table, joined.from_iterable(both_plans(problem, jobs, bound) for bound in (0, 11, 12, 13, 2880, 2881, 65535)), 0xff)
        wrong = table._replace(rows=tuple(dice.getrandbits(32) for _ in range(MOST_JOBS)))
        stray = 1 << problem.atoms
        for wanted in ({'opening': stray}, {'goals': stray}, {'goals': stray, 'bound': 2881}):
            yield edits_call(wrong, [edit._replace(**wanted) for edit in both_plans(problem, jobs)])
        for count, lent in ((25, 25), (25, 24), (256, 256), (2 ** 32, 300), (MOST, 2000), (0, 0), (jobs - 1, jobs)):
            yield edits_call(wrong._replace(count=count), both_plans(problem, lent))
        yield edits_call(wrong._replace(count=25, atoms=0), both_plans(problem, 25) + both_plans(problem, 24))


def faulty_plans(dice):
    """Tables with a bad job at any place, planned; then with a good one there."""
    for number in FAULTS:
        for _ in range(6):
            problem = small_table(dice)
            while not problem.jobs:
                problem = small_table(dice)
            place, atoms = dice.randrange(len(problem.jobs)), min(problem.atoms, 63)
            table = opened(atoms + some_rule(dice), problem.jobs)
            edits = both_plans(problem, len(problem.jobs), 40)
            bad = with_job(table, place, FAULTS[number](dice, table.jobs[place], atoms))
            yield edits_call(bad, [*edits, replace(place, problem.jobs[place]), *edits])


def small_plans(dice):
    """Small tables filled, planned, edited and planned again."""
    for _ in range(60):
        problem, _ = planned(dice, small_table(dice))
        plans = both_plans(problem, len(problem.jobs) + 1)
        edit = dice.choice((remove(0), add(some_record(dice, problem.atoms)), replace(0, some_record(dice, problem.atoms))))
        yield edits_call(any_open(dice), [*filling(problem.atoms + some_rule(dice), problem.jobs), *plans, edit, *plans], dice.choice((0, 0xff, 0xab)))


# Drawn runs.

def next_edit(dice, count, atoms):
    """Mostly in order: what a table of about so many jobs may be asked."""
    near, chance = dice.randint(0, max(0, count - 1)), dice.random()
    record = bad_record(dice, atoms) if dice.random() < 0.1 else some_record(dice, atoms)
    number = near if dice.random() < 0.93 else dice.choice((count, count + 1, 24, 255))
    if chance < 0.45:
        return add(record)
    return replace(number, record) if chance < 0.75 else remove(number)


def run(dice, length):
    """Edits from an empty table on, the count kept in mind; now and then it is begun anew."""
    atoms, count, edits = dice.choice((2, 5, 12, 63)), 0, []
    edits.append(begin(atoms + some_rule(dice)))
    for _ in range(length):
        edit = next_edit(dice, count, atoms)
        if dice.random() < 0.01:
            edit, count = begin(atoms), 0
        edits.append(edit)
        count = max(0, min(MOST_JOBS, count + {ADD: 1, REMOVE: -1}.get(edit.what, 0)))
    return edits


def runs(dice):
    """Runs of some ten edits, and one of some hundred."""
    return (edits_call(any_open(dice), run(dice, length)) for length in (*[45] * 24, 400))


def drawn(dice):
    """A few edits of a right table, of one with other rows, with a bad job or of any bits."""
    table = some_open(dice, dice.choice((0, 1, 2, 5, 12, 23, 24)))
    atoms, chance = facts_below(table), dice.random()
    if chance < 0.15:
        table = table._replace(rows=tuple(dice.getrandbits(32) for _ in range(MOST_JOBS)))
    elif chance < 0.25 and table.count:
        table = with_job(table, dice.randrange(table.count), bad_record(dice, atoms))
    elif chance < 0.3:
        table = any_open(dice)
    edits = [next_edit(dice, min(table.count, MOST_JOBS), atoms) for _ in range(dice.randint(1, 9))]
    if dice.random() < 0.1 and table.count < 6:
        facts = [some_facts(dice, 3, atoms), word(dice.randrange(atoms))]
        edits.append(Edit(dice.choice((PLAN, LEAST)), 0, NO_JOB, *facts, dice.choice((0, 9, 40)), dice.choice((24, 24, 2))))
    return edits_call(table, edits, dice.choice((0, 0xff, 0xab)))


WALKS = (every_atom_byte, every_atom_count, to_the_last, every_count, behind_the_last, one_fault, bad_addition, two_bad, every_set, removals, wrong_rows,
         behind_the_jobs, any_bits, unlike_a_call, p3_by_edits, plan_edges, faulty_plans, small_plans, runs)
