"""Job tables for the stream of calls, and plans for them that are valid by the way they are made."""
from dataclasses import dataclass, replace

from call import Job

OUT = 65535
MOST_JOBS, LAST_BOUND, LONGEST, LAST_RELEASE, MOST_OVERRUN = 24, 2880, 960, 2880, 96


@dataclass(frozen=True)
class Problem:
    """Jobs, and the numbers of a call beside them; facts are bits, and the gap is 1 under rule 2."""
    jobs: tuple
    atoms: int
    opening: int
    goals: int
    bound: int
    gap: int = 0


def word(*facts):
    return sum(1 << fact for fact in set(facts))


def facts_in(facts):
    """The facts of a word, lowest first."""
    return [fact for fact in range(64) if facts >> fact & 1]


def job(conditions, additions, deletions, duration):
    return Job(word(*conditions), word(*additions), word(*deletions), duration)


# Named problems.

def jobs_u(goals, bound):
    """Unpack, drench, warm, wash."""
    jobs = (job([0], [1], [0], 4), job([1], [2], [], 2), job([1], [3], [], 8), job([1], [4], [2], 3))
    return Problem(jobs, 5, word(0), word(*goals), bound)


def go_twice():
    jobs = (job([0], [1], [0], 1), job([1], [0], [1], 1), job([1], [2], [], 1), job([0, 2], [3], [], 1))
    return Problem(jobs, 4, word(0), word(1, 3), 12)


def go_again():
    """With a second go."""
    return replace(go_twice(), jobs=go_twice().jobs + go_twice().jobs[:1])


# Stage durations of the house groups; b where the wash bay is held.
GROUPS = [stages.split() for stages in (
    '4; 4 3b; 6 3b 8; 4 12; 8 3b 16; 4 3b 8 24; 12; 6 2b 12 3b; 4 8 16 32; 8 3b 24 3b 48; 4 2b 8 2b 16 32; 96').split(';')]


def house(groups, bound=LAST_BOUND):
    """Fact 0 is the bay; a clearing job stands right behind each stage that holds it."""
    jobs, goals, facts = [], 0, 1
    for group in groups:
        before = []
        for stage in GROUPS[group]:
            bay = [0] if stage.endswith('b') else []
            jobs.append(job(before + bay, [facts], bay, int(stage.rstrip('b'))))
            if bay:
                jobs.append(job([facts], [0], [], 1))
            before = [facts]
            facts += 1
        goals |= word(*before)
    return Problem(tuple(jobs), facts, 1, goals, bound)


def trolley(crates, bound=LAST_BOUND):
    """One trolley with one slot carries crates from A to B."""
    jobs, opening, goals = [], word(0, 2), 0
    for crate in range(crates):
        waiting, on, done = 3 + 3 * crate, 4 + 3 * crate, 5 + 3 * crate
        jobs.append(job([0, 2, waiting], [on], [2, waiting], 2))
        jobs.append(job([1, on], [done, 2], [on], 1))
        opening, goals = opening | word(waiting), goals | word(done)
    jobs += [job([0], [1], [0], 5)] * crates + [job([1], [0], [1], 4)] * (crates - 1)
    return Problem(tuple(jobs), 3 + 3 * crates, opening, goals, bound)


def tower(blocks, bound=LAST_BOUND):
    """Pick from the table and stack, unit durations; block 0 is to stand on top."""
    free, clear, table, held = 0, 1, 1 + blocks, 1 + 2 * blocks
    on = {}
    jobs = [job([table + b, clear + b, free], [held + b], [table + b, clear + b, free], 1) for b in range(blocks)]
    for a in range(blocks):
        for b in range(blocks):
            if a != b:
                on[a, b] = 1 + 3 * blocks + len(on)
                jobs.append(job([held + a, clear + b], [on[a, b], clear + a, free], [held + a, clear + b], 1))
    opening = word(free, *range(clear, clear + blocks), *range(table, table + blocks))
    goals = word(*(on[b, b + 1] for b in range(blocks - 1)))
    return Problem(tuple(jobs), 1 + 3 * blocks + len(on), opening, goals, bound)


def chain(durations, deleting, bound=LAST_BOUND):
    """Each job needs the fact of the one before, and may delete it."""
    jobs = [job([fact], [fact + 1], [fact] if deleting else [], long) for fact, long in enumerate(durations)]
    return Problem(tuple(jobs), len(jobs) + 1, 1, word(len(jobs)), bound)


def clashing(count):
    """Each job adds a goal and a mark and deletes the marks of all others."""
    marks = range(count, 2 * count)
    jobs = [job([], [j, marks[j]], [mark for mark in marks if mark != marks[j]], 1) for j in range(count)]
    return Problem(tuple(jobs), 2 * count, 0, word(*range(count)), count)


NAMED = [jobs_u([2, 3], 12), jobs_u([2, 3, 4], 12), jobs_u([0], 0), jobs_u([0, 1], LAST_BOUND), go_twice(), trolley(2)]


# Random tables.

def some_facts(dice, most, atoms):
    return word(*(dice.randrange(atoms) for _ in range(dice.randint(0, most))))


def some_job(dice, atoms, deletions, longest):
    additions = word(dice.randrange(atoms)) | some_facts(dice, 1, atoms)
    return Job(some_facts(dice, 2, atoms), additions, some_facts(dice, deletions, atoms) & ~additions,
               dice.randint(1, longest))


def some_jobs(dice, count, atoms, deletions, longest):
    """Some jobs are the same as an earlier one."""
    jobs = []
    for _ in range(count):
        again = jobs and dice.random() < 0.1
        jobs.append(dice.choice(jobs) if again else some_job(dice, atoms, deletions, longest))
    return tuple(jobs)


def random_table(dice, jobs, atoms, deletions, longest):
    """A random table with no goals yet."""
    return Problem(some_jobs(dice, jobs, atoms, deletions, longest), atoms, some_facts(dice, 3, atoms), 0, LAST_BOUND)


def small_table(dice):
    return random_table(dice, dice.randint(0, 7), dice.randint(1, 9), 2, dice.choice((1, 3, 9, 9, 60, LONGEST)))


def deleting_table(dice):
    return random_table(dice, dice.randint(3, 7), dice.randint(3, 6), 5, dice.choice((1, 4, 12)))


def large_table(dice):
    """Up to all 24 jobs and 64 facts: for calls that do not plan."""
    table = random_table(dice, dice.choice((8, 16, 23, 24, 24)), dice.choice((12, 40, 63, 64, 64)), 2,
                         dice.choice((5, 40, LONGEST)))
    return replace(table, opening=dice.getrandbits(table.atoms) & dice.getrandbits(table.atoms))


def random_chain(dice):
    """A chain with a few jobs that cross it."""
    links = chain([dice.randint(1, 12) for _ in range(dice.randint(2, 5))], dice.random() < 0.5)
    jobs = list(links.jobs) + list(some_jobs(dice, dice.randint(0, 3), links.atoms, 2, 9))
    dice.shuffle(jobs)
    return replace(links, jobs=tuple(jobs))


def random_tower(dice):
    """A small tower, with only some of the stackings that are not wanted."""
    whole = tower(dice.choice((2, 3)))
    kept = [j for j in whole.jobs if j[1] & whole.goals or dice.random() < 0.7]
    longer = [j._replace(duration=dice.choice((1, 1, 2, 5))) for j in kept]
    return replace(whole, jobs=tuple(longer))


def random_house(dice):
    """One to three batches of few stages."""
    while True:
        problem = house([dice.randrange(12) for _ in range(dice.randint(1, 3))])
        if len(problem.jobs) <= 9:
            return problem


def drawn_table(dice):
    makers = small_table, small_table, deleting_table, deleting_table, random_chain, random_tower, random_house
    return dice.choice(makers)(dice)


# The gap and releases.

def ruled(problem):
    """The same table under rule 2."""
    return replace(problem, gap=1)


def released(problem, releases):
    """The same table with these releases, from job 0 on."""
    late = [job._replace(release=release) for job, release in zip(problem.jobs, releases)]
    return replace(problem, jobs=(*late, *problem.jobs[len(late):]))


def on_time(dice, jobs):
    """No job has a release."""
    return tuple(jobs)


def landing(dice, jobs):
    """Each job has no release or one of the table's two, so that some come together and some jobs stay the same."""
    last = dice.choice((2, 6, 12, 12, 40, 200, LAST_RELEASE))
    times = (0, dice.randint(0, last), dice.randint(0, last))
    return tuple(job._replace(release=dice.choice(times)) for job in jobs)


def some_landing(dice, jobs):
    """Half of the tables have releases."""
    return dice.choice((on_time, landing))(dice, jobs)


# Plans that are valid by the way they are made.

def interfere(a, b):
    return bool(a[2] & (b[0] | b[1]) or b[2] & (a[0] | a[1]))


def jobs_in(starts):
    """The jobs of a plan, by number."""
    return [j for j, start in enumerate(starts) if start != OUT]


def facts_at(problem, starts, time):
    """The opening facts after all finishes up to a time."""
    ends = sorted((starts[j] + problem.jobs[j][3], j) for j in jobs_in(starts))
    facts = problem.opening
    for end, j in ends:
        if end <= time:
            facts = facts & ~problem.jobs[j][2] | problem.jobs[j][1]
    return facts


def earliest_place(problem, starts, number):
    """The earliest start that sees the conditions, from the release on and behind all jobs placed so far that
    interfere; or None. What a finish shows is seen the gap later."""
    placed = jobs_in(starts)
    ends = {j: starts[j] + problem.jobs[j][3] + problem.gap for j in placed}
    behind = [ends[j] for j in placed if interfere(problem.jobs[j], problem.jobs[number])]
    free = max([problem.jobs[number].release, *behind])
    for time in sorted({free, *(end for end in ends.values() if end > free)}):
        if not problem.jobs[number][0] & ~facts_at(problem, starts, time - problem.gap):
            return time
    return None


def some_plan(dice, problem, left_out=0.15, slack=(0, 0, 0, 1, 4)):
    """Jobs in a random order, each as early as the ones before it and its release allow, or a little later."""
    starts = [OUT] * len(problem.jobs)
    order = dice.sample(range(len(starts)), len(starts))
    unwanted = {j for j in order if dice.random() < left_out}
    for number in order * 3:
        if starts[number] != OUT or number in unwanted:
            continue
        place = earliest_place(problem, starts, number)
        if place is not None:
            place += dice.choice(slack)
            if place + problem.jobs[number][3] <= LAST_BOUND:
                starts[number] = place
    return starts


def last_end(problem, starts):
    return max((starts[j] + problem.jobs[j][3] for j in jobs_in(starts)), default=0)


def to_its_end(problem, starts):
    """The same table within the bound at which the plan ends."""
    return replace(problem, bound=last_end(problem, starts))


def with_goals(dice, problem, starts):
    """Goals out of what the plan leads to, those that are new first."""
    led_to = facts_at(problem, starts, LAST_BOUND)
    goals = led_to & dice.getrandbits(64)
    new = [fact for fact in range(64) if led_to & ~problem.opening & 1 << fact]
    if new:
        goals |= 1 << dice.choice(new)
    bound = min(last_end(problem, starts) + dice.choice((0, 0, 1, 3)), LAST_BOUND)
    return replace(problem, goals=goals, bound=bound)


def planned(dice, problem):
    """A table with goals that a plan meets, and the plan."""
    starts = some_plan(dice, problem)
    return with_goals(dice, problem, starts), starts
