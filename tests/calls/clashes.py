"""Calls on clashes: pairs of records that clash in every way, and offered plans in which several jobs that clash overlap."""
from dataclasses import replace
from itertools import combinations, product

from call import Call, Job, clash_call
from draft import MOST, OFFERED, Draft
from tables import OUT, Problem, clashing, jobs_u, released, some_facts, to_its_end

# The words of a record by their places.
CONDITIONS, ADDITIONS, DELETIONS = range(3)
# How two records clash over a fact: which of them deletes it, and what it is to the other.
WAYS = tuple(product((0, 1), (CONDITIONS, ADDITIONS)))


def clash_over(jobs, fact, deleter, other, word):
    """Lets a job delete a fact that another has in this word."""
    jobs[deleter][DELETIONS] |= 1 << fact
    jobs[other][word] |= 1 << fact


def two_jobs(facts):
    """Two jobs that clash over each of the facts in its way."""
    jobs = [0, 0, 0], [0, 0, 0]
    for fact, (deleter, word) in facts:
        clash_over(jobs, fact, deleter, 1 - deleter, word)
    return tuple(Job(*words, 1) for words in jobs)


# Pairs of records.

def every_fact(dice):
    """Each fact by itself, in each way."""
    return (clash_call(*two_jobs([(fact, way)])) for fact in range(64) for way in WAYS)


def two_facts(dice):
    """A lower and a higher fact, each in each way: both conditions, both additions, or one of each, by one job or by both."""
    for facts in ((0, 1), (0, 63), (31, 32), (5, 40)):
        yield from (clash_call(*two_jobs(zip(facts, ways))) for ways in product(WAYS, repeat=2))


def every_word(dice):
    """The last fact, and then all facts, in each of the six words or not: what no job deletes is no clash, nor what one alone has."""
    for facts, held in product((1 << 63, MOST), product((0, 1), repeat=6)):
        words = [facts * has for has in held]
        yield clash_call(Job(*words[:3], 1), Job(*words[3:], 1))


def some_record(dice, first, thin):
    """A record with facts from the first on, the thinner the fewer; its times may be any."""
    def facts():
        word = MOST << first & MOST
        for _ in range(thin):
            word &= dice.getrandbits(64)
        return word
    return Job(dice.choice((0, facts())), facts(), facts(), dice.getrandbits(16), dice.getrandbits(16))


def some_pair(dice):
    """Two drawn records, dense or sparse, or one of them twice."""
    first, thin = dice.choice((0, dice.randrange(64))), dice.randint(1, 5)
    one, other = some_record(dice, first, thin), some_record(dice, first, thin)
    return clash_call(one, dice.choice((one, other, other, other)))


def drawn_pairs(dice):
    return (some_pair(dice) for _ in range(200))


def no_pairs(dice):
    """No kind of call, and a clash of one record and of three."""
    yield Call([255])
    yield from (Call([11] + [0] * 7 + [lent], [Job(1, 1, 1, 1)] * lent) for lent in (1, 3))


# Offered plans.

def offered(kind, problem, starts):
    """The plan within a bound at which it ends."""
    return Draft(kind, to_its_end(problem, starts), starts).call()


def one_overlap(dice):
    """Two jobs that start together and clash over one fact, the first, the last or one in between, in each way, by either rule."""
    for number, (fact, way, gap) in enumerate(product((0, 1, 31, 32, 62, 63), WAYS, (0, 1))):
        yield offered(OFFERED[number % 3], Problem(two_jobs([(fact, way)]), 64, 0, 0, 0, gap), [0, 0])


def rivals(dice):
    """Four jobs of which every two clash, each pair over facts of its own, the higher the lower the pair: one fact, a higher one of
    the same kind the other way round, and beside a condition a lower addition."""
    jobs = [[0, 0, 0] for _ in range(4)]
    for place, pair in enumerate(reversed(list(combinations(range(4), 2)))):
        word, (a, b) = dice.choice((CONDITIONS, ADDITIONS)), dice.sample(pair, 2)
        clash_over(jobs, 10 * place + 6, a, b, word)
        clash_over(jobs, 10 * place + 9, b, a, word)
        if word == CONDITIONS:
            clash_over(jobs, 10 * place + 3, *dice.sample(pair, 2), ADDITIONS)
    return tuple(Job(*words, dice.choice((2, 3))) for words in jobs)


def every_overlap(dice):
    """Rivals two or three quarter hours long that are apart, touch or overlap, by either rule, every other time released when
    they start."""
    for number, (gap, starts) in enumerate(product((0, 1), product((0, 2, 5), repeat=4))):
        problem = Problem(rivals(dice), 64, 0, 0, 0, gap)
        late = released(problem, starts if number % 2 else ())
        yield offered(OFFERED[number % 3], late, starts)


def drench_beside_wash(dice):
    """The plan of P3 with drench at each start around wash, by either rule."""
    for kind, gap, start in product(OFFERED, (0, 1), range(2, 9)):
        yield Draft(kind, replace(jobs_u([2, 3, 4], 13), gap=gap), [0, start, 4, 4]).call()


def turned(problem):
    """The same table with its facts in falling order."""
    def word(facts):
        return sum(1 << problem.atoms - 1 - fact for fact in range(problem.atoms) if facts >> fact & 1)
    jobs = tuple(job._replace(**{name: word(getattr(job, name)) for name in Job._fields[:3]}) for job in problem.jobs)
    return replace(problem, jobs=jobs, opening=word(problem.opening), goals=word(problem.goals))


def every_neighbour(dice):
    """24 jobs of which all 276 pairs interfere, one after the other, save that one runs beside the one before it: at each place, with
    the lower fact of the lower job and of the higher."""
    for problem, place in product((clashing(24), turned(clashing(24))), range(1, 24)):
        starts = [number - (number >= place) for number in range(24)]
        yield Draft(OFFERED[place % 3], problem, starts).call()


def some_rival(dice, atoms, needs):
    """A job that deletes and adds much, and needs up to so many facts: it clashes with many, by additions where nothing is needed."""
    additions = some_facts(dice, 5, atoms)
    return Job(some_facts(dice, needs, atoms), additions, some_facts(dice, 5, atoms) & ~additions, dice.randint(1, 6))


def some_overlap(dice):
    """A plan in which many jobs that clash overlap; none ends late or starts before its release."""
    atoms, needs = dice.choice((6, 20, 64)), dice.choice((0, 0, 2, 5))
    jobs = tuple(some_rival(dice, atoms, needs) for _ in range(dice.choice((3, 4, 8, 24))))
    starts = [dice.choice((OUT, OUT, *range(9))) for _ in jobs]
    releases = [0 if start == OUT else dice.choice((0, start)) for start in starts]
    late = released(Problem(jobs, atoms, 0, 0, 0, dice.randrange(2)), dice.choice((releases, ())))
    return offered(dice.choice(OFFERED), late, starts)


def drawn_overlaps(dice):
    return (some_overlap(dice) for _ in range(180))


WALKS = (every_fact, two_facts, every_word, drawn_pairs, no_pairs, one_overlap, every_overlap, drench_beside_wash,
         every_neighbour, drawn_overlaps)
DRAWN = some_pair, some_overlap
