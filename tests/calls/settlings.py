"""Calls that settle jobs: the pairs of a plan, pairs without a circle and any pairs, bounds around the last end, and the limits. What is
drawn here serves settling and the question why a job starts alike, by the kind of the call."""
from draft import MOST, SETTLE, Draft, planned_table, with_lengths
from tables import LAST_BOUND, OUT, chain, interfere


def plan_pairs(problem, starts):
    """Jobs of a plan that interfere, in its order."""
    inside = sorted((start, j) for j, start in enumerate(starts) if start != OUT)
    order = [j for _, j in inside]
    return [(a, b) for i, a in enumerate(order) for b in order[i + 1:] if interfere(problem.jobs[a], problem.jobs[b])]


def rising_pairs(dice, jobs, most=40):
    """Pairs without a cycle, the same pair more than once."""
    order = dice.sample(jobs, len(jobs))
    places = [sorted(dice.choices(range(len(order)), k=2)) for _ in range(dice.randint(0, most))]
    return [(order[a], order[b]) for a, b in places if a != b]


def any_pairs(dice, jobs):
    return [tuple(dice.choices(jobs, k=2)) for _ in range(dice.choice((1, 2, 3, 9)))] if jobs else []


def least_starts(draft):
    """The least start of each job of the set; of no use where the pairs go in a circle."""
    starts = {j: draft.jobs[j].release for j in range(draft.count) if draft.set >> j & 1}
    for _ in range(len(starts) + 1):
        over = {a: start + draft.jobs[a][3] + draft.gap for a, start in starts.items()}
        moves = [(b, over[a]) for a, b in draft.pairs if starts[b] < over[a]]
        for b, start in moves:
            starts[b] = max(starts[b], start)
        if not moves:
            break
    return starts


def settled_end(draft):
    """Where the last job ends at the least starts."""
    return max((start + draft.jobs[j][3] for j, start in least_starts(draft).items()), default=0)


def some_settling(dice, crates, kind):
    """A draft, mostly in order or nearly so."""
    problem, starts = planned_table(dice, crates)
    draft = Draft(kind, problem)
    draft.set = dice.choice((draft.set, sum(1 << j for j, start in enumerate(starts) if start != OUT),
                             draft.set & dice.getrandbits(24)))
    inside = [j for j in range(draft.count) if draft.set >> j & 1]
    make = dice.choice((rising_pairs, rising_pairs, any_pairs))
    draft.pairs = make(dice, inside) if inside else []
    if dice.random() < 0.3:
        draft.pairs = [pair for pair in plan_pairs(problem, starts) if set(pair) <= set(inside)]
    draft.bound = min(LAST_BOUND, max(0, settled_end(draft) + dice.choice((0, 0, -1, 1, LAST_BOUND))))
    spoil_pairs(dice, draft)
    draft.pair_count = len(draft.pairs)
    draft.behind = bytes(dice.choice((0, 0, 1, 2, 5)))
    return draft


def settling(dice, crates):
    return with_lengths(some_settling(dice, crates, SETTLE), dice).call()


def spoil_pairs(dice, draft):
    """Now and then a pair or the set names what is not there."""
    chance = dice.random()
    if chance < 0.08:
        for _ in range(dice.choice((1, 2))):
            draft.pairs.insert(dice.randint(0, len(draft.pairs)), (dice.choice((0, 23, 63, 64, 255)), dice.randrange(26)))
    elif chance < 0.12:
        draft.set |= 1 << dice.randint(draft.count, 63)
    elif chance < 0.16:
        outside = dice.randrange(64)
        draft.pairs.append((outside, outside))


def limits(dice, kind):
    """Drafts with pair counts at 600 and 601 and any others, with as many bytes, fewer and more; with sets beyond the table."""
    links = chain([1] * 24, False)
    for pairs, count, behind in ((600, 600, 0), (601, 601, 0), (600, 601, 0), (600, 601, 1), (599, 600, 3), (601, 600, 0),
                                 (0, 1, 0), (0, 1, 1), (3, MOST, 0), (3, 2 ** 63, 0), (3, 2 ** 63 + 1, 9), (32800, 32800, 0),
                                 (32800, 32801, 0), (700, 1000, 0), (0, 0, 7)):
        draft = Draft(kind, links)
        rising = [sorted(dice.sample(range(24), 2)) for _ in range(pairs)]
        draft.pairs, draft.pair_count, draft.behind = [tuple(pair) for pair in rising], count, bytes(behind)
        yield draft
    for beyond in (24, 25, 31, 32, 62, 63):
        for pair in ((0, 1), (beyond, 1), (1, beyond), (beyond, beyond)):
            draft = Draft(kind, links)
            draft.set, draft.pairs, draft.pair_count = draft.set | 1 << beyond, [pair], 1
            yield draft


def settling_limits(dice):
    return (draft.call() for draft in limits(dice, SETTLE))
