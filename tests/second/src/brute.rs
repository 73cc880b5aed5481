//! Slow ways, for the self-test only. To the first plan: every start vector in the stated order, and every order
//! of jobs with each job as early as the ones before it and its release allow. To estimates and settled starts:
//! every start vector. To clashes: every fact; to overlaps: every quarter hour. To what events are allowed: every log. To
//! the chain of a job: every sequence of jobs; to what goals cost: every quarter hour. To how late it can get: every
//! sequence of jobs, every overrun of each job, and every quarter hour of a run.

use crate::following::{Event, Worked};
use crate::reasons::Reason;
use crate::rules::{check_plan, facts_seen, finish, interfere, is_in, over, Clash, Job, Problem, FACTS, OUT};
use std::collections::BTreeMap;

/// The first fact, from 0 on, that one of the jobs deletes and the other has among these.
fn lowest_deleted(a: &Job, b: &Job, among: fn(&Job) -> u64) -> Option<usize> {
    let has = |word: u64, fact: usize| word >> fact & 1 == 1;
    let deletes = |one: &Job, other: &Job, fact| has(one.deletions, fact) && has(among(other), fact);
    (0..FACTS).find(|&fact| deletes(a, b, fact) || deletes(b, a, fact))
}

/// All facts are looked at for a condition, then all for an addition.
pub fn clash(a: &Job, b: &Job) -> Clash {
    let condition = lowest_deleted(a, b, |job| job.conditions).map(Clash::Condition);
    let addition = || lowest_deleted(a, b, |job| job.additions).map(Clash::Addition);
    condition.or_else(addition).unwrap_or(Clash::None)
}

/// The lower job and the fact of the first pair that clashes and takes a quarter hour together, where a job takes
/// those of the gap behind it too.
pub fn first_overlap(problem: &Problem, starts: &[u16]) -> Option<(usize, usize)> {
    let jobs = problem.jobs;
    let takes = |job: usize, time: u32| {
        is_in(starts[job])
            && starts[job] as u32 <= time
            && time < finish(&jobs[job], starts[job]) + problem.gap as u32
    };
    let last = problem.bound as u32 + problem.gap as u32;
    let together = |a: usize, b: usize| (0..last).any(|time| takes(a, time) && takes(b, time));
    let pairs = (0..jobs.len()).flat_map(|a| (a + 1..jobs.len()).map(move |b| (a, b)));
    pairs.filter(|&(a, b)| together(a, b)).find_map(|(a, b)| Some((a, clash(&jobs[a], &jobs[b]).fact()?)))
}

/// The next value of a start in the stated order: out, 0, 1 and so on, while the job ends by the bound.
fn next_start(problem: &Problem, job: usize, start: u16) -> Option<u16> {
    let next = if start == OUT { 0 } else { start + 1 };
    (next + problem.jobs[job].duration <= problem.bound).then_some(next)
}

/// Steps to the next vector; the last job moves fastest. False behind the last vector.
fn step(problem: &Problem, starts: &mut [u16]) -> bool {
    for job in (0..starts.len()).rev() {
        match next_start(problem, job, starts[job]) {
            Some(start) => {
                starts[job] = start;
                return true;
            }
            None => starts[job] = OUT,
        }
    }
    false
}

/// Of all start vectors that end by the bound, in the stated order, the first that is taken. Starts before a
/// release are asked about too: whether they are valid is the rules' business.
fn first_taken(problem: &Problem, mut takes: impl FnMut(&[u16]) -> bool) -> Option<Vec<u16>> {
    let mut starts = vec![OUT; problem.jobs.len()];
    loop {
        if takes(&starts) {
            return Some(starts);
        }
        if !step(problem, &mut starts) {
            return None;
        }
    }
}

/// The first valid vector.
pub fn first_plan(problem: &Problem) -> Option<Vec<u16>> {
    first_taken(problem, |starts| check_plan(problem, starts).is_ok())
}

/// For each job the least start that it has in any of the vectors that keep a rule; out if it is in none.
fn least_of_each(problem: &Problem, keeps: impl Fn(&[u16]) -> bool) -> Vec<u16> {
    let mut least = vec![OUT; problem.jobs.len()];
    first_taken(problem, |starts| {
        if keeps(starts) {
            least.iter_mut().zip(starts).for_each(|(least, &start)| *least = start.min(*least));
        }
        false
    });
    least
}

/// The earliest start of each job in any plan, whatever the goals: without deletions, the estimate.
pub fn earliest_starts(problem: &Problem) -> Vec<u16> {
    let no_goals = Problem { goals: 0, ..*problem };
    least_of_each(problem, |starts| check_plan(&no_goals, starts).is_ok())
}

/// Of the vectors of the set that keep the pairs and the releases the least start of each job: itself such a vector
/// if there is any.
pub fn settled(problem: &Problem, set: u64, pairs: &[u8]) -> Option<Vec<u16>> {
    let jobs = problem.jobs;
    let keeps = |starts: &[u16]| {
        let in_set = |job: usize| set >> job & 1 == 1;
        let placed = |job: usize| (starts[job] != OUT) == in_set(job) && starts[job] >= jobs[job].release;
        let kept = |pair: &[u8]| over(problem, starts, pair[0] as usize, pair[1] as usize);
        (0..jobs.len()).all(placed) && pairs.chunks_exact(2).all(kept)
    };
    let least = least_of_each(problem, keeps);
    keeps(&least).then_some(least)
}

/// The bounds are tried from 0 on.
pub fn least_bound(problem: &Problem) -> Option<(u16, Vec<u16>)> {
    (0..=problem.bound).find_map(|bound| Some((bound, first_plan(&Problem { bound, ..*problem })?)))
}

/// The job's earliest start from its release on that sees its conditions, with all jobs placed before that interfere
/// with it done, and the gap behind them.
pub fn earliest_place(problem: &Problem, starts: &[u16], job: usize) -> Option<u16> {
    let jobs = problem.jobs;
    let last = problem.bound.checked_sub(jobs[job].duration)?;
    let placed = (0..jobs.len()).filter(|&other| starts[other] != OUT);
    let free = placed
        .filter(|&other| interfere(&jobs[job], &jobs[other]))
        .map(|other| finish(&jobs[other], starts[other]) as u16 + problem.gap)
        .max()
        .unwrap_or(0)
        .max(jobs[job].release);
    (free..=last).find(|&time| jobs[job].conditions & !facts_seen(problem, starts, time) == 0)
}

/// Every order of jobs that goes on from here; in the stated order of plans, out comes first.
fn try_orders(problem: &Problem, starts: &mut Vec<u16>, best: &mut Option<Vec<u16>>) {
    let rank = |plan: &[u16]| plan.iter().map(|start| start.wrapping_add(1)).collect::<Vec<_>>();
    if check_plan(problem, starts).is_ok() && best.as_ref().is_none_or(|plan| rank(starts) < rank(plan)) {
        *best = Some(starts.clone());
    }
    for job in 0..starts.len() {
        if starts[job] == OUT {
            if let Some(start) = earliest_place(problem, starts, job) {
                starts[job] = start;
                try_orders(problem, starts, best);
                starts[job] = OUT;
            }
        }
    }
}

/// The first plan among those in which every job is as early as its order and its release allow; the first of all
/// is one of them, since jobs moved earlier in the same order, but not before their releases, make no plan invalid.
pub fn first_plan_by_orders(problem: &Problem) -> Option<Vec<u16>> {
    let mut best = None;
    try_orders(problem, &mut vec![OUT; problem.jobs.len()], &mut best);
    best
}

/// Whether an event may come after a log, looked up in the log itself.
pub fn may_come(worked: &Worked, log: &[Event], event: Event) -> bool {
    let in_plan = |job: usize| job < worked.starts.len() && is_in(worked.starts[job]);
    let finished = |first: u8| log.contains(&Event::Finish(first as usize));
    let kept = |&(first, second): &(u8, u8)| event != Event::Start(second as usize) || finished(first);
    let in_turn = match event {
        Event::Start(job) => in_plan(job) && worked.pairs.iter().all(kept),
        Event::Finish(job) => log.contains(&Event::Start(job)),
    };
    in_turn && !log.contains(&event)
}

/// The opening facts after the finishes of a log, one by one.
pub fn facts_after(worked: &Worked, log: &[Event]) -> u64 {
    let jobs = worked.problem.jobs;
    log.iter().fold(worked.problem.opening, |facts, event| match event {
        Event::Start(_) => facts,
        Event::Finish(job) => facts & !jobs[*job].deletions | jobs[*job].additions,
    })
}

/// The words of the jobs that a log starts and finishes.
pub fn words_of(log: &[Event]) -> (u64, u64) {
    log.iter().fold((0, 0), |(started, finished), event| match event {
        Event::Start(job) => (started | 1 << job, finished),
        Event::Finish(job) => (started, finished | 1 << job),
    })
}

/// For the words of every allowed log: the facts after each log that has them, with one of these logs.
pub type Logs = BTreeMap<(u64, u64), BTreeMap<u64, Vec<Event>>>;

/// The events that may come after a log.
pub fn next_events(worked: &Worked, log: &[Event]) -> Vec<Event> {
    let events = (0..worked.starts.len()).flat_map(|job| [Event::Start(job), Event::Finish(job)]);
    events.filter(|&event| may_come(worked, log, event)).collect()
}

/// Every allowed log, event by event. What may come depends on the events that have come and not on their order, so a
/// log is left where another with its words and facts was gone on from.
pub fn every_log(worked: &Worked) -> Logs {
    let (mut logs, mut open) = (Logs::new(), vec![vec![]]);
    while let Some(log) = open.pop() {
        let alike = logs.entry(words_of(&log)).or_default();
        if alike.insert(facts_after(worked, &log), log.clone()).is_none() {
            open.extend(next_events(worked, &log).iter().map(|&event| [&log[..], &[event]].concat()));
        }
    }
    logs
}

/// Each of the sequences with each of these behind it.
fn one_longer<T: Copy>(sequences: &[Vec<T>], among: &[T]) -> Vec<Vec<T>> {
    let longer = |sequence: &Vec<T>| -> Vec<Vec<T>> {
        among.iter().map(|&one| [&sequence[..], &[one]].concat()).collect()
    };
    sequences.iter().flat_map(longer).collect()
}

/// Every sequence of these jobs that is no longer than they are many, also with a job more than once.
pub fn sequences(jobs: &[usize]) -> Vec<Vec<usize>> {
    let (mut all, mut longest) = (Vec::new(), vec![vec![]]);
    for _ in jobs {
        longest = one_longer(&longest, jobs);
        all.extend(longest.clone());
    }
    all
}

/// Whether a sequence of jobs explains the start of its last job, place by place: the first job and no other starts at
/// its release, and before each other stands the lowest job that fits.
pub fn explains(problem: &Problem, starts: &[u16], pairs: &[u8], sequence: &[usize]) -> bool {
    let jobs = problem.jobs;
    let fits = |first: usize, second: usize| {
        let asked = pairs.chunks_exact(2).any(|pair| pair == [first as u8, second as u8]);
        asked && starts[second] as u32 == finish(&jobs[first], starts[first]) + problem.gap as u32
    };
    let named = |first, second| fits(first, second) && !(0..first).any(|other| fits(other, second));
    let released = |place: usize| starts[sequence[place]] == jobs[sequence[place]].release;
    (0..sequence.len()).all(|place| match place {
        0 => released(0),
        _ => !released(place) && named(sequence[place - 1], sequence[place]),
    })
}

/// When each fact is first there if nothing is ever deleted and each job starts once it is released and sees what it
/// needs, looked at quarter hour by quarter hour until all that can come has come; nothing for a fact that never is.
pub fn first_times(problem: &Problem) -> Vec<Option<u32>> {
    let open = |fact: usize| problem.opening >> fact & 1 == 1;
    let mut first: Vec<Option<u32>> = (0..FACTS).map(|fact| open(fact).then_some(0)).collect();
    let mut waiting: Vec<&Job> = problem.jobs.iter().collect();
    let lengths: u32 = waiting.iter().map(|job| job.duration as u32 + problem.gap as u32).sum();
    let last = lengths + waiting.iter().map(|job| job.release as u32).max().unwrap_or(0);
    for time in 0..=last {
        let seen = |fact: usize| open(fact) || first[fact].is_some_and(|at| at + problem.gap as u32 <= time);
        let starts = |job: &Job| {
            job.release as u32 <= time && (0..FACTS).all(|fact| job.conditions >> fact & 1 == 0 || seen(fact))
        };
        let (starting, others): (Vec<&Job>, Vec<&Job>) = waiting.into_iter().partition(|job| starts(job));
        for job in starting {
            let over = time + job.duration as u32;
            let added = (0..FACTS).filter(|fact| job.additions >> fact & 1 == 1);
            added.for_each(|fact| first[fact] = Some(first[fact].map_or(over, |at| at.min(over))));
        }
        waiting = others;
    }
    first
}

/// All facts are looked at for a goal that is never there, then all for one that is there too late.
pub fn reason(problem: &Problem) -> Reason {
    let first = first_times(problem);
    let goal = |fact: &usize| problem.goals >> fact & 1 == 1;
    let never = (0..FACTS).filter(goal).find(|&fact| first[fact].is_none());
    let late = (0..FACTS).filter(goal).find(|&fact| first[fact] > Some(problem.bound as u32));
    never.map(Reason::Never).or(late.map(Reason::TooDear)).unwrap_or(Reason::Neither)
}

/// The most jobs in one sequence of the plan's jobs in which every two neighbours are a binding pair.
pub fn longest_sequence(worked: &Worked) -> usize {
    let jobs: Vec<usize> = (0..worked.starts.len()).filter(|&job| is_in(worked.starts[job])).collect();
    let paired = |two: &[usize]| worked.pairs.contains(&(two[0] as u8, two[1] as u8));
    let chains = sequences(&jobs).into_iter().filter(|sequence| sequence.windows(2).all(paired));
    chains.map(|chain| chain.len()).max().unwrap_or(0)
}

/// Every way in which so many jobs run over by up to `most` each.
pub fn every_overrun(jobs: usize, most: u16) -> Vec<Vec<u16>> {
    let amounts: Vec<u16> = (0..=most).collect();
    (0..jobs).fold(vec![vec![]], |overruns, _| one_longer(&overruns, &amounts))
}

/// Whether a job runs as it must, looked at quarter hour by quarter hour until it is finished: it has started exactly if
/// its release has come and each job that binds it has finished, with the gap behind it.
fn job_runs(worked: &Worked, job: usize, overrun: u16, finishes: &[u32]) -> bool {
    let (record, gap) = (&worked.problem.jobs[job], worked.problem.gap as u32);
    let firsts = worked.pairs.iter().filter(|pair| pair.1 as usize == job);
    let over: Vec<u32> = firsts.map(|pair| finishes[pair.0 as usize] + gap).collect();
    let may_have = |time: u32| record.release as u32 <= time && over.iter().all(|&end| end <= time);
    match finishes[job].checked_sub(record.duration as u32 + overrun as u32) {
        Some(start) => (0..=finishes[job]).all(|time| (start <= time) == may_have(time)),
        None => false,
    }
}

/// Whether these are the finishes of the run with these overruns.
pub fn is_run(worked: &Worked, overruns: &[u16], finishes: &[u32]) -> bool {
    let inside = |&job: &usize| is_in(worked.starts[job]);
    (0..worked.starts.len()).filter(inside).all(|job| job_runs(worked, job, overruns[job], finishes))
}
