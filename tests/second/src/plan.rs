//! Planning, forward in time: a search over moments with memory answers "is there a plan?",
//! and the first plan in the stated order is found by asking that question job by job.
//!
//! Only two kinds of wishes are ever put: a job is out, or a job is in and starts by a latest start.
//! Both still hold when jobs are moved to earlier starts in the same order, none before its release. So it is
//! enough to look at plans in which every job starts at 0, at a finish or at its release, and of two ways to the
//! same standing the earlier one is as good: it can wait.
//!
//! The gap of rule 2 is no matter of the search: it is put into the durations and the bound first.

use crate::rules::{
    check_bounded_table, check_lent, fact_cost, interfere, job_estimates, members, refuse, Given, Job,
    Problem, Refusal, FACTS, MOST_JOBS, NEVER, OUT,
};
use std::collections::HashMap;

type Starts = [u16; MOST_JOBS];

// The question: is there a plan that meets the wishes?

/// Jobs that are out, and jobs that are in and start by their latest start.
struct Wishes {
    out: u32,
    wanted: u32,
    latest: Starts,
}

/// What is known at one time, after the finishes up to it and some of the starts at it.
#[derive(Clone)]
struct Moment {
    time: u16,
    facts: u64,
    done: u32,
    running: u32,
    held_back: u32,
    starts: Starts,
}

/// A moment without its time: what can still happen depends on this and on the time alone.
#[derive(PartialEq, Eq, Hash)]
struct Standing {
    facts: u64,
    done: u32,
    running: u32,
    held_back: u32,
    left: Starts,
}

/// The table, what the wishes make of it, and the standings that failed with their times.
struct Search<'a> {
    jobs: &'a [Job],
    goals: u64,
    bound: u16,
    wanted: u32,
    usable: u32,
    landing: u32,
    harmless: u32,
    clashes: [u32; MOST_JOBS],
    later_twins: [u32; MOST_JOBS],
    latest: [Option<u16>; MOST_JOBS],
    failed: HashMap<Standing, u16>,
}

fn bit(job: usize) -> u32 {
    1 << job
}

fn jobs_of(set: u32) -> impl Iterator<Item = usize> {
    members(set as u64)
}

/// The jobs of a set for which something holds.
fn those(set: u32, holds: impl Fn(usize) -> bool) -> u32 {
    jobs_of(set).filter(|&job| holds(job)).fold(0, |those, job| those | bit(job))
}

/// For each job the jobs that interfere with it.
fn clashes(jobs: &[Job]) -> [u32; MOST_JOBS] {
    let mut table = [0; MOST_JOBS];
    for (a, first) in jobs.iter().enumerate() {
        for (b, second) in jobs.iter().enumerate() {
            if a != b && interfere(first, second) {
                table[a] |= bit(b);
            }
        }
    }
    table
}

/// For each job nothing is wished of, the higher jobs that are the same and not wished of either.
fn later_twins(jobs: &[Job], wishes: &Wishes) -> [u32; MOST_JOBS] {
    let wished = wishes.out | wishes.wanted;
    let mut table = [0; MOST_JOBS];
    for low in 0..jobs.len() {
        for high in low + 1..jobs.len() {
            if jobs[low] == jobs[high] && wished & (bit(low) | bit(high)) == 0 {
                table[low] |= bit(high);
            }
        }
    }
    table
}

/// The jobs that are wanted, that add a goal, or that add a condition of such a job, and so on; none that is out.
/// Any other job can be taken out of a plan.
fn useful(jobs: &[Job], goals: u64, wishes: &Wishes) -> u32 {
    let mut set = wishes.wanted;
    loop {
        let facts = jobs_of(set).fold(goals, |facts, job| facts | jobs[job].conditions);
        let more = (0..jobs.len())
            .filter(|&job| jobs[job].additions & facts != 0 && wishes.out & bit(job) == 0)
            .fold(set, |more, job| more | bit(job));
        if more == set {
            return set;
        }
        set = more;
    }
}

impl<'a> Search<'a> {
    fn new(problem: &Problem<'a>, wishes: &Wishes) -> Self {
        let jobs = problem.jobs;
        let usable = useful(jobs, problem.goals, wishes);
        let clashes = clashes(jobs);
        let mut latest = [None; MOST_JOBS];
        for (job, record) in jobs.iter().enumerate() {
            latest[job] = problem.bound.checked_sub(record.duration).map(|last| last.min(wishes.latest[job]));
        }
        // The jobs whose releases are moments of their own: after 0, and not too late to start.
        let landing = those(usable, |job| {
            jobs[job].release > 0 && latest[job].is_some_and(|last| jobs[job].release <= last)
        });
        // A job that interferes with no other and deletes no goal is started as soon as it can be.
        let harmless =
            those(usable, |job| clashes[job] & usable == 0 && jobs[job].deletions & problem.goals == 0);
        Search {
            jobs,
            goals: problem.goals,
            bound: problem.bound,
            wanted: wishes.wanted,
            usable,
            landing,
            harmless,
            clashes,
            later_twins: later_twins(jobs, wishes),
            latest,
            failed: HashMap::new(),
        }
    }

    fn finish(&self, moment: &Moment, job: usize) -> u16 {
        moment.starts[job] + self.jobs[job].duration
    }

    fn deletions(&self, set: u32) -> u64 {
        jobs_of(set).fold(0, |facts, job| facts | self.jobs[job].deletions)
    }

    fn additions(&self, set: u32) -> u64 {
        jobs_of(set).fold(0, |facts, job| facts | self.jobs[job].additions)
    }

    /// The facts after these jobs finish; jobs that run together do not interfere.
    fn after(&self, facts: u64, set: u32) -> u64 {
        facts & !self.deletions(set) | self.additions(set)
    }

    /// Nothing more has to start: the running jobs lead to the goals and every wanted job is in.
    fn complete(&self, moment: &Moment) -> bool {
        let lacking = self.wanted & !moment.done & !moment.running;
        lacking == 0 && self.goals & !self.after(moment.facts, moment.running) == 0
    }

    fn in_time(&self, job: usize, time: u16) -> bool {
        self.latest[job].is_some_and(|last| time <= last)
    }

    /// The lowest job that may start now and is not held back. A job whose additions all hold already is of no
    /// use (what deletes them cannot run beside it), and of two alike the higher one goes first.
    fn startable(&self, moment: &Moment) -> Option<usize> {
        let idle = self.usable & !moment.done & !moment.running & !moment.held_back;
        let begun = moment.done | moment.running;
        jobs_of(idle).find(|&job| {
            let record = &self.jobs[job];
            record.conditions & !moment.facts == 0
                && record.additions & !moment.facts != 0
                && record.release <= moment.time
                && self.clashes[job] & moment.running == 0
                && self.in_time(job, moment.time)
                && self.later_twins[job] & !begun == 0
        })
    }

    /// Starts a job; what it interferes with is no longer held back.
    fn with_start(&self, moment: &Moment, job: usize) -> Moment {
        let mut next = moment.clone();
        next.running |= bit(job);
        next.starts[job] = moment.time;
        next.held_back &= !self.clashes[job];
        next
    }

    /// Does not start a job that could start now. To start it later, with nothing that interferes with it
    /// having run in between, would only be a worse plan than to start it now. (A job that is not released could
    /// not start now.)
    fn with_wait(&self, moment: &Moment, job: usize) -> Moment {
        let mut next = moment.clone();
        next.held_back |= bit(job);
        next
    }

    /// The next time at which a job that has not started is released.
    fn next_release(&self, moment: &Moment) -> Option<u16> {
        let waiting = self.landing & !moment.done & !moment.running;
        jobs_of(waiting).map(|job| self.jobs[job].release).filter(|&release| release > moment.time).min()
    }

    /// The moment of the next finish or release.
    fn next_moment(&self, moment: &Moment) -> Option<Moment> {
        let finishes = jobs_of(moment.running).map(|job| self.finish(moment, job));
        let time = finishes.chain(self.next_release(moment)).min()?;
        let ended = those(moment.running, |job| self.finish(moment, job) == time);
        let mut next = moment.clone();
        next.time = time;
        next.facts = self.after(moment.facts, ended);
        next.done |= ended;
        next.running &= !ended;
        Some(next)
    }

    fn standing(&self, moment: &Moment) -> Standing {
        let mut left = [0; MOST_JOBS];
        for job in jobs_of(moment.running) {
            left[job] = self.finish(moment, job) - moment.time;
        }
        Standing {
            facts: moment.facts,
            done: moment.done,
            running: moment.running,
            held_back: moment.held_back,
            left,
        }
    }

    /// A start or a wait for each job that may start, then on to the next moment.
    fn search(&mut self, moment: &Moment) -> Option<Starts> {
        if self.complete(moment) {
            return Some(moment.starts);
        }
        if !self.within_reach(moment) {
            return None;
        }
        let Some(job) = self.startable(moment) else {
            return self.search_from_next_moment(moment);
        };
        let found = self.search(&self.with_start(moment, job));
        if found.is_some() || self.harmless & bit(job) != 0 {
            return found;
        }
        self.search(&self.with_wait(moment, job))
    }

    /// What failed from the same standing at this time or earlier fails now.
    fn search_from_next_moment(&mut self, moment: &Moment) -> Option<Starts> {
        let next = self.next_moment(moment)?;
        let standing = self.standing(&next);
        if self.failed.get(&standing).is_some_and(|&time| time <= next.time) {
            return None;
        }
        let found = self.search(&next);
        if found.is_none() {
            self.failed.insert(standing, next.time);
        }
        found
    }

    /// False only if no plan goes on from here: a goal or a wanted job comes too late even if facts, once there,
    /// were never lost, or the jobs that are needed do not fit one after the other.
    fn within_reach(&self, moment: &Moment) -> bool {
        let idle = self.usable & !moment.done & !moment.running;
        let mut costs = self.first_costs(moment);
        let mut earliest = [NEVER; MOST_JOBS];
        let mut changed = true;
        while changed {
            changed = false;
            for job in jobs_of(idle) {
                let start = self.earliest_start(moment, idle, job, &costs, &earliest);
                if start < earliest[job] && self.in_time(job, start) {
                    earliest[job] = start;
                    changed = true;
                    for fact in members(self.jobs[job].additions) {
                        costs[fact] = costs[fact].min(start + self.jobs[job].duration);
                    }
                }
            }
        }
        members(self.goals).all(|fact| costs[fact] != NEVER)
            && jobs_of(idle & self.wanted).all(|job| earliest[job] != NEVER)
            && self.fit(self.needed(moment, &earliest), &earliest)
    }

    /// The jobs without which no plan goes on from here: the wanted ones, and each only job that can add a fact
    /// that is missing for a goal or for a needed job.
    fn needed(&self, moment: &Moment, earliest: &Starts) -> u32 {
        let there = self.after(moment.facts, moment.running);
        let able = those(self.usable, |job| earliest[job] != NEVER);
        let mut set = self.wanted & able;
        loop {
            let facts = jobs_of(set).fold(self.goals, |facts, job| facts | self.jobs[job].conditions);
            let more = members(facts & !there).fold(set, |more, fact| more | self.only_adder(able, fact));
            if more == set {
                return set;
            }
            set = more;
        }
    }

    /// The one job of the set that adds the fact; none if several do.
    fn only_adder(&self, set: u32, fact: usize) -> u32 {
        let adders = those(set, |job| self.jobs[job].additions >> fact & 1 == 1);
        if adders.count_ones() == 1 {
            adders
        } else {
            0
        }
    }

    /// Needed jobs that all interfere with each other run one after the other, from the earliest start on.
    fn fit(&self, needed: u32, earliest: &Starts) -> bool {
        jobs_of(needed).all(|first| self.fit_behind(first, needed, earliest, self.bound))
            && (self.landing == 0 || self.fit_between(needed, earliest))
    }

    /// Where there are releases: so do those that come no earlier than one of them and end by the last finish of
    /// one that is wanted, or by the bound.
    fn fit_between(&self, needed: u32, earliest: &Starts) -> bool {
        let wanted_ends = jobs_of(needed & self.wanted).map(|job| self.last_finish(job));
        wanted_ends.chain([self.bound]).all(|end| {
            let ending = those(needed, |job| self.last_finish(job) <= end);
            jobs_of(ending).all(|first| {
                let coming = those(ending, |job| earliest[job] >= earliest[first]);
                self.fit_behind(first, coming, earliest, end)
            })
        })
    }

    /// A job, and jobs of the set that interfere with it and each other, fit before the end.
    fn fit_behind(&self, first: usize, set: u32, earliest: &Starts, end: u16) -> bool {
        let (mut begin, mut length) = (earliest[first], self.jobs[first].duration);
        let mut others = set & self.clashes[first];
        while let Some(next) = jobs_of(others).next() {
            begin = begin.min(earliest[next]);
            length += self.jobs[next].duration;
            others &= self.clashes[next];
        }
        begin + length <= end
    }

    /// The finish at the latest start; 0 for a job that never fits.
    fn last_finish(&self, job: usize) -> u16 {
        self.latest[job].map_or(0, |last| last + self.jobs[job].duration)
    }

    /// Facts that no running job deletes are there; what running jobs add comes at their finish.
    /// A job that needs what a running job deletes has to wait for the finish, and then the fact is gone.
    fn first_costs(&self, moment: &Moment) -> [u16; FACTS] {
        let mut costs = [NEVER; FACTS];
        for job in jobs_of(moment.running) {
            for fact in members(self.jobs[job].additions) {
                costs[fact] = costs[fact].min(self.finish(moment, job));
            }
        }
        for fact in members(moment.facts & !self.deletions(moment.running)) {
            costs[fact] = moment.time;
        }
        costs
    }

    /// A lower limit of the start, for the costs and earliest starts found so far.
    fn earliest_start(
        &self,
        moment: &Moment,
        idle: u32,
        job: usize,
        costs: &[u16; FACTS],
        earliest: &Starts,
    ) -> u16 {
        let mut start = moment.time.max(self.jobs[job].release);
        for fact in members(self.jobs[job].conditions) {
            start = start.max(costs[fact]);
        }
        for other in jobs_of(self.clashes[job] & moment.running) {
            start = start.max(self.finish(moment, other));
        }
        if moment.held_back & bit(job) != 0 {
            start = start.max(self.earliest_finish(self.clashes[job] & idle, earliest));
        }
        start
    }

    /// The earliest finish of jobs that have not started yet.
    fn earliest_finish(&self, set: u32, earliest: &Starts) -> u16 {
        jobs_of(set)
            .filter(|&job| earliest[job] != NEVER)
            .map(|job| earliest[job] + self.jobs[job].duration)
            .min()
            .unwrap_or(NEVER)
    }
}

/// A plan that meets the wishes, if there is one.
/// Every wanted job must be one without which no plan meets the other wishes.
fn some_plan(problem: &Problem, wishes: &Wishes) -> Option<Starts> {
    let moment = Moment {
        time: 0,
        facts: problem.opening,
        done: 0,
        running: 0,
        held_back: 0,
        starts: [OUT; MOST_JOBS],
    };
    Search::new(problem, wishes).search(&moment)
}

// The gap as a part of the jobs.

/// The jobs, each longer by the gap.
fn longer_jobs(problem: &Problem) -> Vec<Job> {
    let longer = |job: &Job| Job { duration: job.duration + problem.gap, ..*job };
    problem.jobs.iter().map(longer).collect()
}

/// The problem with the longer jobs, the bound later by the gap, and no gap: the same plans are valid. What waited for a
/// finish and the gap waits for the later finish, and a job that ended by the bound ends by the later one.
fn without_gap<'a>(problem: &Problem, longer: &'a [Job]) -> Problem<'a> {
    Problem { jobs: longer, bound: problem.bound + problem.gap, gap: 0, ..*problem }
}

// The first plan in the stated order.

/// The least number from `low` below `high` for which `ask` finds a plan, with that plan.
/// `ask` finds plans from some number on.
fn least<T>(mut low: u16, mut high: u16, mut ask: impl FnMut(u16) -> Option<T>) -> Option<(u16, T)> {
    let mut best = None;
    // The lowest number is asked first, since it is very often the answer.
    let mut middle = low;
    while low < high {
        match ask(middle) {
            Some(plan) => {
                best = Some((middle, plan));
                high = middle;
            }
            None => low = middle + 1,
        }
        middle = low + (high - low) / 2;
    }
    best
}

/// Puts the job at its earliest start, given that it is in every plan that meets the wishes.
fn at_earliest_start(problem: &Problem, wishes: &mut Wishes, job: usize, low: u16, plan: Starts) -> Starts {
    wishes.wanted |= bit(job);
    let found = least(low, plan[job], |start| {
        wishes.latest[job] = start;
        some_plan(problem, wishes)
    });
    let plan = found.map_or(plan, |(_, better)| better);
    wishes.latest[job] = plan[job];
    plan
}

/// For each job in turn: out if any plan leaves it out, else at the earliest start that any plan gives it.
fn first_plan(problem: &Problem) -> Option<Starts> {
    let mut wishes = Wishes { out: 0, wanted: 0, latest: [OUT; MOST_JOBS] };
    let mut plan = some_plan(problem, &wishes)?;
    let estimates = job_estimates(problem);
    for job in 0..problem.jobs.len() {
        wishes.out |= bit(job);
        if plan[job] == OUT {
            continue;
        }
        match some_plan(problem, &wishes) {
            Some(without) => plan = without,
            None => {
                wishes.out &= !bit(job);
                plan = at_earliest_start(problem, &mut wishes, job, estimates[job], plan);
            }
        }
    }
    Some(plan)
}

/// The smallest number from 0 to the bound that has a valid plan.
fn smallest_bound(problem: &Problem) -> Option<u16> {
    let ask = |bound| {
        let wishes = Wishes { out: 0, wanted: 0, latest: [OUT; MOST_JOBS] };
        some_plan(&Problem { bound, ..*problem }, &wishes)
    };
    let plan = ask(problem.bound)?;
    let estimates = job_estimates(problem);
    let low = members(problem.goals).map(|fact| fact_cost(problem, &estimates, fact)).max().unwrap_or(0);
    let finishes = problem.jobs.iter().zip(plan).filter(|&(_, start)| start != OUT);
    let length = finishes.map(|(job, start)| start + job.duration).max().unwrap_or(0);
    Some(least(low, length, ask).map_or(length, |(bound, _)| bound))
}

/// Fills the starts of the first valid plan within the bound.
pub fn plan_within(given: &Given, table: &mut [u16]) -> Result<(), Refusal> {
    check_lent(table.len(), given.count)?;
    let problem = check_bounded_table(given)?;
    match first_plan(&without_gap(&problem, &longer_jobs(&problem))) {
        Some(plan) => table[..problem.jobs.len()].copy_from_slice(&plan[..problem.jobs.len()]),
        None => return refuse(10, 0),
    }
    Ok(())
}

/// Gives the least bound and fills the starts of the first plan at it.
pub fn least_bound(given: &Given, table: &mut [u16]) -> Result<u16, Refusal> {
    check_lent(table.len(), given.count)?;
    let problem = check_bounded_table(given)?;
    match smallest_bound(&without_gap(&problem, &longer_jobs(&problem))) {
        Some(bound) => {
            // At 0 no job is in; any other least bound is the finish of a longer job.
            let bound = bound.saturating_sub(problem.gap);
            plan_within(&Given { bound: bound as u64, ..*given }, table)?;
            Ok(bound)
        }
        None => refuse(10, 0),
    }
}
