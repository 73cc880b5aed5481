//! Reasons: why a job starts when it does among settled starts, and why there is no plan within the bound.

use crate::rules::{
    check_bounded_table, check_lent, fact_cost, finish, is_in, job_estimates, members, refuse, settled,
    Given, Problem, Refusal, Settled, NEVER,
};

// Why a job starts when it does.

/// The job named before another: none before a job at its release, else the lowest first job of a pair with it whose
/// finish, with the gap behind it, is the start.
fn job_before(settled: &Settled, job: usize) -> Option<usize> {
    let (problem, starts) = (&settled.problem, &settled.starts);
    if starts[job] == problem.jobs[job].release {
        return None;
    }
    let over = |first: usize| finish(&problem.jobs[first], starts[first]) + problem.gap as u32;
    let asked = settled.pairs.chunks_exact(2).filter(|pair| pair[1] as usize == job);
    asked.map(|pair| pair[0] as usize).filter(|&first| over(first) == starts[job] as u32).min()
}

/// The chain of a job of the set, found going back from it, told from the job at its release on. Each job named starts
/// before the one it is named for, so this ends.
fn chain(settled: &Settled, job: usize) -> Vec<u8> {
    let going_back = std::iter::successors(Some(job), |&job| job_before(settled, job));
    let mut chain: Vec<u8> = going_back.map(|job| job as u8).collect();
    chain.reverse();
    chain
}

/// Fills the chain, one byte a job, and gives the count of its jobs.
pub fn why_start(
    given: &Given,
    set: u64,
    pair_count: u64,
    pairs: &[u8],
    job: u8,
    table: &mut [u8],
) -> Result<u64, Refusal> {
    check_lent(table.len(), given.count)?;
    let settled = settled(given, set, pair_count, pairs)?;
    if !settled.starts.get(job as usize).is_some_and(|&start| is_in(start)) {
        return refuse(27, job as u64);
    }
    let chain = chain(&settled, job as usize);
    table[..chain.len()].copy_from_slice(&chain);
    Ok(chain.len() as u64)
}

// Why there is no plan.

/// What the estimates say against a plan: the lowest goal that is never reachable, or that costs more than the bound.
#[derive(Clone, Copy, PartialEq, Eq, Debug)]
pub enum Reason {
    Never(usize),
    TooDear(usize),
    Neither,
}

/// All goals are looked at for one that is never reachable, then all for one above the bound.
pub fn reason(problem: &Problem) -> Reason {
    let estimates = job_estimates(problem);
    let costs: Vec<(usize, u16)> =
        members(problem.goals).map(|goal| (goal, fact_cost(problem, &estimates, goal))).collect();
    let never = costs.iter().find(|&&(_, cost)| cost == NEVER);
    let too_dear = costs.iter().find(|&&(_, cost)| cost > problem.bound);
    match (never, too_dear) {
        (Some(&(goal, _)), _) => Reason::Never(goal),
        (None, Some(&(goal, _))) => Reason::TooDear(goal),
        (None, None) => Reason::Neither,
    }
}

/// The reason, after the checks of a table with a bound; whether there is a plan is not looked at.
pub fn why_no_plan(given: &Given) -> Result<Reason, Refusal> {
    check_bounded_table(given).map(|problem| reason(&problem))
}
