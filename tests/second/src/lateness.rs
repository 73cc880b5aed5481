//! How late a plan can get: its jobs start as soon as they may, and each may run over by some quarter hours.

use crate::following::Worked;
use crate::rules::{check_offered, jobs_in, refuse, Given, Refusal};

/// The most quarter hours by which each job may run over.
const MOST_OVERRUN: u16 = 96;

/// The jobs of the plan by their planned starts: a job that binds another is over by the start of that one.
fn in_order(worked: &Worked) -> Vec<usize> {
    let mut jobs: Vec<usize> = jobs_in(worked.starts).collect();
    jobs.sort_by_key(|&job| worked.starts[job]);
    jobs
}

/// When each job finishes in the run with these overruns, 0 for a job that is out. A job starts as soon as its release
/// has come and all jobs that bind it have finished, with the gap behind them, and takes as much longer as it runs over.
pub fn finishes(worked: &Worked, overruns: &[u16]) -> Vec<u32> {
    let (jobs, gap) = (worked.problem.jobs, worked.problem.gap as u32);
    let mut finishes = vec![0; jobs.len()];
    for job in in_order(worked) {
        let free = worked.binding(job).map(|first| finishes[first] + gap).max().unwrap_or(0);
        let start = free.max(jobs[job].release as u32);
        finishes[job] = start + jobs[job].duration as u32 + overruns[job] as u32;
    }
    finishes
}

/// When all is finished in that run: at 0 where no job is in the plan.
pub fn last_finish(worked: &Worked, overruns: &[u16]) -> u32 {
    finishes(worked, overruns).into_iter().max().unwrap_or(0)
}

/// The most jobs in one chain of binding pairs that ends with this job. What is known of a job is kept, as many chains
/// may go through it.
fn longest_to(worked: &Worked, job: usize, known: &mut [Option<u64>]) -> u64 {
    if let Some(jobs) = known[job] {
        return jobs;
    }
    let before = worked.binding(job).map(|first| longest_to(worked, first, known)).max();
    let jobs = before.unwrap_or(0) + 1;
    known[job] = Some(jobs);
    jobs
}

/// The most jobs in one chain of binding pairs; a lone job is a chain of one, and the empty plan has none.
fn longest_chain(worked: &Worked) -> u64 {
    let mut known = vec![None; worked.starts.len()];
    jobs_in(worked.starts).map(|job| longest_to(worked, job, &mut known)).max().unwrap_or(0)
}

/// A valid plan whose jobs may run over by so much each: the refusals of an offered plan, then 34.
pub fn overrunning<'a>(given: &Given<'a>, starts: &'a [u16], most: u16) -> Result<Worked<'a>, Refusal> {
    let (problem, starts) = check_offered(given, starts)?;
    if most > MOST_OVERRUN {
        return refuse(34, 0);
    }
    Ok(Worked::new(problem, starts))
}

/// By when all is finished whatever runs over: the finish of the run in which nothing does, which is the settled one,
/// and `most` for each job of the longest chain.
pub fn how_late(given: &Given, starts: &[u16], most: u16) -> Result<u64, Refusal> {
    let worked = overrunning(given, starts, most)?;
    let settled = last_finish(&worked, &vec![0; worked.starts.len()]);
    Ok(settled as u64 + most as u64 * longest_chain(&worked))
}
