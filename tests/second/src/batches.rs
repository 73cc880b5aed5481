//! Batches of the house groups, expanded into a job table.

use crate::rules::{check_lent, refuse, Job, Refusal, MOST_JOBS};

/// How many batches may be entered.
const MOST_BATCHES: usize = 4;

/// A place has 16 bits.
const LAST_PLACE: usize = 65_535;

/// The wash bay is fact 0.
const BAY: u64 = 1;

/// A stage of a house group, by its quarter hours: one without the bay, or one that holds it.
#[derive(Clone, Copy)]
enum Stage {
    Plain(u16),
    Holding(u16),
}
use Stage::{Holding, Plain};

const HOUSE_GROUPS: [&[Stage]; 12] = [
    &[Plain(4)],
    &[Plain(4), Holding(3)],
    &[Plain(6), Holding(3), Plain(8)],
    &[Plain(4), Plain(12)],
    &[Plain(8), Holding(3), Plain(16)],
    &[Plain(4), Holding(3), Plain(8), Plain(24)],
    &[Plain(12)],
    &[Plain(6), Holding(2), Plain(12), Holding(3)],
    &[Plain(4), Plain(8), Plain(16), Plain(32)],
    &[Plain(8), Holding(3), Plain(24), Holding(3), Plain(48)],
    &[Plain(4), Holding(2), Plain(8), Holding(2), Plain(16), Plain(32)],
    &[Plain(96)],
];

/// What batches are expanded to; no bound is among it.
#[derive(Clone, PartialEq, Eq, Debug)]
pub struct Expanded {
    pub jobs: Vec<Job>,
    pub atoms: u64,
    pub opening: u64,
    pub goals: u64,
}

impl Expanded {
    /// With no batch: the bay alone, which is open.
    fn empty() -> Expanded {
        Expanded { jobs: Vec::new(), atoms: 1, opening: BAY, goals: 0 }
    }

    /// A batch more: its jobs come behind all others, and its done facts are the next ones.
    fn push(&mut self, group: &[Stage]) {
        let mut done = 0;
        for &stage in group {
            let before = done;
            done = 1 << self.atoms;
            self.jobs.extend(jobs_of(stage, before, done));
            self.atoms += 1;
        }
        self.goals |= done;
    }
}

/// The jobs of a stage that needs what was done before it and adds its own done fact: one job, and behind a stage that
/// holds the bay the clearing job.
fn jobs_of(stage: Stage, before: u64, done: u64) -> Vec<Job> {
    let job = |conditions, additions, deletions, duration| Job {
        conditions,
        additions,
        deletions,
        duration,
        release: 0,
    };
    match stage {
        Plain(duration) => vec![job(before, done, 0, duration)],
        Holding(duration) => vec![job(before | BAY, done, BAY, duration), job(done, BAY, 0, 1)],
    }
}

/// The stages of each batch, or 28 at the lowest batch of a group that there is not; all batches are looked at.
fn known(groups: &[u8]) -> Result<Vec<&'static [Stage]>, Refusal> {
    let stages = |(place, &group): (usize, &u8)| match HOUSE_GROUPS.get(group as usize) {
        Some(&stages) => Ok(stages),
        None => refuse(28, place.min(LAST_PLACE) as u64),
    };
    groups.iter().enumerate().map(stages).collect()
}

/// The table of these batches, each by its house group: refusals 28, 29 and 30, in that order.
pub fn expand(groups: &[u8]) -> Result<Expanded, Refusal> {
    let batches = known(groups)?;
    if batches.len() > MOST_BATCHES {
        return refuse(29, MOST_BATCHES as u64);
    }
    let mut expanded = Expanded::empty();
    batches.into_iter().for_each(|group| expanded.push(group));
    if expanded.jobs.len() > MOST_JOBS {
        return refuse(30, 0);
    }
    Ok(expanded)
}

/// The same with the jobs in the first of the lent records: 3 behind the other refusals.
pub fn enter(groups: &[u8], lent: &mut [Job]) -> Result<Expanded, Refusal> {
    let expanded = expand(groups)?;
    let count = expanded.jobs.len();
    check_lent(lent.len(), count as u64)?;
    lent[..count].copy_from_slice(&expanded.jobs);
    Ok(expanded)
}
