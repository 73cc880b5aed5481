//! The open job table: edited where it stands, with a row of clash bits a job.

use crate::plan::{least_bound, plan_within};
use crate::rules::{check_jobs, check_lent, interfere, refuse, Given, Job, Refusal, MOST_JOBS};

/// The bits of a row, of which those of jobs are the lowest.
const BITS: usize = 32;

/// Any numbers, as a caller may hand them in.
#[derive(Clone, Copy, PartialEq, Eq, Debug, Default)]
pub struct OpenTable {
    /// With the mark of the rule.
    pub atoms: u8,
    pub count: u64,
    pub jobs: [Job; MOST_JOBS],
    pub rows: [u32; MOST_JOBS],
}

/// What is wanted of the jobs.
#[derive(Clone, Copy)]
pub struct Wanted {
    pub opening: u64,
    pub goals: u64,
    pub bound: u16,
}

/// An edit asks for no plan.
const NOTHING: Wanted = Wanted { opening: 0, goals: 0, bound: 0 };

impl OpenTable {
    fn given(&self, wanted: &Wanted) -> Given<'_> {
        Given {
            records: &self.jobs,
            count: self.count,
            atoms: self.atoms as u64,
            opening: wanted.opening,
            goals: wanted.goals,
            bound: wanted.bound as u64,
        }
    }

    /// Refusals 4 to 8 and 20.
    fn check(&self) -> Result<(), Refusal> {
        check_jobs(&self.given(&NOTHING)).map(|_| ())
    }

    /// Refusal 22.
    fn check_there(&self, job: u8) -> Result<(), Refusal> {
        match (job as u64) < self.count {
            true => Ok(()),
            false => refuse(22, job as u64),
        }
    }

    /// Whether these are two jobs of the table, and interfere.
    fn two_that_clash(&self, one: usize, other: usize) -> bool {
        let there = |job: usize| (job as u64) < self.count && job < MOST_JOBS;
        there(one) && there(other) && one != other && interfere(&self.jobs[one], &self.jobs[other])
    }

    /// The same table with every bit of a job's row and of its column as the clashes are.
    fn worked_out(mut self, job: usize) -> OpenTable {
        for (one, other) in (0..MOST_JOBS).flat_map(|one| (0..BITS).map(move |other| (one, other))) {
            if one == job || other == job {
                let bit = 1 << other;
                self.rows[one] =
                    self.rows[one] & !bit | if self.two_that_clash(one, other) { bit } else { 0 };
            }
        }
        self
    }

    /// The table becomes an empty one.
    pub fn begin(&mut self, atoms: u8) -> Result<u64, Refusal> {
        let empty = OpenTable { atoms, ..OpenTable::default() };
        empty.check()?;
        *self = empty;
        Ok(0)
    }

    /// A job more behind the last; its number.
    pub fn add(&mut self, job: Job) -> Result<u64, Refusal> {
        let number = self.count;
        let mut longer = OpenTable { count: number.saturating_add(1), ..*self };
        if let Some(place) = longer.jobs.get_mut(number.min(MOST_JOBS as u64) as usize) {
            *place = job;
        }
        longer.check()?;
        *self = longer.worked_out(number as usize);
        Ok(number)
    }

    /// Another record in the place of a job.
    pub fn replace(&mut self, number: u8, job: Job) -> Result<u64, Refusal> {
        self.check_there(number)?;
        let mut other = *self;
        if let Some(place) = other.jobs.get_mut(number as usize) {
            *place = job;
        }
        other.check()?;
        *self = other.worked_out(number as usize);
        Ok(0)
    }

    /// A job less: all places behind it move down, and so do all bits behind its own.
    pub fn remove(&mut self, number: u8) -> Result<u64, Refusal> {
        self.check_there(number)?;
        self.check()?;
        let number = number as usize;
        let mut rows = self.rows.map(|row| from_bits(&without(&bits_of(row), number)));
        rows = without(&rows, number).try_into().expect("as many rows");
        let jobs = without(&self.jobs, number).try_into().expect("as many jobs");
        *self = OpenTable { atoms: self.atoms, count: self.count - 1, jobs, rows };
        Ok(0)
    }

    /// Refusal 3 looks at the starts alone: the table has its records.
    fn check_for_plan(&self, wanted: &Wanted, starts: &[u16]) -> Result<(), Refusal> {
        check_lent(starts.len(), self.count)?;
        check_jobs(&self.given(wanted)).map(|_| ())
    }

    /// A plan of the jobs within the bound wanted.
    pub fn plan(&self, wanted: &Wanted, starts: &mut [u16]) -> Result<(), Refusal> {
        self.check_for_plan(wanted, starts)?;
        plan_within(&self.given(wanted), starts)
    }

    /// The least bound of the jobs.
    pub fn least(&self, wanted: &Wanted, starts: &mut [u16]) -> Result<u16, Refusal> {
        self.check_for_plan(wanted, starts)?;
        least_bound(&self.given(wanted), starts)
    }
}

/// A list with one place less, those behind it one lower, and nothing at its end.
fn without<T: Clone + Default>(list: &[T], place: usize) -> Vec<T> {
    let mut others = list.to_vec();
    others.remove(place);
    others.push(T::default());
    others
}

fn bits_of(row: u32) -> Vec<bool> {
    (0..BITS).map(|bit| row >> bit & 1 == 1).collect()
}

fn from_bits(bits: &[bool]) -> u32 {
    bits.iter().rev().fold(0, |row, &bit| row << 1 | bit as u32)
}
