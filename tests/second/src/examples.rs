//! Job tables for the self-test: jobs U, house batches, trolleys, chains, random tables and plans.

use crate::batches::{expand, Expanded};
use crate::brute::earliest_place;
use crate::rules::{finish, Given, Job, Problem, OUT};

/// A table that owns its records.
#[derive(Clone)]
pub struct Example {
    pub jobs: Vec<Job>,
    pub atoms: u64,
    pub opening: u64,
    pub goals: u64,
    pub bound: u64,
}

impl Example {
    pub fn given(&self) -> Given<'_> {
        Given {
            records: &self.jobs,
            count: self.jobs.len() as u64,
            atoms: self.atoms,
            opening: self.opening,
            goals: self.goals,
            bound: self.bound,
        }
    }

    /// The same with these releases, from job 0 on.
    pub fn released(&self, releases: &[u16]) -> Example {
        let mut other = self.clone();
        other.jobs.iter_mut().zip(releases).for_each(|(job, &release)| job.release = release);
        other
    }

    /// The same under rule 2.
    pub fn under_rule_2(&self) -> Example {
        Example { atoms: self.atoms + 128, ..self.clone() }
    }
}

pub fn word(facts: &[u64]) -> u64 {
    facts.iter().fold(0, |word, fact| word | 1 << fact)
}

pub fn job(conditions: &[u64], additions: &[u64], deletions: &[u64], duration: u16) -> Job {
    Job {
        conditions: word(conditions),
        additions: word(additions),
        deletions: word(deletions),
        duration,
        release: 0,
    }
}

/// Jobs U of the rules.
pub fn jobs_u(goals: &[u64], bound: u64) -> Example {
    let jobs = vec![
        job(&[0], &[1], &[0], 4),
        job(&[1], &[2], &[], 2),
        job(&[1], &[3], &[], 8),
        job(&[1], &[4], &[2], 3),
    ];
    Example { jobs, atoms: 5, opening: word(&[0]), goals: word(goals), bound }
}

/// Go, back, drop and pick.
pub fn go_twice() -> Example {
    let jobs = vec![
        job(&[0], &[1], &[0], 1),
        job(&[1], &[0], &[1], 1),
        job(&[1], &[2], &[], 1),
        job(&[0, 2], &[3], &[], 1),
    ];
    Example { jobs, atoms: 4, opening: word(&[0]), goals: word(&[1, 3]), bound: 12 }
}

/// Batches of these house groups, with all the time there is.
pub fn house(groups: &[u8]) -> Example {
    let Expanded { jobs, atoms, opening, goals } =
        expand(groups).expect("few batches of groups that there are");
    Example { jobs, atoms, opening, goals, bound: 2_880 }
}

/// A trolley with one slot between two places, carrying crates one by one.
pub fn trolley(crates: u64) -> Example {
    let (here, there, slot) = (0, 1, 2);
    let mut jobs = Vec::new();
    for number in 0..crates {
        let (waiting, on, done) = (3 + 3 * number, 4 + 3 * number, 5 + 3 * number);
        jobs.push(job(&[here, slot, waiting], &[on], &[slot, waiting], 2));
        jobs.push(job(&[there, on], &[done, slot], &[on], 1));
    }
    jobs.extend((0..crates).map(|_| job(&[here], &[there], &[here], 5)));
    jobs.extend((1..crates).map(|_| job(&[there], &[here], &[there], 4)));
    let waiting = (0..crates).fold(0, |facts, number| facts | word(&[3 + 3 * number]));
    Example {
        jobs,
        atoms: 3 + 3 * crates,
        opening: word(&[here, slot]) | waiting,
        goals: waiting << 2,
        bound: 2_880,
    }
}

/// Jobs that each need the fact of the one before; they may delete it. The last fact is the goal.
pub fn chain(length: u64, deleting: bool) -> Example {
    let link = |fact: u64| {
        let deletions: &[u64] = if deleting { &[fact] } else { &[] };
        job(&[fact], &[fact + 1], deletions, 1 + fact as u16 % 7)
    };
    Example {
        jobs: (0..length).map(link).collect(),
        atoms: length + 1,
        opening: 1,
        goals: word(&[length]),
        bound: 2_880,
    }
}

/// Numbers that look random and are the same on every run.
pub struct Dice(pub u64);

impl Dice {
    pub fn next(&mut self) -> u64 {
        self.0 ^= self.0 << 13;
        self.0 ^= self.0 >> 7;
        self.0 ^= self.0 << 17;
        self.0.wrapping_mul(0x2545_f491_4f6c_dd1d)
    }

    /// A number below `limit`.
    pub fn below(&mut self, limit: u64) -> u64 {
        ((self.next() as u128 * limit as u128) >> 64) as u64
    }

    /// Up to `most` facts below `atoms`.
    pub fn facts(&mut self, most: u64, atoms: u64) -> u64 {
        (0..self.below(most + 1)).fold(0, |word, _| word | 1 << self.below(atoms))
    }

    /// A table of random jobs; some are the same as an earlier one.
    pub fn table(&mut self, most_jobs: u64, most_facts: u64, longest: u64, last_bound: u64) -> Example {
        let atoms = 1 + self.below(most_facts);
        let mut jobs: Vec<Job> = Vec::new();
        for count in 0..self.below(most_jobs + 1) {
            let next = match count > 0 && self.below(8) == 0 {
                true => jobs[self.below(count) as usize],
                false => self.job(atoms, longest),
            };
            jobs.push(next);
        }
        let opening = self.facts(2, atoms);
        Example { jobs, atoms, opening, goals: self.facts(3, atoms), bound: self.below(last_bound + 1) }
    }

    /// The same table with releases up to `last`: each job has none or one of two, so some come together.
    pub fn with_releases(&mut self, example: &Example, last: u64) -> Example {
        let times = [0, self.below(last + 1) as u16, self.below(last + 1) as u16];
        let releases: Vec<u16> = example.jobs.iter().map(|_| times[self.below(3) as usize]).collect();
        example.released(&releases)
    }

    /// The table as it is, with such releases, under rule 2, and both, each with its words.
    pub fn in_every_way(&mut self, example: &Example, last: u64) -> [(&'static str, Example); 4] {
        let released = self.with_releases(example, last);
        let both = released.under_rule_2();
        [
            ("", example.clone()),
            (", released", released),
            (", rule 2", example.under_rule_2()),
            (", released, rule 2", both),
        ]
    }

    /// A random table whose goals are facts that its jobs, one after the other, lead to; at least `new` of them
    /// do not hold at the opening, if a few throws give such a table.
    pub fn table_with_goals(
        &mut self,
        most_jobs: u64,
        most_facts: u64,
        longest: u64,
        last_bound: u64,
        new: u32,
    ) -> Example {
        let mut example = self.table(most_jobs, most_facts, longest, last_bound);
        for _ in 0..60 {
            example.goals = self.facts_led_to(&example);
            if (example.goals & !example.opening).count_ones() >= new {
                break;
            }
            example = self.table(most_jobs, most_facts, longest, last_bound);
        }
        example
    }

    /// The facts after jobs in a random order, each done if its conditions hold; some opening facts are dropped.
    fn facts_led_to(&mut self, example: &Example) -> u64 {
        let mut facts = example.opening;
        let mut waiting = example.jobs.clone();
        for _ in 0..4 * example.jobs.len() {
            if waiting.is_empty() {
                break;
            }
            let place = self.below(waiting.len() as u64) as usize;
            if waiting[place].conditions & !facts == 0 {
                let job = waiting.swap_remove(place);
                facts = facts & !job.deletions | job.additions;
            }
        }
        facts & (!example.opening | self.next())
    }

    /// A plan that is valid whatever is wanted: jobs in a random order, each as early as the ones before it allow, or a
    /// little later; a job that finds no place is out, and some that do are never drawn.
    pub fn plan(&mut self, problem: &Problem) -> Vec<u16> {
        let mut starts = vec![OUT; problem.jobs.len()];
        for _ in 0..3 * starts.len() {
            let job = self.below(starts.len() as u64) as usize;
            let later = self.below(3) as u16;
            if let (OUT, Some(start)) = (starts[job], earliest_place(problem, &starts, job)) {
                let fits = finish(&problem.jobs[job], start + later) <= problem.bound as u32;
                starts[job] = if fits { start + later } else { start };
            }
        }
        starts
    }

    /// By how many quarter hours each of so many jobs runs over, up to `most`.
    pub fn overruns(&mut self, jobs: usize, most: u16) -> Vec<u16> {
        (0..jobs).map(|_| self.below(most as u64 + 1) as u16).collect()
    }

    fn job(&mut self, atoms: u64, longest: u64) -> Job {
        let additions = 1 << self.below(atoms) | self.facts(1, atoms);
        Job {
            conditions: self.facts(2, atoms),
            additions,
            deletions: self.facts(2, atoms) & !additions,
            duration: 1 + self.below(longest) as u16,
            release: 0,
        }
    }
}
