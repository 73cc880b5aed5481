//! The rules: clashes, job tables and their checks, valid plans, supports, binding pairs, estimates, settling.

/// The start of a job that is out; also an estimate that is never reached.
pub const OUT: u16 = 65_535;
pub const NEVER: u16 = 65_535;
/// Support bytes that are no job numbers.
pub const START: u8 = 254;
pub const NO_SUPPORT: u8 = 255;

/// The most jobs a table has, and the most facts a word holds.
pub const MOST_JOBS: usize = 24;
pub const FACTS: usize = 64;

/// Rule 2 is marked by this much added to the atom count.
const RULE_2: u64 = 128;

const LONGEST: u16 = 960;
const LAST_RELEASE: u16 = 2_880;
const LAST_BOUND: u64 = 2_880;
const MOST_PAIRS: u64 = 600;
const PAIR_TABLE: u64 = 552;

#[derive(Clone, Copy, PartialEq, Eq, Debug, Default)]
pub struct Job {
    pub conditions: u64,
    pub additions: u64,
    pub deletions: u64,
    pub duration: u16,
    /// The job does not start before.
    pub release: u16,
}

/// What is said instead of an answer.
#[derive(Clone, Copy, PartialEq, Eq, Debug)]
pub struct Refusal {
    pub number: u64,
    /// The fact of refusal 12, 0 in all others.
    pub second: u64,
    pub place: u64,
}

/// Any refusal but 12.
pub fn refuse<T>(number: u64, place: u64) -> Result<T, Refusal> {
    Err(Refusal { number, second: 0, place })
}

/// Refusal 12, with the fact of the clash.
pub fn refuse_overlap<T>(place: usize, fact: usize) -> Result<T, Refusal> {
    Err(Refusal { number: 12, second: fact as u64, place: place as u64 })
}

/// A job table as a caller hands it in, before any check.
#[derive(Clone, Copy)]
pub struct Given<'a> {
    pub records: &'a [Job],
    pub count: u64,
    /// With the mark of the rule.
    pub atoms: u64,
    pub opening: u64,
    pub goals: u64,
    pub bound: u64,
}

/// A job table that has passed checks 3 to 8 and 20 (and 9 where there is a bound).
#[derive(Clone, Copy)]
pub struct Problem<'a> {
    pub jobs: &'a [Job],
    pub opening: u64,
    pub goals: u64,
    pub bound: u16,
    /// Quarter hours between jobs that bind: none under rule 1, one under rule 2.
    pub gap: u16,
}

/// The numbers of the bits that are set, lowest first.
pub fn members(mut word: u64) -> impl Iterator<Item = usize> {
    std::iter::from_fn(move || {
        if word == 0 {
            return None;
        }
        let lowest = word.trailing_zeros() as usize;
        word &= word - 1;
        Some(lowest)
    })
}

// Clashes.

/// Why two different jobs interfere: one deletes this condition or this addition of the other.
#[derive(Clone, Copy, PartialEq, Eq, Debug)]
pub enum Clash {
    None,
    Condition(usize),
    Addition(usize),
}

/// The lowest fact of its kind, whichever job deletes it; a condition comes first, however low the addition.
pub fn clash(a: &Job, b: &Job) -> Clash {
    let needed = a.deletions & b.conditions | b.deletions & a.conditions;
    let added = a.deletions & b.additions | b.deletions & a.additions;
    match (members(needed).next(), members(added).next()) {
        (Some(fact), _) => Clash::Condition(fact),
        (None, Some(fact)) => Clash::Addition(fact),
        (None, None) => Clash::None,
    }
}

impl Clash {
    /// The fact concerned, if there is one.
    pub fn fact(self) -> Option<usize> {
        match self {
            Clash::None => None,
            Clash::Condition(fact) | Clash::Addition(fact) => Some(fact),
        }
    }
}

/// Two different jobs interfere where they clash.
pub fn interfere(a: &Job, b: &Job) -> bool {
    clash(a, b) != Clash::None
}

// Table checks.

/// The atom count and the gap of the rule that it is marked with.
fn unmarked(atoms: u64) -> (u64, u16) {
    match atoms < RULE_2 {
        true => (atoms, 0),
        false => (atoms - RULE_2, 1),
    }
}

/// Refusal 3 if fewer places are lent than needed.
pub fn check_lent(lent: usize, needed: u64) -> Result<(), Refusal> {
    if (lent as u64) < needed {
        return refuse(3, 0);
    }
    Ok(())
}

/// Refusals 3 (records), 4 to 8, and 20 between 6 and 7.
pub fn check_table<'a>(given: &Given<'a>) -> Result<Problem<'a>, Refusal> {
    check_lent(given.records.len(), given.count)?;
    check_jobs(given)
}

/// The same without 3, for a table that has room for every job that it may have.
pub fn check_jobs<'a>(given: &Given<'a>) -> Result<Problem<'a>, Refusal> {
    let (atoms, gap) = unmarked(given.atoms);
    if atoms < 1 || atoms > FACTS as u64 {
        return refuse(4, 0);
    }
    if given.count > MOST_JOBS as u64 {
        return refuse(5, 0);
    }
    let jobs = &given.records[..given.count as usize];
    check_durations(jobs)?;
    check_releases(jobs)?;
    check_facts(given, atoms, jobs)?;
    check_effects(jobs)?;
    Ok(Problem { jobs, opening: given.opening, goals: given.goals, bound: 0, gap })
}

/// The same and refusal 9.
pub fn check_bounded_table<'a>(given: &Given<'a>) -> Result<Problem<'a>, Refusal> {
    let problem = check_table(given)?;
    if given.bound > LAST_BOUND {
        return refuse(9, 0);
    }
    Ok(Problem { bound: given.bound as u16, ..problem })
}

fn check_durations(jobs: &[Job]) -> Result<(), Refusal> {
    match jobs.iter().position(|job| job.duration < 1 || job.duration > LONGEST) {
        Some(job) => refuse(6, job as u64),
        None => Ok(()),
    }
}

fn check_releases(jobs: &[Job]) -> Result<(), Refusal> {
    match jobs.iter().position(|job| job.release > LAST_RELEASE) {
        Some(job) => refuse(20, job as u64),
        None => Ok(()),
    }
}

/// Jobs come first, opening facts and goals stand behind the last possible job.
fn check_facts(given: &Given, atoms: u64, jobs: &[Job]) -> Result<(), Refusal> {
    let strange = |word: u64| members(word).any(|fact| fact as u64 >= atoms);
    for (number, job) in jobs.iter().enumerate() {
        if strange(job.conditions | job.additions | job.deletions) {
            return refuse(7, number as u64);
        }
    }
    if strange(given.opening | given.goals) {
        return refuse(7, MOST_JOBS as u64);
    }
    Ok(())
}

fn check_effects(jobs: &[Job]) -> Result<(), Refusal> {
    match jobs.iter().position(|job| job.additions & job.deletions != 0) {
        Some(job) => refuse(8, job as u64),
        None => Ok(()),
    }
}

// Valid plans.

pub fn is_in(start: u16) -> bool {
    start != OUT
}

pub fn finish(job: &Job, start: u16) -> u32 {
    start as u32 + job.duration as u32
}

/// The jobs that are in, by number.
pub fn jobs_in<'a>(starts: &'a [u16]) -> impl Iterator<Item = usize> + 'a {
    (0..starts.len()).filter(move |&job| is_in(starts[job]))
}

/// Job a is over before job b starts, with the gap between.
pub fn over(problem: &Problem, starts: &[u16], a: usize, b: usize) -> bool {
    finish(&problem.jobs[a], starts[a]) + problem.gap as u32 <= starts[b] as u32
}

/// The opening facts after all finishes up to `time`, in order of time.
pub fn facts_at(problem: &Problem, starts: &[u16], time: u32) -> u64 {
    let mut finishes: Vec<(u32, usize)> = jobs_in(starts)
        .map(|job| (finish(&problem.jobs[job], starts[job]), job))
        .filter(|&(at, _)| at <= time)
        .collect();
    finishes.sort();
    finishes.iter().fold(problem.opening, |facts, &(_, job)| {
        facts & !problem.jobs[job].deletions | problem.jobs[job].additions
    })
}

/// The facts that a start at this time sees: those at the gap before it, and no earlier than 0.
pub fn facts_seen(problem: &Problem, starts: &[u16], start: u16) -> u64 {
    facts_at(problem, starts, start.saturating_sub(problem.gap) as u32)
}

/// Refusals 11 to 14 of a plan with one start a job, and 21 between 11 and 12.
pub fn check_plan(problem: &Problem, starts: &[u16]) -> Result<(), Refusal> {
    check_ends(problem, starts)?;
    check_early_starts(problem, starts)?;
    check_overlaps(problem, starts)?;
    check_conditions(problem, starts)?;
    check_goals(problem, starts)
}

fn check_ends(problem: &Problem, starts: &[u16]) -> Result<(), Refusal> {
    let late = |&job: &usize| finish(&problem.jobs[job], starts[job]) > problem.bound as u32;
    match jobs_in(starts).find(late) {
        Some(job) => refuse(11, job as u64),
        None => Ok(()),
    }
}

fn check_early_starts(problem: &Problem, starts: &[u16]) -> Result<(), Refusal> {
    match jobs_in(starts).find(|&job| starts[job] < problem.jobs[job].release) {
        Some(job) => refuse(21, job as u64),
        None => Ok(()),
    }
}

/// The first pair, by lower then higher job, that clashes and is not apart: its lower job is the place.
fn check_overlaps(problem: &Problem, starts: &[u16]) -> Result<(), Refusal> {
    let jobs = problem.jobs;
    for a in jobs_in(starts) {
        for b in jobs_in(starts).filter(|&b| b > a) {
            let apart = over(problem, starts, a, b) || over(problem, starts, b, a);
            match clash(&jobs[a], &jobs[b]).fact() {
                Some(fact) if !apart => return refuse_overlap(a, fact),
                _ => (),
            }
        }
    }
    Ok(())
}

fn check_conditions(problem: &Problem, starts: &[u16]) -> Result<(), Refusal> {
    let lacking =
        |&job: &usize| problem.jobs[job].conditions & !facts_seen(problem, starts, starts[job]) != 0;
    match jobs_in(starts).find(lacking) {
        Some(job) => refuse(13, job as u64),
        None => Ok(()),
    }
}

fn check_goals(problem: &Problem, starts: &[u16]) -> Result<(), Refusal> {
    let missing = problem.goals & !facts_at(problem, starts, problem.bound as u32);
    match members(missing).next() {
        Some(fact) => refuse(14, fact as u64),
        None => Ok(()),
    }
}

/// An offered plan is looked at after its table, with the starts lent by the caller.
pub fn check_offered<'a>(given: &Given<'a>, starts: &'a [u16]) -> Result<(Problem<'a>, &'a [u16]), Refusal> {
    check_lent(starts.len(), given.count)?;
    let problem = check_bounded_table(given)?;
    let starts = &starts[..problem.jobs.len()];
    check_plan(&problem, starts)?;
    Ok((problem, starts))
}

// Supports.

/// What has conditions: a job in the plan, or End at the bound with no length and no gap.
struct Needer {
    job: Option<usize>,
    start: u32,
    finish: u32,
    gap: u32,
}

fn needer_of(problem: &Problem, starts: &[u16], job: usize) -> Needer {
    Needer {
        job: Some(job),
        start: starts[job] as u32,
        finish: finish(&problem.jobs[job], starts[job]),
        gap: problem.gap as u32,
    }
}

fn end_of(problem: &Problem) -> Needer {
    Needer { job: None, start: problem.bound as u32, finish: problem.bound as u32, gap: 0 }
}

/// No deleter of the fact, other than the needer, comes between the support and the needer: each is over before the
/// support starts, or starts behind the needer, with the gap that the needer has. Nothing is over before Start.
fn unbroken(problem: &Problem, starts: &[u16], fact: usize, support: Option<usize>, needer: &Needer) -> bool {
    jobs_in(starts)
        .filter(|&job| problem.jobs[job].deletions >> fact & 1 == 1 && Some(job) != needer.job)
        .all(|job| {
            support.is_some_and(|support| over(problem, starts, job, support))
                || starts[job] as u32 >= needer.finish + needer.gap
        })
}

/// Start if it fits, else the lowest job that fits.
fn named_support(problem: &Problem, starts: &[u16], fact: usize, needer: &Needer) -> u8 {
    if problem.opening >> fact & 1 == 1 && unbroken(problem, starts, fact, None, needer) {
        return START;
    }
    jobs_in(starts)
        .filter(|&job| problem.jobs[job].additions >> fact & 1 == 1)
        .filter(|&job| finish(&problem.jobs[job], starts[job]) + needer.gap <= needer.start)
        .find(|&job| unbroken(problem, starts, fact, Some(job), needer))
        .map_or(NO_SUPPORT, |job| job as u8)
}

/// 64 bytes, one a fact.
fn support_row(problem: &Problem, starts: &[u16], conditions: u64, needer: &Needer) -> [u8; FACTS] {
    let mut row = [NO_SUPPORT; FACTS];
    for fact in members(conditions) {
        row[fact] = named_support(problem, starts, fact, needer);
    }
    row
}

/// The row of every job, then End's.
fn support_rows(problem: &Problem, starts: &[u16]) -> Vec<[u8; FACTS]> {
    let mut rows: Vec<[u8; FACTS]> = (0..problem.jobs.len())
        .map(|job| match is_in(starts[job]) {
            true => {
                let needer = needer_of(problem, starts, job);
                support_row(problem, starts, problem.jobs[job].conditions, &needer)
            }
            false => [NO_SUPPORT; FACTS],
        })
        .collect();
    rows.push(support_row(problem, starts, problem.goals, &end_of(problem)));
    rows
}

/// Fills 64 bytes a job and 64 for End.
pub fn supports(given: &Given, starts: &[u16], table: &mut [u8]) -> Result<(), Refusal> {
    check_lent(table.len(), given.count.saturating_add(1).saturating_mul(FACTS as u64))?;
    let (problem, starts) = check_offered(given, starts)?;
    for (place, row) in table.chunks_exact_mut(FACTS).zip(support_rows(&problem, starts)) {
        place.copy_from_slice(&row);
    }
    Ok(())
}

// Binding pairs.

/// The pairs of a valid plan, by first then second.
pub fn pairs_of(problem: &Problem, starts: &[u16]) -> Vec<(u8, u8)> {
    let rows = support_rows(problem, starts);
    let jobs = problem.jobs;
    let mut pairs = Vec::new();
    for a in jobs_in(starts) {
        for b in jobs_in(starts).filter(|&b| b != a) {
            let binding = interfere(&jobs[a], &jobs[b]) || rows[b].contains(&(a as u8));
            if binding && over(problem, starts, a, b) {
                pairs.push((a as u8, b as u8));
            }
        }
    }
    pairs
}

/// Fills two bytes a pair and gives the count.
pub fn binding_pairs(given: &Given, starts: &[u16], table: &mut [u8]) -> Result<u64, Refusal> {
    check_lent(table.len(), PAIR_TABLE)?;
    let (problem, starts) = check_offered(given, starts)?;
    let pairs = pairs_of(&problem, starts);
    for (place, &(first, second)) in table.chunks_exact_mut(2).zip(&pairs) {
        place.copy_from_slice(&[first, second]);
    }
    Ok(pairs.len() as u64)
}

// Estimates.

/// What a fact costs while the jobs have these estimates.
pub fn fact_cost(problem: &Problem, estimates: &[u16], fact: usize) -> u16 {
    if problem.opening >> fact & 1 == 1 {
        return 0;
    }
    (0..problem.jobs.len())
        .filter(|&job| problem.jobs[job].additions >> fact & 1 == 1 && estimates[job] != NEVER)
        .map(|job| estimates[job] + problem.jobs[job].duration)
        .min()
        .unwrap_or(NEVER)
}

/// What a fact costs a job that needs it: with the gap, unless it is open. No other fact costs 0, and never stays never.
fn condition_cost(problem: &Problem, estimates: &[u16], fact: usize) -> u16 {
    match fact_cost(problem, estimates, fact) {
        0 => 0,
        cost => cost.saturating_add(problem.gap),
    }
}

/// The one solution of the rules, reached from "never" by falling steps: the greater of release and condition cost.
pub fn job_estimates(problem: &Problem) -> Vec<u16> {
    let mut estimates = vec![NEVER; problem.jobs.len()];
    loop {
        let costs: Vec<u16> = (0..FACTS).map(|fact| condition_cost(problem, &estimates, fact)).collect();
        let better: Vec<u16> = problem
            .jobs
            .iter()
            .map(|job| members(job.conditions).map(|fact| costs[fact]).max().unwrap_or(0).max(job.release))
            .collect();
        if better == estimates {
            return estimates;
        }
        estimates = better;
    }
}

/// Fills one estimate a job; there is no bound here, so no refusal 9.
pub fn estimates(given: &Given, table: &mut [u16]) -> Result<(), Refusal> {
    check_lent(table.len(), given.count)?;
    let problem = check_table(given)?;
    table[..problem.jobs.len()].copy_from_slice(&job_estimates(&problem));
    Ok(())
}

// Settling.

/// Refusal 15: the set, then the number of pairs, then the pairs.
fn check_asked(jobs: usize, set: u64, pair_count: u64, pairs: &[u8]) -> Result<(), Refusal> {
    if members(set).any(|job| job >= jobs) {
        return refuse(15, 601);
    }
    if pair_count > MOST_PAIRS {
        return refuse(15, 600);
    }
    let outside = |job: u8| job as usize >= FACTS || set >> job & 1 == 0;
    match pairs.chunks_exact(2).position(|pair| outside(pair[0]) || outside(pair[1])) {
        Some(pair) => refuse(15, pair as u64),
        None => Ok(()),
    }
}

/// The least starts: from the releases on, a second job is moved behind its first, with the gap between, until nothing
/// moves or a job ends too late.
fn least_starts(problem: &Problem, set: u64, pairs: &[u8]) -> Option<Vec<u16>> {
    let jobs = problem.jobs;
    let first = |job: usize| if set >> job & 1 == 1 { jobs[job].release } else { OUT };
    let mut starts: Vec<u16> = (0..jobs.len()).map(first).collect();
    loop {
        if check_ends(problem, &starts).is_err() {
            return None;
        }
        let mut moved = false;
        for pair in pairs.chunks_exact(2) {
            let (first, second) = (pair[0] as usize, pair[1] as usize);
            let earliest = finish(&jobs[first], starts[first]) + problem.gap as u32;
            if earliest > problem.bound as u32 {
                return None;
            }
            if (starts[second] as u32) < earliest {
                starts[second] = earliest as u16;
                moved = true;
            }
        }
        if !moved {
            return Some(starts);
        }
    }
}

/// A settling in order: its table, the least start of every job in the set, out for the others, and the pairs that count.
pub struct Settled<'a> {
    pub problem: Problem<'a>,
    pub starts: Vec<u16>,
    pub pairs: &'a [u8],
}

/// Refusals 3 (pairs and records), 4 to 9 and 20, then 15 and 16.
pub fn settled<'a>(
    given: &Given<'a>,
    set: u64,
    pair_count: u64,
    pairs: &'a [u8],
) -> Result<Settled<'a>, Refusal> {
    check_lent(pairs.len(), pair_count.saturating_mul(2))?;
    let problem = check_bounded_table(given)?;
    let pairs = &pairs[..2 * pair_count as usize];
    check_asked(problem.jobs.len(), set, pair_count, pairs)?;
    match least_starts(&problem, set, pairs) {
        Some(starts) => Ok(Settled { problem, starts, pairs }),
        None => refuse(16, 0),
    }
}

/// Fills one start a job.
pub fn settle(
    given: &Given,
    set: u64,
    pair_count: u64,
    pairs: &[u8],
    table: &mut [u16],
) -> Result<(), Refusal> {
    check_lent(table.len(), given.count)?;
    let starts = settled(given, set, pair_count, pairs)?.starts;
    table[..starts.len()].copy_from_slice(&starts);
    Ok(())
}
