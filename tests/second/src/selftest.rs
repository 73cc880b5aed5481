//! The self-test.

use crate::batches::{enter, expand, Expanded};
use crate::brute;
use crate::calls;
use crate::examples::{chain, go_twice, house, job, jobs_u, trolley, word, Dice, Example};
use crate::files::{job_bytes, read_file, tidy, write_file, Saved};
use crate::following::{follow, Event, Screen, Watch, Worked};
use crate::lateness::{finishes, how_late, last_finish, overrunning};
use crate::open::{OpenTable, Wanted};
use crate::plan::{least_bound, plan_within};
use crate::readings::{opening_facts, tenths, Marks, Reading};
use crate::reasons::{reason, why_no_plan, why_start, Reason};
use crate::rules::{
    binding_pairs, check_bounded_table, check_offered, check_plan, clash, estimates, facts_at, finish,
    job_estimates, jobs_in, members, pairs_of, settle, supports, Clash, Given, Job, Problem, Refusal,
    NO_SUPPORT, OUT, START,
};
use crate::texts::{read_text, write_text};
use crate::{bench, rules};
use std::process::ExitCode;

/// Counts what passed and says what failed.
#[derive(Default)]
struct Tally {
    passed: u64,
    failed: u64,
}

impl Tally {
    fn check(&mut self, what: &str, holds: bool) {
        match holds {
            true => self.passed += 1,
            false => {
                self.failed += 1;
                println!("failed: {what}");
            }
        }
    }

    fn same<T: PartialEq + std::fmt::Debug>(&mut self, what: &str, found: T, expected: T) {
        let holds = found == expected;
        self.check(&format!("{what}: {found:?}, expected {expected:?}"), holds);
    }
}

pub fn run() -> ExitCode {
    let mut tally = Tally::default();
    test_cases_p(&mut tally);
    test_late_crate(&mut tally);
    test_hygiene(&mut tally);
    test_clashes(&mut tally);
    test_overlaps(&mut tally);
    test_against_start_vectors(&mut tally);
    test_against_orders(&mut tally);
    test_known_tables_against_orders(&mut tally);
    test_larger_tables(&mut tally);
    test_known_least_bounds(&mut tally);
    test_offered_plans(&mut tally);
    test_offered_under_rule_2(&mut tally);
    test_supports_and_pairs(&mut tally);
    test_following(&mut tally);
    test_estimates(&mut tally);
    test_settling(&mut tally);
    test_why_start(&mut tally);
    test_why_no_plan(&mut tally);
    test_how_late(&mut tally);
    test_batches(&mut tally);
    test_texts(&mut tally);
    test_open_tables(&mut tally);
    test_gap_as_length(&mut tally);
    test_table_checks(&mut tally);
    test_rule_marks(&mut tally);
    test_lent_tables(&mut tally);
    test_files(&mut tally);
    test_tenths(&mut tally);
    test_marks(&mut tally);
    test_bench(&mut tally);
    test_calls(&mut tally);
    println!("{} passed, {} failed", tally.passed, tally.failed);
    ExitCode::from((tally.failed > 0) as u8)
}

fn refused<T>(number: u64, place: u64) -> Result<T, Refusal> {
    rules::refuse(number, place)
}

/// Refusal 12 at this job, over this fact.
fn overlapping<T>(place: usize, fact: usize) -> Result<T, Refusal> {
    rules::refuse_overlap(place, fact)
}

fn plan_of(example: &Example) -> Result<Vec<u16>, Refusal> {
    let mut starts = vec![7; example.jobs.len()];
    plan_within(&example.given(), &mut starts).map(|_| starts)
}

fn least_of(example: &Example) -> Result<(u16, Vec<u16>), Refusal> {
    let mut starts = vec![7; example.jobs.len()];
    let least = least_bound(&example.given(), &mut starts)?;
    Ok((least, starts))
}

fn offer(example: &Example, starts: &[u16]) -> Result<(), Refusal> {
    check_offered(&example.given(), starts).map(|_| ())
}

fn test_cases_p(tally: &mut Tally) {
    tally.same("P1", plan_of(&jobs_u(&[2, 3], 12)), Ok(vec![0, 4, 4, OUT]));
    tally.same("P2", plan_of(&jobs_u(&[2, 3], 11)), refused(10, 0));
    let all = jobs_u(&[2, 3, 4], 2_880);
    tally.same("P3", least_of(&all), Ok((12, vec![0, 7, 4, 4])));
    let offered = jobs_u(&[2, 3, 4], 12);
    tally.same("P3 is valid", offer(&offered, &[0, 7, 4, 4]), Ok(()));
    tally.same("P4", offer(&offered, &[0, 6, 4, 4]), Err(Refusal { number: 12, second: 2, place: 1 }));
    tally.same("P5", plan_of(&jobs_u(&[0], 0)), Ok(vec![OUT; 4]));
    tally.same("P6", plan_of(&jobs_u(&[0, 1], 2_880)), refused(10, 0));
    let mut none = Example { jobs: vec![], atoms: 2, opening: 1, goals: 0, bound: 0 };
    tally.same("P7", plan_of(&none), Ok(vec![]));
    none.goals = word(&[1]);
    tally.same("P7 with a goal", plan_of(&none), refused(10, 0));
    tally.same("P8", plan_of(&go_twice()), refused(10, 0));
    tally.same("P9 above", tenths(24.000000000000004f64.to_bits()), 240);
    tally.same("P9 below", tenths(23.999999999999996f64.to_bits()), 240);
    tally.same("P10 negative zero", tenths((-0.0f64).to_bits()), 0);
    tally.same("P10 -0.05", tenths((-0.05f64).to_bits()), -1);
    tally.same("P10 nearest zero", tenths(1 << 63 | 1), 0);
    tally.same("Two, 2.3", tenths(2.3f64.to_bits()), 23);
    tally.same("Two, 0.25", tenths(0.25f64.to_bits()), 3);
    tally.same("Two, -0.25", tenths((-0.25f64).to_bits()), -2);
    tally.same("0.35", tenths(0.35f64.to_bits()), 3);
    let long = |duration, bound| Example {
        jobs: vec![job(&[], &[0], &[], duration)],
        atoms: 1,
        opening: 0,
        goals: 1,
        bound,
    };
    tally.same("P11 960", plan_of(&long(960, 2_880)), Ok(vec![0]));
    tally.same("P11 961", plan_of(&long(961, 2_880)), refused(6, 0));
    tally.same("P11 2881", plan_of(&long(960, 2_881)), refused(9, 0));
}

/// Warm waits for its flight: the numbers of change request Five.
fn test_late_crate(tally: &mut Tally) {
    let late = jobs_u(&[2, 3, 4], 2_880).released(&[0, 0, 6, 0]);
    tally.same("late crate", least_of(&late), Ok((14, vec![0, 7, 6, 4])));
    tally.same("late crate, no sooner", plan_of(&Example { bound: 13, ..late.clone() }), refused(10, 0));
    let release = |release, bound| Example { bound, ..jobs_u(&[1], 0).released(&[release]) };
    tally.same("the last release", plan_of(&release(2_876, 2_880)), Ok(vec![2_876, OUT, OUT, OUT]));
    tally.same("released too late for the bound", plan_of(&release(2_877, 2_880)), refused(10, 0));
    tally.same("released at the last bound", plan_of(&release(2_880, 2_880)), refused(10, 0));
    tally.same("2881", plan_of(&release(2_881, 2_880)), refused(20, 0));
    let unused = jobs_u(&[0], 0).released(&[2_880; 4]);
    tally.same("out of use, however late", plan_of(&unused), Ok(vec![OUT; 4]));
}

/// A quarter hour between jobs that bind: the numbers of change request Nine.
fn test_hygiene(tally: &mut Tally) {
    let all = jobs_u(&[2, 3, 4], 2_880).under_rule_2();
    tally.same("P3 under rule 2", least_of(&all), Ok((13, vec![0, 9, 5, 5])));
    tally.same("no sooner", plan_of(&Example { bound: 12, ..all.clone() }), refused(10, 0));
    tally.same("P1 under rule 2", plan_of(&jobs_u(&[2, 3], 13).under_rule_2()), Ok(vec![0, 5, 5, OUT]));
    tally.same("P2 under rule 2", plan_of(&jobs_u(&[2, 3], 12).under_rule_2()), refused(10, 0));
    tally.same("P5 under rule 2", least_of(&jobs_u(&[0], 0).under_rule_2()), Ok((0, vec![OUT; 4])));
    tally.same("P6 under rule 2", plan_of(&jobs_u(&[0, 1], 2_880).under_rule_2()), refused(10, 0));
    tally.same("P8 under rule 2", plan_of(&go_twice().under_rule_2()), refused(10, 0));
    // The goal sees a finish at the bound, so one job alone needs no more time than it takes.
    let alone = |bound| Example { bound, ..jobs_u(&[1], 0).under_rule_2() };
    tally.same("a finish at the bound", least_of(&alone(4)), Ok((4, vec![0, OUT, OUT, OUT])));
    tally.same("a finish behind the bound", plan_of(&alone(3)), refused(10, 0));
    let late = jobs_u(&[2, 3, 4], 2_880).released(&[0, 0, 6, 0]).under_rule_2();
    tally.same("late crate under rule 2", least_of(&late), Ok((14, vec![0, 9, 6, 5])));
    let chained = least_of(&chain(4, true).under_rule_2());
    tally.same("three gaps in a chain of four", chained, Ok((1 + 2 + 3 + 4 + 3, vec![0, 2, 5, 9])));
}

/// Why two jobs clash: the kind and the lowest fact of that kind.
fn test_clashes(tally: &mut Tally) {
    let jobs = jobs_u(&[], 0).jobs;
    tally.same("drench and wash", clash(&jobs[1], &jobs[3]), Clash::Addition(2));
    tally.same("unpack and drench", clash(&jobs[0], &jobs[1]), Clash::None);
    let deletes = job(&[], &[], &[2, 7, 9], 1);
    tally.same("a condition first", clash(&deletes, &job(&[7], &[2], &[], 1)), Clash::Condition(7));
    tally.same("the lowest condition", clash(&deletes, &job(&[9, 7, 8], &[], &[], 1)), Clash::Condition(7));
    tally.same("the lowest addition", clash(&deletes, &job(&[8], &[9, 7, 1], &[], 1)), Clash::Addition(7));
    let needing = |fact, deleted| job(&[fact], &[], &[deleted], 1);
    let adding = |fact, deleted| job(&[], &[fact], &[deleted], 1);
    for (one, other) in [(4, 9), (9, 4)] {
        let clash_of = |made: &dyn Fn(u64, u64) -> Job| clash(&made(one, other), &made(other, one));
        tally.same("the lowest condition of both ways", clash_of(&needing), Clash::Condition(4));
        tally.same("the lowest addition of both ways", clash_of(&adding), Clash::Addition(4));
    }
    let crossed = clash(&job(&[9], &[], &[0], 1), &job(&[], &[0], &[9], 1));
    tally.same("a condition one way, a lower addition the other", crossed, Clash::Condition(9));
    let (needs, adds) = (job(&[63], &[], &[], 1), job(&[], &[63], &[], 1));
    let last = job(&[], &[], &[63], 1);
    tally.same("the last fact needed", clash(&needs, &last), Clash::Condition(63));
    tally.same("the last fact added", clash(&last, &adds), Clash::Addition(63));
    for (one, other) in [(&needs, &adds), (&needs, &needs), (&adds, &adds), (&last, &last)] {
        tally.same("one fact and no clash", clash(one, other), Clash::None);
    }
    test_equal_records(tally);
    test_clashes_by_fact(tally);
}

/// The same record twice stands for two jobs that are alike.
fn test_equal_records(tally: &mut Tally) {
    let alike = |record: Job| clash(&record, &record);
    tally.same("own condition deleted", alike(job(&[3, 5], &[1], &[5], 1)), Clash::Condition(5));
    tally.same("adds and deletes", alike(job(&[1], &[6], &[6], 1)), Clash::Addition(6));
    tally.same("nothing at all", alike(Job::default()), Clash::None);
    tally.same("deletes nothing", alike(Job { deletions: 0, ..all_facts() }), Clash::None);
    tally.same("all facts", alike(all_facts()), Clash::Condition(0));
    tally.same("all facts, none needed", alike(Job { conditions: 0, ..all_facts() }), Clash::Addition(0));
}

/// Every bit of a record set.
fn all_facts() -> Job {
    Job { conditions: u64::MAX, additions: u64::MAX, deletions: u64::MAX, duration: OUT, release: OUT }
}

/// Drawn records, with facts from a drawn one on, against every fact in turn: either order, and whatever the times.
fn test_clashes_by_fact(tally: &mut Tally) {
    let mut dice = Dice(0x00c1_a54e_5fac_7511);
    for number in 0..20_000 {
        let above = u64::MAX << dice.below(64);
        let most = [1, 3, 40][number % 3];
        let mut word = || dice.facts(most, 64) & above;
        let (one, other) = (job_of([word(), word(), word()]), job_of([word(), word(), word()]));
        let found = clash(&one, &other);
        tally.same("clash by facts", found, brute::clash(&one, &other));
        tally.same("clash of the two turned round", found, clash(&other, &one));
        let late = Job { duration: dice.next() as u16, release: dice.next() as u16, ..one };
        tally.same("clash at other times", found, clash(&late, &other));
    }
}

fn job_of([conditions, additions, deletions]: [u64; 3]) -> Job {
    Job { conditions, additions, deletions, duration: 1, release: 0 }
}

/// Refusal 12 has the lower job of the first pair and the fact of that pair, whatever clashes behind it.
fn test_overlaps(tally: &mut Tally) {
    let jobs = vec![
        job(&[], &[0], &[6, 3, 8], 2),
        job(&[], &[6], &[], 2),
        job(&[8], &[3], &[], 2),
        job(&[3], &[1], &[6], 2),
    ];
    let crowd = Example { jobs, atoms: 9, opening: word(&[3, 8]), goals: 0, bound: 20 };
    tally.same("the lowest partner", offer(&crowd, &[0, 1, 1, 1]), overlapping(0, 6));
    tally.same("the next partner", offer(&crowd, &[0, 9, 1, 1]), overlapping(0, 8));
    tally.same("the last partner", offer(&crowd, &[0, OUT, 9, 1]), overlapping(0, 3));
    tally.same("a pair without the first job", offer(&crowd, &[9, 0, 0, 1]), overlapping(1, 6));
    tally.same("apart", offer(&crowd, &[9, 0, 2, 2]), Ok(()));
    tally.same("touching under rule 2", offer(&crowd.under_rule_2(), &[9, 0, 2, 2]), overlapping(1, 6));
    tally.same("near under rule 2", offer(&crowd.under_rule_2(), &[2, 9, 4, 4]), overlapping(0, 8));
    test_overlaps_by_quarter_hours(tally);
}

/// Drawn plans in which no job ends late or starts before its release, so that what overlaps is refused with 12.
fn test_overlaps_by_quarter_hours(tally: &mut Tally) {
    let mut dice = Dice(0x0c7a_95ed_0b5f_ac75);
    for number in 0..8_000 {
        let example = Example { bound: 16, ..dice.table(7, 12, 4, 0) };
        let starts: Vec<u16> = example.jobs.iter().map(|_| dice.below(13) as u16).collect();
        let example = if number % 2 == 0 { example } else { example.released(&starts) };
        for example in [example.under_rule_2(), example] {
            let problem = check_bounded_table(&example.given()).expect("random tables pass the checks");
            let told = check_plan(&problem, &starts).err().filter(|refusal| refusal.number == 12);
            let expected = brute::first_overlap(&problem, &starts);
            let expected = expected.and_then(|(place, fact)| overlapping::<()>(place, fact).err());
            tally.same("overlaps by quarter hours", told, expected);
        }
    }
}

/// The first plan and the least bound of many small tables, without releases and with them, under both rules, against
/// every start vector in turn.
fn test_against_start_vectors(tally: &mut Tally) {
    let mut dice = Dice(0x1234_5678_9abc_def1);
    let mut releases = Dice(0x5eed_1a7e_c4a7_e5a1);
    for (tables, jobs, facts, longest, bound) in
        [(6_000, 4, 5, 4, 10), (6_000, 4, 3, 3, 10), (800, 5, 6, 3, 7), (400, 6, 6, 2, 5)]
    {
        for number in 0..tables {
            let example = match number % 2 {
                0 => dice.table(jobs, facts, longest, bound),
                _ => dice.table_with_goals(jobs, facts, longest, bound, 1 + number % 3),
            };
            let last = releases.below(bound + 1);
            for (way, example) in releases.in_every_way(&example, last) {
                let what = format!("random table {number} of up to {jobs} jobs{way}");
                check_by_vectors(tally, &what, &example);
            }
        }
    }
}

fn check_by_vectors(tally: &mut Tally, what: &str, example: &Example) {
    let problem = check_bounded_table(&example.given()).expect("random tables pass the checks");
    tally.same(what, plan_of(example).ok(), brute::first_plan(&problem));
    tally.same(what, least_of(example).ok(), brute::least_bound(&problem));
}

/// The first plans of larger tables, without releases and with them, under both rules, against every order of jobs.
fn test_against_orders(tally: &mut Tally) {
    let mut dice = Dice(0x2468_ace0_1357_9bdf);
    let mut releases = Dice(0x7071_6d61_7274_7321);
    for (tables, jobs, facts, longest, bound) in
        [(6_000, 6, 6, 6, 40), (6_000, 5, 9, 6, 30), (800, 7, 7, 6, 40)]
    {
        for number in 0..tables {
            let example = dice.table_with_goals(jobs, facts, longest, bound, 2 + number % 4);
            let last = releases.below(bound + 1);
            for (way, example) in releases.in_every_way(&example, last) {
                let what = format!("random table {number} of up to {jobs} jobs, by orders{way}");
                check_by_orders_around(tally, &what, &example);
            }
        }
    }
}

/// Within the bound, at the least bound and one below it.
fn check_by_orders_around(tally: &mut Tally, what: &str, example: &Example) {
    check_by_orders(tally, what, example);
    if let Ok((least, _)) = least_of(example) {
        for bound in [least, least.saturating_sub(1)] {
            check_by_orders(tally, what, &Example { bound: bound as u64, ..example.clone() });
        }
    }
}

/// The same for house batches and a trolley.
fn test_known_tables_against_orders(tally: &mut Tally) {
    let mut releases = Dice(0x1357_2468_9bdf_ace1);
    let pairs = [[1, 1], [1, 2], [2, 1], [2, 2], [4, 1], [1, 4], [5, 1], [0, 7], [7, 0], [3, 7], [2, 4]];
    let examples = pairs.iter().map(|pair| house(pair)).chain([trolley(1), trolley(2)]);
    for example in examples {
        let least = least_of(&example).map_or(0, |(least, _)| least as u64);
        for bound in [least.saturating_sub(1), least, least + 1, least + 6] {
            check_by_orders(tally, "known table, by orders", &Example { bound, ..example.clone() });
        }
        for last in [least, 2 * least] {
            let example = Example { bound: 3 * least, ..example.clone() };
            for (way, example) in releases.in_every_way(&example, last) {
                check_by_orders_around(tally, &format!("known table, by orders{way}"), &example);
            }
        }
    }
}

fn check_by_orders(tally: &mut Tally, what: &str, example: &Example) {
    let problem = check_bounded_table(&example.given()).expect("random tables pass the checks");
    tally.same(what, plan_of(example).ok(), brute::first_plan_by_orders(&problem));
}

/// Where brute force is too slow: the plan is valid, no smaller bound has one, and no job can come earlier alone.
fn test_larger_tables(tally: &mut Tally) {
    let mut dice = Dice(0x0fed_cba9_8765_4321);
    let mut releases = Dice(0x1a4d_5ca7_e2f1_1967);
    for number in 0..3_000 {
        let example = dice.table_with_goals(9, 9, 6, 60, 2 + number % 5);
        for (way, example) in releases.in_every_way(&example, 40) {
            check_least(tally, &format!("table {number} of up to 9 jobs{way}"), &example);
        }
    }
}

fn check_least(tally: &mut Tally, what: &str, example: &Example) {
    match least_of(example) {
        Ok((least, starts)) => check_least_plan(tally, what, example, least, &starts),
        Err(refusal) => tally.same(what, Err(refusal), plan_of(example)),
    }
}

fn check_least_plan(tally: &mut Tally, what: &str, example: &Example, least: u16, starts: &[u16]) {
    let at_least = Example { bound: least as u64, ..example.clone() };
    tally.same(what, offer(&at_least, starts), Ok(()));
    tally.same(what, plan_of(&at_least), Ok(starts.to_vec()));
    if least > 0 {
        let below = Example { bound: least as u64 - 1, ..example.clone() };
        tally.same(what, plan_of(&below), refused(10, 0));
    }
    for job in 0..starts.len() {
        tally.check(what, !comes_earlier_alone(&at_least, starts, job));
    }
}

/// Whether the plan stays valid with one job out, or at an earlier start.
fn comes_earlier_alone(example: &Example, starts: &[u16], job: usize) -> bool {
    if starts[job] == OUT {
        return false;
    }
    let mut other = starts.to_vec();
    std::iter::once(OUT).chain(0..starts[job]).any(|start| {
        other[job] = start;
        offer(example, &other).is_ok()
    })
}

fn test_known_least_bounds(tally: &mut Tally) {
    let least = |example: &Example| least_of(example).map(|(least, _)| least);
    tally.same("trolley of 1", least(&trolley(1)), Ok(8));
    tally.same("trolley of 2", least(&trolley(2)), Ok(20));
    tally.same("trolley of 3", least(&trolley(3)), Ok(32));
    for deleting in [false, true] {
        let total: u16 = chain(24, deleting).jobs.iter().map(|job| job.duration).sum();
        tally.same("chain of 24", least(&chain(24, deleting)), Ok(total));
    }
    for group in 0..12 {
        let example = house(&[group]);
        let clearing = |job: &&Job| job.additions != 1;
        let stages: u16 = example.jobs.iter().filter(clearing).map(|job| job.duration).sum();
        tally.same("one batch", least(&example), Ok(stages));
    }
    tally.same("two batches of group 1", least(&house(&[1, 1])), Ok(4 + 3 + 1 + 3));
    tally.same("three batches of group 1", least(&house(&[1, 1, 1])), Ok(4 + 3 + 1 + 3 + 1 + 3));
    tally.same("four long batches", least(&house(&[11, 11, 11, 11])), Ok(96));
    test_ways_to_one_standing(tally);
}

/// Batches in which one standing is reached at several times and the later one fails, so memory must look at the time.
fn test_ways_to_one_standing(tally: &mut Tally) {
    let loose = vec![0, 4, 7, 0, 8, 10, 10, 22, 25, 0, 11, 13, 13, 26, OUT];
    tally.same("room to spare", plan_of(&Example { bound: 29, ..house(&[1, 7, 7]) }), Ok(loose));
    let tight = vec![0, 12, 15, 0, 6, 8, 8, 20, 23, 0, 9, 11, 11, 24, OUT];
    tally.same("short batch first", least_of(&house(&[1, 7, 7])), Ok((27, tight)));
    let tight = vec![0, 6, 8, 8, 20, 23, 0, 12, 15, 0, 9, 11, 11, 24, OUT];
    tally.same("short batch between", least_of(&house(&[7, 1, 7])), Ok((27, tight)));
    let tight = vec![0, 6, 8, 8, 20, 23, 0, 9, 11, 11, 24, OUT, 0, 12, 15];
    tally.same("short batch last", least_of(&house(&[7, 7, 1])), Ok((27, tight)));
}

fn test_offered_plans(tally: &mut Tally) {
    let all = jobs_u(&[2, 3, 4], 12);
    tally.same("late", offer(&all, &[0, 11, 9, 4]), refused(11, 1));
    tally.same("far too late", offer(&all, &[65_534, 4, 4, 4]), refused(11, 0));
    tally.same("late before overlap", offer(&all, &[0, 6, 5, 4]), refused(11, 2));
    tally.same("overlap before condition", offer(&all, &[OUT, 6, 4, 4]), overlapping(1, 2));
    tally.same("condition", offer(&all, &[0, 3, 4, 5]), refused(13, 1));
    tally.same("condition with nothing done", offer(&all, &[OUT, 7, 4, 4]), refused(13, 1));
    tally.same("goals", offer(&all, &[0, 4, 4, 6]), refused(14, 2));
    tally.same("two goals", offer(&all, &[0, OUT, OUT, 4]), refused(14, 2));
    let clash = Example {
        jobs: vec![job(&[], &[0], &[1], 2), job(&[], &[1], &[], 2), job(&[0], &[2], &[0], 1)],
        atoms: 3,
        opening: word(&[0]),
        goals: 0,
        bound: 9,
    };
    tally.same("first pair by lower number", offer(&clash, &[0, 1, 1]), overlapping(0, 1));
    tally.same("pair of higher numbers", offer(&clash, &[0, 2, 1]), overlapping(0, 0));
    tally.same("own condition deleted", offer(&clash, &[1, 3, 0]), Ok(()));
    let late = jobs_u(&[2, 3, 4], 14).released(&[0, 8, 6, 5]);
    tally.same("released", offer(&late, &[0, 8, 6, 5]), Ok(()));
    tally.same("one before the release", offer(&late, &[0, 8, 5, 5]), refused(21, 2));
    tally.same("lowest job", offer(&late, &[0, 7, 5, 4]), refused(21, 1));
    tally.same("out before its release", offer(&late, &[OUT, 0, OUT, OUT]), refused(21, 1));
    tally.same("late before early", offer(&late, &[0, 0, 7, 5]), refused(11, 2));
    tally.same("early before overlap", offer(&late, &[0, 8, 5, 7]), refused(21, 2));
    tally.same("overlap in time", offer(&late, &[0, 8, 6, 7]), overlapping(1, 2));
    tally.same("early before a condition", offer(&late, &[OUT, 8, 6, 4]), refused(21, 3));
    tally.same("early before a goal", offer(&late, &[0, OUT, 5, 5]), refused(21, 2));
}

/// What touches is too near under rule 2, and a start sees the finishes up to a quarter hour before it.
fn test_offered_under_rule_2(tally: &mut Tally) {
    let all = jobs_u(&[2, 3, 4], 13).under_rule_2();
    tally.same("a quarter hour apart", offer(&all, &[0, 9, 5, 5]), Ok(()));
    tally.same("touching", offer(&all, &[0, 8, 5, 5]), overlapping(1, 2));
    tally.same("touching the other way", offer(&all, &[0, 5, 5, 7]), overlapping(1, 2));
    tally.same("apart the other way", offer(&all, &[0, 5, 5, 8]), refused(14, 2));
    tally.same("a finish just now", offer(&all, &[0, 9, 4, 5]), refused(13, 2));
    tally.same("touching before a condition", offer(&all, &[0, 8, 4, 5]), overlapping(1, 2));
    tally.same("late before touching", offer(&all, &[0, 8, 6, 5]), refused(11, 2));
    let early = all.released(&[0, 0, 6, 0]);
    tally.same("early before touching", offer(&early, &[0, 8, 5, 5]), refused(21, 2));
    let first = Example {
        jobs: vec![job(&[], &[1], &[], 1), job(&[0], &[2], &[], 1), job(&[1], &[3], &[], 1)],
        atoms: 4,
        opening: 1,
        goals: 0,
        bound: 3,
    };
    let first = first.under_rule_2();
    for start in [0, 1] {
        tally.same("opening facts", offer(&first, &[0, start, OUT]), Ok(()));
        tally.same("seen at 2 first", offer(&first, &[0, OUT, start]), refused(13, 2));
    }
    tally.same("seen at 2", offer(&first, &[0, OUT, 2]), Ok(()));
}

fn test_supports_and_pairs(tally: &mut Tally) {
    let all = jobs_u(&[2, 3, 4], 13);
    check_supports_of_p3(tally, &all, &[0, 7, 4, 4]);
    check_supports_of_p3(tally, &all.under_rule_2(), &[0, 9, 5, 5]);
    test_deleter_between(tally);
    test_deleter_behind(tally);
    test_touching_adder(tally);
    let mut dice = Dice(77);
    let mut releases = Dice(1_977);
    for number in 0..2_000 {
        let example = dice.table_with_goals(7, 7, 4, 30, 2 + number % 4);
        for (_, example) in releases.in_every_way(&example, 20) {
            check_random_pairs(tally, &example);
        }
    }
}

/// Either rule's plan for P3 has the same supports and binding pairs.
fn check_supports_of_p3(tally: &mut Tally, all: &Example, starts: &[u16]) {
    let mut table = vec![9; 64 * 5 + 3];
    tally.same("supports", supports(&all.given(), starts, &mut table), Ok(()));
    let named: Vec<(usize, u8)> =
        table.iter().copied().enumerate().filter(|&(_, by)| by != NO_SUPPORT).collect();
    let expected = vec![
        (0, START),
        (64 + 1, 0),
        (128 + 1, 0),
        (192 + 1, 0),
        (256 + 2, 1),
        (256 + 3, 2),
        (256 + 4, 3),
        (320, 9),
        (321, 9),
        (322, 9),
    ];
    tally.same("named supports", named, expected);
    let mut pairs = vec![9; 560];
    tally.same("pairs", binding_pairs(&all.given(), starts, &mut pairs), Ok(4));
    tally.same("pairs listed", pairs[..10].to_vec(), vec![0, 1, 0, 2, 0, 3, 3, 1, 9, 9]);
}

/// An early adder is no support when a deleter comes in between, and Start is none either.
fn test_deleter_between(tally: &mut Tally) {
    let example = Example {
        jobs: vec![
            job(&[], &[0], &[], 1),
            job(&[], &[1], &[0], 1),
            job(&[], &[0], &[], 1),
            job(&[0], &[2], &[], 1),
        ],
        atoms: 3,
        opening: 1,
        goals: word(&[0, 2]),
        bound: 7,
    };
    for (example, starts) in [(example.under_rule_2(), [0, 2, 4, 6]), (example, [0, 1, 2, 3])] {
        let mut table = vec![0; 320];
        tally.same("deleter between", supports(&example.given(), &starts, &mut table), Ok(()));
        tally.same("support of the job", table[192], 2);
        tally.same("support of End", table[256], 2);
    }
}

/// Start is the support of what a later job deletes, with the gap behind the needer.
fn test_deleter_behind(tally: &mut Tally) {
    let example = Example {
        jobs: vec![job(&[0], &[1], &[], 2), job(&[], &[2], &[0], 1)],
        atoms: 3,
        opening: 1,
        goals: word(&[1, 2]),
        bound: 4,
    };
    let supported = |example: &Example, starts: &[u16]| {
        let mut table = vec![0; 192];
        supports(&example.given(), starts, &mut table).map(|_| table[0])
    };
    tally.same("deleter touching", supported(&example, &[0, 2]), Ok(START));
    tally.same("deleter touching, rule 2", supported(&example.under_rule_2(), &[0, 2]), overlapping(0, 0));
    tally.same("deleter behind, rule 2", supported(&example.under_rule_2(), &[0, 3]), Ok(START));
}

/// Under rule 2 an adder that touches is no support, save of End.
fn test_touching_adder(tally: &mut Tally) {
    let example = Example {
        jobs: vec![job(&[], &[0], &[], 2), job(&[], &[0], &[], 1), job(&[0], &[1], &[], 1)],
        atoms: 2,
        opening: 0,
        goals: word(&[1]),
        bound: 3,
    };
    for (example, support) in [(example.under_rule_2(), 1), (example, 0)] {
        let mut table = vec![9; 552];
        tally.same("touching adder", supports(&example.given(), &[0, 0, 2], &mut table), Ok(()));
        tally.same("support of the job", table[128], support);
        tally.same("support of End at the bound", table[193], 2);
        tally.same("the one pair", binding_pairs(&example.given(), &[0, 0, 2], &mut table), Ok(1));
        tally.same("with the support", [table[0], table[1]], [support, 2]);
    }
}

/// What settling a plan's jobs by its binding pairs is asked with: the set and the pairs.
fn settling_of(problem: &Problem, starts: &[u16]) -> (u64, Vec<u8>) {
    let pairs = pairs_of(problem, starts).into_iter().flat_map(|(a, b)| [a, b]).collect();
    (jobs_in(starts).fold(0, |set, job| set | 1 << job), pairs)
}

/// Every condition has a support, and settling the binding pairs keeps the plan valid and makes nothing later.
fn check_random_pairs(tally: &mut Tally, example: &Example) {
    let Ok(starts) = plan_of(example) else { return };
    let problem = check_bounded_table(&example.given()).expect("random tables pass the checks");
    let mut table = vec![0; 64 * (starts.len() + 1)];
    let _ = supports(&example.given(), &starts, &mut table);
    for (job, &start) in starts.iter().enumerate().filter(|&(_, &start)| start != OUT) {
        let row = &table[64 * job..];
        tally.check("a support", members(problem.jobs[job].conditions).all(|fact| row[fact] != NO_SUPPORT));
        tally.check("not before the estimate", job_estimates(&problem)[job] <= start);
    }
    let (set, pairs) = settling_of(&problem, &starts);
    let mut settled = vec![0; starts.len()];
    let result = settle(&example.given(), set, pairs.len() as u64 / 2, &pairs, &mut settled);
    tally.same("settled", result, Ok(()));
    let no_later = settled.iter().zip(&starts).all(|(least, start)| least <= start);
    tally.check("settled plan", check_plan(&problem, &settled).is_ok() && no_later);
}

/// By hand, then drawn plans, with releases and without, under both rules, against every log.
fn test_following(tally: &mut Tally) {
    test_following_p3(tally);
    test_following_refusals(tally);
    let mut dice = Dice(0x0f01_10e5_f02e_3a11);
    for (tables, jobs, facts) in [(400, 4, 5), (150, 5, 7), (12, 6, 9)] {
        for _ in 0..tables {
            let table = Example { bound: 60, ..dice.table(jobs, facts, 4, 0) };
            for (way, example) in dice.in_every_way(&table, 12) {
                check_drawn_plan(tally, &mut dice, &format!("logs of up to {jobs} jobs{way}"), &example);
            }
        }
    }
}

/// An event, the screen that it gives, or the place of refusal 19.
type Step = ((u8, u8), Result<[u64; 4], u64>);

/// One event after the other, each with the words of the last screen; a refusal hands the words back and shows nothing.
fn check_steps(tally: &mut Tally, what: &str, example: &Example, starts: &[u16], steps: &[Step]) {
    let (mut started, mut finished) = (0, 0);
    for &((event, job), wanted) in steps {
        let found = follow(&example.given(), starts, &Watch { started, finished, event, job });
        let (result, [s, f, facts, may_start]) = match wanted {
            Ok(screen) => (Ok(0), screen),
            Err(place) => (refused(19, place), [started, finished, 0, 0]),
        };
        let screen = Screen { started: s, finished: f, facts, may_start };
        tally.same(&format!("{what}, event {event} of job {job}"), found, (result, screen));
        (started, finished) = (s, f);
    }
}

/// P3 by hand: unpack before all others, wash before drench; drench may be done before warm starts, against the order
/// of the starts. Neither the release of warm nor rule 2 makes a difference.
fn test_following_p3(tally: &mut Tally) {
    let steps: [Step; 20] = [
        ((1, 0), Err(0)),
        ((0, 1), Err(1)),
        ((0, 0), Ok([0b0001, 0b0000, 0b00001, 0b0000])),
        ((0, 0), Err(0)),
        ((0, 3), Err(3)),
        ((1, 0), Ok([0b0001, 0b0001, 0b00010, 0b1100])),
        ((1, 0), Err(0)),
        ((0, 1), Err(1)),
        ((0, 3), Ok([0b1001, 0b0001, 0b00010, 0b0100])),
        ((0, 1), Err(1)),
        ((1, 3), Ok([0b1001, 0b1001, 0b10010, 0b0110])),
        ((2, 1), Err(1)),
        ((0, 1), Ok([0b1011, 0b1001, 0b10010, 0b0100])),
        ((1, 1), Ok([0b1011, 0b1011, 0b10110, 0b0100])),
        ((1, 2), Err(2)),
        ((0, 2), Ok([0b1111, 0b1011, 0b10110, 0b0000])),
        ((0, 4), Err(4)),
        ((255, 2), Err(2)),
        ((1, 2), Ok([0b1111, 0b1111, 0b11110, 0b0000])),
        ((1, 255), Err(255)),
    ];
    let all = jobs_u(&[2, 3, 4], 14);
    check_steps(tally, "P3", &all, &[0, 7, 4, 4], &steps);
    check_steps(tally, "late crate", &all.released(&[0, 0, 6, 0]), &[0, 7, 6, 4], &steps);
    check_steps(tally, "P3 under rule 2", &all.under_rule_2(), &[0, 9, 5, 5], &steps);
    let unwashed: [Step; 5] = [
        ((0, 0), Ok([0b001, 0b000, 0b0001, 0b000])),
        ((1, 0), Ok([0b001, 0b001, 0b0010, 0b110])),
        ((0, 3), Err(3)),
        ((0, 1), Ok([0b011, 0b001, 0b0010, 0b100])),
        ((1, 3), Err(3)),
    ];
    check_steps(tally, "P1", &jobs_u(&[2, 3], 12), &[0, 4, 4, OUT], &unwashed);
    check_steps(tally, "P5", &jobs_u(&[0], 0), &[OUT; 4], &[((0, 0), Err(0)), ((1, 0), Err(0))]);
}

/// The plan is looked at before the words, and they before the event.
fn test_following_refusals(tally: &mut Tally) {
    let all = jobs_u(&[2, 3, 4], 12);
    let told = |starts: &[u16], started, finished| {
        let (result, screen) = follow(&all.given(), starts, &Watch { started, finished, event: 7, job: 9 });
        (result, screen == Screen { started, finished, facts: 0, may_start: 0 })
    };
    let plan = [0, 7, 4, 4];
    tally.same("an event that is none", told(&plan, 1, 1), (refused(19, 9), true));
    tally.same("words before the event", told(&plan, 2, 0), (refused(19, 65_535), true));
    tally.same("finished without a start", told(&plan, 1, 3), (refused(19, 65_535), true));
    tally.same("drench before wash", told(&plan, 0b1011, 1), (refused(19, 65_535), true));
    for bit in 4..64 {
        for (started, finished) in [(1 | 1 << bit, 1), (1, 1 | 1 << bit), (1 | 1 << bit, 1 | 1 << bit)] {
            tally.same("a bit beyond the table", told(&plan, started, finished), (refused(19, 65_535), true));
        }
    }
    tally.same("short starts", told(&plan[..3], 2, 0), (refused(3, 0), true));
    tally.same("a late end", told(&[0, 7, 5, 4], 2, 0), (refused(11, 2), true));
    tally.same("an overlap", told(&[0, 6, 4, 4], 2, 0), (overlapping(1, 2), true));
    tally.same("a condition", told(&[0, 7, 3, 4], 2, 0), (refused(13, 2), true));
    tally.same("a goal", told(&[0, 4, 4, 6], 2, 0), (refused(14, 2), true));
}

/// A drawn plan, and its table with goals that are some of the facts that it leads to.
fn drawn_plan(dice: &mut Dice, example: &Example) -> (Example, Vec<u16>) {
    let table = check_bounded_table(&example.given()).expect("random tables pass the checks");
    let starts = dice.plan(&table);
    let goals = facts_at(&table, &starts, table.bound as u32) & dice.next();
    (Example { goals, ..example.clone() }, starts)
}

/// A drawn plan, followed through every log.
fn check_drawn_plan(tally: &mut Tally, dice: &mut Dice, what: &str, example: &Example) {
    let (example, starts) = drawn_plan(dice, example);
    let problem = check_bounded_table(&example.given()).expect("random tables pass the checks");
    tally.same(what, check_plan(&problem, &starts), Ok(()));
    let worked = Worked::new(problem, &starts);
    tally.check(&format!("{what}: the binding pairs"), worked.pairs == pairs_of(&problem, &starts));
    let logs = brute::every_log(&worked);
    for alike in logs.values() {
        tally.same(&format!("{what}: facts of all logs with the same words"), alike.len(), 1);
        for (&facts, log) in alike {
            check_moment(tally, what, &worked, log, facts);
            check_events(tally, what, &worked, log);
        }
    }
    check_words(tally, dice, what, &worked, &logs);
}

/// After a log the jobs that run have their conditions, and an event may come as long as a job of the plan has not
/// finished; when all have, the facts are those that the plan has at the bound.
fn check_moment(tally: &mut Tally, what: &str, worked: &Worked, log: &[Event], facts: u64) {
    let (started, finished) = brute::words_of(log);
    let kept = members(started & !finished).all(|job| worked.problem.jobs[job].conditions & !facts == 0);
    tally.check(&format!("{what}: conditions hold from start to finish"), kept);
    let goes_on = !brute::next_events(worked, log).is_empty();
    let done = |(job, &start): (usize, &u16)| start == OUT || finished >> job & 1 == 1;
    let all_done = worked.starts.iter().enumerate().all(done);
    tally.check(&format!("{what}: an event may come while jobs are left"), goes_on != all_done);
    if all_done {
        let planned = facts_at(&worked.problem, worked.starts, worked.problem.bound as u32);
        tally.same(&format!("{what}: facts at the end"), facts, planned);
    }
}

/// After a log each event of each job, and what is no event or no job: allowed and shown as the log itself says.
fn check_events(tally: &mut Tally, what: &str, worked: &Worked, log: &[Event]) {
    let (started, finished) = brute::words_of(log);
    for job in (0..=worked.starts.len() as u8).chain([63, 64, 65, 255]) {
        for event in [0, 1, 2, 255] {
            let found = worked.after(&Watch { started, finished, event, job });
            let right = found == screen_by_log(worked, log, event, job);
            tally.check(&format!("{what}: event {event} of job {job} after {log:?}: {found:?}"), right);
        }
    }
}

/// The screen, or the refusal, that an event after a log must give.
fn screen_by_log(worked: &Worked, log: &[Event], event: u8, job: u8) -> Result<Screen, Refusal> {
    let events = [Event::Start(job as usize), Event::Finish(job as usize)];
    let log = match events.get(event as usize) {
        Some(&event) if brute::may_come(worked, log, event) => [log, &[event]].concat(),
        _ => return refused(19, job as u64),
    };
    let (started, finished) = brute::words_of(&log);
    let starting = (0..worked.starts.len()).filter(|&job| brute::may_come(worked, &log, Event::Start(job)));
    let may_start = starting.fold(0, |word, job| word | 1 << job);
    Ok(Screen { started, finished, facts: brute::facts_after(worked, &log), may_start })
}

/// Every two words over the jobs are taken exactly where some log has them, and with a bit beyond the jobs none are.
fn check_words(tally: &mut Tally, dice: &mut Dice, what: &str, worked: &Worked, logs: &brute::Logs) {
    let jobs = worked.starts.len() as u64;
    let taken = |started, finished| {
        worked.after(&Watch { started, finished, event: 9, job: 9 }) != refused(19, 65_535)
    };
    for words in 0..1 << (2 * jobs) {
        let (started, finished) = (words >> jobs, words & ((1 << jobs) - 1));
        let right = taken(started, finished) == logs.contains_key(&(started, finished));
        tally.check(&format!("{what}: words {started:b} and {finished:b}"), right);
    }
    for &(started, finished) in logs.keys() {
        let beyond = 1 << (jobs + dice.below(64 - jobs));
        for (one, other) in [(beyond, 0), (0, beyond), (beyond, beyond)] {
            tally.check(&format!("{what}: bit {beyond:x}"), !taken(started | one, finished | other));
        }
    }
}

fn test_estimates(tally: &mut Tally) {
    let estimated = |example: &Example| {
        let mut table = vec![5; example.jobs.len() + 1];
        estimates(&example.given(), &mut table).map(|_| table)
    };
    tally.same("estimates", estimated(&jobs_u(&[], 9_999)), Ok(vec![0, 4, 4, 4, 5]));
    let example = Example {
        jobs: vec![
            job(&[1], &[2], &[], 960),
            job(&[2], &[1], &[], 1),
            job(&[0, 3], &[1], &[], 7),
            job(&[], &[3], &[], 9),
        ],
        atoms: 4,
        opening: 1,
        goals: 0,
        bound: 0,
    };
    tally.same("estimates in a ring", estimated(&example), Ok(vec![16, 976, 9, 0, 5]));
    let ring = Example { opening: 0, ..example.clone() };
    tally.same("never", estimated(&ring), Ok(vec![OUT, OUT, OUT, 0, 5]));
    let late = jobs_u(&[], 9_999).released(&[0, 0, 6, 0]);
    tally.same("estimates of the late crate", estimated(&late), Ok(vec![0, 4, 6, 4, 5]));
    let releases = [0, 2_000, 9, 10];
    let both = estimated(&example.released(&releases));
    tally.same("the greater of both", both, Ok(vec![26, 2_000, 19, 10, 5]));
    tally.same("released, never", estimated(&ring.released(&releases)), Ok(vec![OUT, OUT, OUT, 10, 5]));
    let hygiene = jobs_u(&[], 9_999).under_rule_2();
    tally.same("estimates under rule 2", estimated(&hygiene), Ok(vec![0, 5, 5, 5, 5]));
    let ring_2 = estimated(&example.under_rule_2());
    tally.same("no gap at an open condition", ring_2, Ok(vec![18, 979, 10, 0, 5]));
    tally.same("never, with a gap", estimated(&ring.under_rule_2()), Ok(vec![OUT, OUT, OUT, 0, 5]));
    let both = estimated(&example.released(&releases).under_rule_2());
    tally.same("the greater of both, rule 2", both, Ok(vec![28, 2_000, 20, 10, 5]));
    let latest = chain(24, false).released(&[2_880; 24]);
    tally.same("as late as can be", estimated(&latest), Ok(late_chain(0)));
    tally.same("later with gaps", estimated(&latest.under_rule_2()), Ok(late_chain(1)));
    test_estimates_against_start_vectors(tally);
}

/// The estimates of a chain of 24 whose jobs are all released at 2,880.
fn late_chain(gap: u16) -> Vec<u16> {
    let jobs = chain(24, false).jobs;
    let sums = jobs.iter().scan(2_880, |start, job| {
        *start += job.duration + gap;
        Some(*start - job.duration - gap)
    });
    sums.chain([5]).collect()
}

/// Without deletions a job's estimate is the earliest start that any plan gives it.
fn test_estimates_against_start_vectors(tally: &mut Tally) {
    let mut dice = Dice(0x6e57_1a7e_0b0e_0a1d);
    for _ in 0..1_500 {
        let mut example = dice.table(4, 5, 3, 9);
        example.jobs.iter_mut().for_each(|job| job.deletions = 0);
        for (way, example) in dice.in_every_way(&example, 6) {
            let problem = check_bounded_table(&example.given()).expect("random tables pass the checks");
            let mut found = job_estimates(&problem);
            // What ends after the bound is in no vector.
            for (estimate, job) in found.iter_mut().zip(problem.jobs) {
                if *estimate != OUT && *estimate + job.duration > problem.bound {
                    *estimate = OUT;
                }
            }
            let what = format!("estimates by start vectors{way}");
            tally.same(&what, found, brute::earliest_starts(&problem));
        }
    }
}

fn test_settling(tally: &mut Tally) {
    let settled = |set, pairs: &[u8], bound| {
        let example = jobs_u(&[], bound);
        let mut table = vec![8; 5];
        settle(&example.given(), set, pairs.len() as u64 / 2, pairs, &mut table).map(|_| table)
    };
    tally.same("settled", settled(0b1011, &[0, 1, 1, 3], 9), Ok(vec![0, 4, OUT, 6, 8]));
    tally.same("no room", settled(0b1011, &[0, 1, 1, 3], 8), refused(16, 0));
    tally.same("nothing asked", settled(0, &[], 0), Ok(vec![OUT, OUT, OUT, OUT, 8]));
    tally.same("itself", settled(0b1011, &[1, 1], 2_880), refused(16, 0));
    tally.same("ring", settled(0b1011, &[1, 3, 3, 1], 2_880), refused(16, 0));
    tally.same("itself outside", settled(0b1011, &[0, 1, 2, 2], 2_880), refused(15, 1));
    tally.same("no such job in a pair", settled(0b1011, &[0, 200], 2_880), refused(15, 0));
    tally.same("no such job in the set", settled(1 << 63, &[0; 1_202], 2_880), refused(15, 601));
    tally.same("601 pairs", settled(1, &[9; 1_202], 2_880), refused(15, 600));
    tally.same("600 pairs", settled(0b11, &[0, 1].repeat(600), 2_880), Ok(vec![0, 4, OUT, OUT, 8]));
    tally.same("bound", settled(1 << 63, &[], 2_881), refused(9, 0));
    let short = settle(&jobs_u(&[], 9).given(), 1, 2, &[0, 1, 0], &mut [0; 4]);
    tally.same("short pairs", short, refused(3, 0));
    let endless = settle(&jobs_u(&[], 9).given(), 1, u64::MAX, &[0, 1, 0], &mut [0; 4]);
    tally.same("more pairs than bytes", endless, refused(3, 0));
    test_settling_released(tally);
    test_settling_against_start_vectors(tally);
}

/// A job of the set starts at its release or behind a first job, whichever is later; rule 2 adds the gap to each pair.
fn test_settling_released(tally: &mut Tally) {
    let settled = |example: &Example, bound| {
        let example = Example { bound, ..example.clone() };
        let mut table = vec![8; 5];
        settle(&example.given(), 0b1011, 3, &[0, 1, 1, 3, 0, 1], &mut table).map(|_| table)
    };
    let plain = jobs_u(&[], 0);
    let late = plain.released(&[2, 5, 2_880, 9]);
    tally.same("settled from releases", settled(&late, 12), Ok(vec![2, 6, OUT, 9, 8]));
    tally.same("no room behind a release", settled(&late, 11), refused(16, 0));
    tally.same("settled with gaps", settled(&plain.under_rule_2(), 11), Ok(vec![0, 5, OUT, 8, 8]));
    tally.same("no room for gaps", settled(&plain.under_rule_2(), 10), refused(16, 0));
    tally.same("gaps and releases", settled(&late.under_rule_2(), 13), Ok(vec![2, 7, OUT, 10, 8]));
}

/// Few jobs, few pairs, circles among them, every other table under rule 2.
fn test_settling_against_start_vectors(tally: &mut Tally) {
    let mut dice = Dice(0x05e7_71e5_7a27_5011);
    for number in 0..4_000 {
        let example = dice.table(4, 3, 3, 9);
        let example = dice.with_releases(&example, 6);
        let example = if number % 2 == 0 { example } else { example.under_rule_2() };
        let problem = check_bounded_table(&example.given()).expect("random tables pass the checks");
        let set = dice.next() & ((1 << problem.jobs.len()) - 1);
        let inside: Vec<usize> = members(set).collect();
        let pairs: Vec<u8> = match inside.len() as u64 {
            0 => vec![],
            jobs => (0..2 * dice.below(4)).map(|_| inside[dice.below(jobs) as usize] as u8).collect(),
        };
        let mut table = vec![7; problem.jobs.len()];
        let found = settle(&example.given(), set, pairs.len() as u64 / 2, &pairs, &mut table).map(|_| table);
        let expected = brute::settled(&problem, set, &pairs).map_or(refused(16, 0), Ok);
        tally.same("settled by start vectors", found, expected);
    }
}

/// A settling, of which starts are to be explained.
struct Settling {
    example: Example,
    set: u64,
    pairs: Vec<u8>,
}

impl Settling {
    /// The job's chain must be this, or the refusal; what it does not fill stays as it was.
    fn check(&self, tally: &mut Tally, what: &str, job: u8, wanted: Result<&[u8], Refusal>) {
        let mut table = vec![99; self.example.jobs.len() + 1];
        let pair_count = self.pairs.len() as u64 / 2;
        let found = why_start(&self.example.given(), self.set, pair_count, &self.pairs, job, &mut table);
        let mut expected = wanted.unwrap_or_default().to_vec();
        expected.resize(table.len(), 99);
        let wanted = (wanted.map(|chain| chain.len() as u64), expected);
        tally.same(&format!("{what}, job {job}"), (found, table), wanted);
    }
}

fn test_why_start(tally: &mut Tally) {
    test_chains_of_p3(tally);
    test_lowest_that_fits(tally);
    test_why_start_refusals(tally);
    test_chains_by_sequences(tally);
    test_chains_of_many_jobs(tally);
}

/// The binding pairs of P3: drench waits for wash, which waits for unpack. A release that a job starts at ends its chain.
fn test_chains_of_p3(tally: &mut Tally) {
    let mut check = |what: &str, example: Example, job: u8, chain: &[u8]| {
        let pairs = vec![0, 1, 0, 2, 0, 3, 3, 1];
        Settling { example, set: 0b1111, pairs }.check(tally, what, job, Ok(chain));
    };
    let plain = jobs_u(&[], 20);
    for (example, over) in [(plain.clone(), 7), (plain.under_rule_2(), 9)] {
        for (job, chain) in [(0, &[0][..]), (1, &[0, 3, 1]), (2, &[0, 2]), (3, &[0, 3])] {
            check("P3", example.clone(), job, chain);
        }
        let late = example.released(&[0, 0, 6, 0]);
        check("late crate", late.clone(), 2, &[2]);
        check("beside the late crate", late, 1, &[0, 3, 1]);
        check("released sooner", example.released(&[0, over - 1]), 1, &[0, 3, 1]);
        check("released when wash is over", example.released(&[0, over]), 1, &[1]);
        check("released later", example.released(&[0, over + 1]), 1, &[1]);
        check("unpack released", example.released(&[5]), 1, &[0, 3, 1]);
    }
    check("released when unpack is over", plain.released(&[0, 0, 0, 4]), 1, &[3, 1]);
    check("the same under rule 2", plain.released(&[0, 0, 0, 4]).under_rule_2(), 1, &[0, 3, 1]);
    check("with the gap", plain.released(&[0, 0, 0, 5]).under_rule_2(), 1, &[3, 1]);
}

/// Of several that fit the lowest job is named, in whatever order the pairs are asked and however often.
fn test_lowest_that_fits(tally: &mut Tally) {
    let jobs = [2, 3, 3, 1, 3].map(|duration| job(&[], &[0], &[], duration)).to_vec();
    let example = Example { jobs, atoms: 1, opening: 0, goals: 0, bound: 9 };
    for (pairs, chain) in [
        (vec![2, 3, 1, 3, 0, 3], &[1, 3][..]),
        (vec![4, 3, 2, 3, 4, 3, 2, 3], &[2, 3]),
        (vec![0, 3], &[0, 3]),
        (vec![0, 3, 4, 3, 4, 1], &[4, 3]),
        (vec![0, 3, 3, 0], &[]),
    ] {
        let wanted = if chain.is_empty() { refused(16, 0) } else { Ok(chain) };
        Settling { example: example.clone(), set: 0b11111, pairs }.check(tally, "several", 3, wanted);
    }
}

/// The set is looked at for the job last of all.
fn test_why_start_refusals(tally: &mut Tally) {
    let asked =
        |bound, set, pairs: &[u8]| Settling { example: jobs_u(&[], bound), set, pairs: pairs.to_vec() };
    for job in [2, 4, 23, 24, 63, 64, 65, 255] {
        asked(9, 0b1011, &[0, 1]).check(tally, "not in the set", job, refused(27, job as u64));
    }
    for job in [0, 3, 64, 255] {
        asked(0, 0, &[]).check(tally, "nothing in the set", job, refused(27, job as u64));
    }
    asked(9, 0b1011, &[0, 1]).check(tally, "in no pair", 3, Ok(&[3]));
    asked(5, 0b1011, &[0, 1]).check(tally, "16 before 27", 2, refused(16, 0));
    asked(5, 0b1011, &[0, 1, 0, 2]).check(tally, "15 before 16", 2, refused(15, 1));
    asked(5, 0b11011, &[0, 2]).check(tally, "15, the set", 2, refused(15, 601));
    asked(5, 0b1011, &[2; 1_202]).check(tally, "15, 601 pairs", 2, refused(15, 600));
    asked(9, 0b1011, &[0, 1].repeat(600)).check(tally, "600 pairs", 1, Ok(&[0, 1]));
    asked(2_881, 1 << 63, &[]).check(tally, "9 before 15", 2, refused(9, 0));
    let late = jobs_u(&[], 2_881);
    let lent = |pair_count, table: &mut [u8]| why_start(&late.given(), 1, pair_count, &[0, 1, 0], 9, table);
    tally.same("short chain", lent(1, &mut [0; 3]), refused(3, 0));
    tally.same("short pairs", lent(2, &mut [0; 4]), refused(3, 0));
    tally.same("more pairs than bytes", lent(u64::MAX, &mut [0; 4]), refused(3, 0));
}

/// Pairs of jobs in a drawn order, so that none go in a circle.
fn rising_pairs(dice: &mut Dice, inside: &[usize], count: u64) -> Vec<u8> {
    let mut order: Vec<u8> = inside.iter().map(|&job| job as u8).collect();
    for place in (1..order.len()).rev() {
        order.swap(place, dice.below(place as u64 + 1) as usize);
    }
    let pair = |_| {
        let (one, other) = (dice.below(order.len() as u64) as usize, dice.below(order.len() as u64) as usize);
        (one != other).then(|| [order[one.min(other)], order[one.max(other)]])
    };
    (0..count).filter_map(pair).flatten().collect()
}

/// Of all sequences of jobs of the set exactly one explains each start, where the starts are found by start vectors.
fn test_chains_by_sequences(tally: &mut Tally) {
    let mut dice = Dice(0x0c4a_1250_f7e4_5011);
    for number in 0..6_000 {
        let (jobs, bound) = if number % 4 < 2 { (5, 8) } else { (4, 9) };
        let example = Example { bound, ..dice.table(jobs, 3, 2, 0) };
        let example = if number % 3 == 0 { example } else { dice.with_releases(&example, 5) };
        let example = if number % 2 == 0 { example } else { example.under_rule_2() };
        let count = example.jobs.len() as u64;
        let set = (dice.next() | dice.next() | dice.next()) & ((1 << count) - 1);
        let inside: Vec<usize> = members(set).collect();
        let asked = if set == 0 { 0 } else { dice.below(3 * count) };
        let pairs = rising_pairs(&mut dice, &inside, asked);
        check_by_sequences(tally, &Settling { example, set, pairs }, &inside);
    }
}

fn check_by_sequences(tally: &mut Tally, settling: &Settling, inside: &[usize]) {
    let problem = check_bounded_table(&settling.example.given()).expect("random tables pass the checks");
    let starts = brute::settled(&problem, settling.set, &settling.pairs);
    let explaining: Vec<Vec<usize>> = match &starts {
        Some(starts) => brute::sequences(inside)
            .into_iter()
            .filter(|sequence| brute::explains(&problem, starts, &settling.pairs, sequence))
            .collect(),
        None => vec![],
    };
    for job in (0..=problem.jobs.len()).chain([63, 64, 255]) {
        let of_job: Vec<&Vec<usize>> = explaining.iter().filter(|chain| chain.last() == Some(&job)).collect();
        let explained = (starts.is_some() && inside.contains(&job)) as usize;
        tally.same("sequences that explain a start", of_job.len(), explained);
        let chain: Vec<u8> = of_job.iter().flat_map(|chain| chain.iter().map(|&job| job as u8)).collect();
        let wanted = match starts {
            None => refused(16, 0),
            Some(_) if chain.is_empty() => refused(27, job as u64),
            Some(_) => Ok(&chain[..]),
        };
        settling.check(tally, "chain by sequences", job as u8, wanted);
    }
}

/// Of up to 24 jobs with many pairs, some released just when they start anyway, each chain explains its job's start.
fn test_chains_of_many_jobs(tally: &mut Tally) {
    let mut dice = Dice(0x0024_c4a1_25a1_1e01);
    for number in 0..600 {
        let example = Example { bound: 2_880, ..dice.table(24, 9, 1 + number % 3, 0) };
        let example = dice.with_releases(&example, number % 20);
        let example = if number % 2 == 0 { example } else { example.under_rule_2() };
        let inside: Vec<usize> = (0..example.jobs.len()).collect();
        let pairs = rising_pairs(&mut dice, &inside, if inside.is_empty() { 0 } else { 20 + number % 60 });
        let set = (1 << inside.len()) - 1;
        let mut starts = vec![0; inside.len()];
        let result = settle(&example.given(), set, pairs.len() as u64 / 2, &pairs, &mut starts);
        tally.same("many jobs settled", result, Ok(()));
        let late = example.jobs.iter().zip(&starts);
        let releases: Vec<u16> =
            late.map(|(job, &start)| if dice.below(6) == 0 { start } else { job.release }).collect();
        check_explained(tally, &Settling { example: example.released(&releases), set, pairs }, &starts);
    }
}

/// The chains of all jobs, looked at place by place.
fn check_explained(tally: &mut Tally, settling: &Settling, starts: &[u16]) {
    let given = settling.example.given();
    let problem = check_bounded_table(&given).expect("random tables pass the checks");
    for job in 0..starts.len() {
        let mut table = vec![99; starts.len()];
        let pair_count = settling.pairs.len() as u64 / 2;
        let count = why_start(&given, settling.set, pair_count, &settling.pairs, job as u8, &mut table);
        let filled = &table[..count.unwrap_or(0) as usize];
        let chain: Vec<usize> = filled.iter().map(|&job| job as usize).collect();
        let explains = brute::explains(&problem, starts, &settling.pairs, &chain);
        tally.check("a chain of many jobs", explains && chain.last() == Some(&job));
        tally.check("the bytes behind it", table[chain.len()..].iter().all(|&byte| byte == 99));
    }
}

fn test_why_no_plan(tally: &mut Tally) {
    test_reasons(tally);
    test_lowest_goals(tally);
    test_reason_refusals(tally);
    test_reasons_against_start_vectors(tally);
    test_reasons_by_quarter_hours(tally);
}

/// The cases of the rules: what a goal costs by the estimates, and tables without a plan of which they say nothing.
fn test_reasons(tally: &mut Tally) {
    let mut same = |what: &str, example: &Example, wanted: Reason| {
        tally.same(what, why_no_plan(&example.given()), Ok(wanted));
    };
    same("P1", &jobs_u(&[2, 3], 12), Reason::Neither);
    same("P2", &jobs_u(&[2, 3], 11), Reason::TooDear(3));
    same("P1 under rule 2", &jobs_u(&[2, 3], 13).under_rule_2(), Reason::Neither);
    same("P2 under rule 2", &jobs_u(&[2, 3], 12).under_rule_2(), Reason::TooDear(3));
    same("P5", &jobs_u(&[0], 0), Reason::Neither);
    same("P6", &jobs_u(&[0, 1], 2_880), Reason::Neither);
    let mut none = Example { jobs: vec![], atoms: 2, opening: 1, goals: 0, bound: 0 };
    same("P7", &none, Reason::Neither);
    none.goals = word(&[1]);
    same("P7 with a goal", &none, Reason::Never(1));
    same("P8", &go_twice(), Reason::Neither);
    let late = jobs_u(&[2, 3, 4], 13).released(&[0, 0, 6, 0]);
    same("late crate", &late, Reason::TooDear(3));
    same("late crate in time", &Example { bound: 14, ..late }, Reason::Neither);
    // The goal sees a finish at the bound, so there is no gap behind the job that adds it.
    same("one job under rule 2", &jobs_u(&[1], 4).under_rule_2(), Reason::Neither);
    same("one job too long under rule 2", &jobs_u(&[1], 3).under_rule_2(), Reason::TooDear(1));
    same("from nothing", &Example { opening: 0, ..jobs_u(&[1, 3], 0) }, Reason::Never(1));
    let longest = chain(24, false).released(&[2_880; 24]);
    same("as dear as can be", &longest, Reason::TooDear(24));
    same("a link missing", &Example { opening: 0, ..longest }, Reason::Never(24));
}

/// Four goals, each open, in time, just in time, too dear or never reachable, in every way; the first and the last fact
/// are two of them.
fn test_lowest_goals(tally: &mut Tally) {
    let goals = [0, 5, 40, 63];
    for ways in 0..5u32.pow(4) {
        let way = |place: usize| ways / 5u32.pow(place as u32) % 5;
        let adding = (0..4).filter(|&place| way(place) != 0).map(|place| match way(place) {
            4 => job(&[1], &[goals[place]], &[], 1),
            way => job(&[], &[goals[place]], &[], 5 + way as u16),
        });
        let open = (0..4).filter(|&place| way(place) == 0).fold(0, |open, place| open | 1 << goals[place]);
        let example =
            Example { jobs: adding.collect(), atoms: 64, opening: open, goals: word(&goals), bound: 7 };
        let lowest = |wanted| (0..4).find(|&place| way(place) == wanted).map(|place| goals[place] as usize);
        let named = lowest(4).map(Reason::Never).or(lowest(3).map(Reason::TooDear));
        let wanted = named.unwrap_or(Reason::Neither);
        tally.same("four goals", why_no_plan(&example.given()), Ok(wanted));
        tally.same("four goals, rule 2", why_no_plan(&example.under_rule_2().given()), Ok(wanted));
    }
}

/// What is refused is what planning refuses.
fn test_reason_refusals(tally: &mut Tally) {
    let good = jobs_u(&[2, 3], 11);
    let mut spoilt = vec![Example { bound: 2_881, ..good.clone() }, good.released(&[0, 2_881])];
    spoilt.push(Example { atoms: 0, bound: 2_881, ..good.clone() });
    spoilt.push(Example { goals: 1 << 5, bound: 2_881, ..good.clone() });
    spoilt.push(Example { jobs: vec![good.jobs[0]; 25], bound: 2_881, ..good.clone() });
    spoilt.push(Example { jobs: vec![job(&[], &[1], &[1], 1)], bound: 2_881, ..good.clone() });
    spoilt.push(Example { jobs: vec![job(&[], &[], &[], 0)], bound: 2_881, ..good.clone() });
    for (example, number) in spoilt.iter().zip([9, 20, 4, 7, 5, 8, 6]) {
        let found = why_no_plan(&example.given()).map(|_| ());
        tally.same("refused as in planning", found, plan_of(example).map(|_| ()));
        tally.same("its number", found.map_err(|refusal| refusal.number), Err(number));
    }
    let short = Given { count: 5, ..good.given() };
    tally.same("short records", why_no_plan(&short), refused(3, 0));
}

/// Where a goal is named no start vector is a plan; where it is never reachable, no order of jobs gives one by 40, when
/// all that can come has come.
fn test_reasons_against_start_vectors(tally: &mut Tally) {
    let mut dice = Dice(0x0afe_a50f_0a91_a271);
    let mut met = [0; 3];
    for number in 0..4_000 {
        let example = match number % 2 {
            0 => dice.table(4, 5, 3, 9),
            _ => dice.table_with_goals(4, 5, 3, 9, 1 + number % 3),
        };
        for (way, example) in dice.in_every_way(&example, 6) {
            let problem = check_bounded_table(&example.given()).expect("random tables pass the checks");
            let (found, what) = (reason(&problem), format!("reasons by start vectors{way}"));
            tally.same(&what, found, brute::reason(&problem));
            let longer = Problem { bound: 40, ..problem };
            let (kind, planned) = match found {
                Reason::Never(_) => (0, brute::first_plan_by_orders(&longer)),
                Reason::TooDear(_) => (1, brute::first_plan(&problem)),
                Reason::Neither => (2, None),
            };
            met[kind] += 1;
            tally.same(&what, planned, None);
        }
    }
    tally.check(&format!("reasons of each kind: {met:?}"), met.iter().all(|&count| count > 1_000));
}

/// Larger tables at the bounds around what their goals cost, counted by quarter hours.
fn test_reasons_by_quarter_hours(tally: &mut Tally) {
    let mut dice = Dice(0x9a27_e240_0725_0c05);
    for number in 0..120 {
        let example = match number % 2 {
            0 => dice.table(24, 12, 40, 0),
            _ => dice.table_with_goals(24, 20, 60, 0, 3),
        };
        for (way, example) in dice.in_every_way(&example, 300) {
            let problem = check_bounded_table(&example.given()).expect("random tables pass the checks");
            let times = brute::first_times(&problem);
            let costs = members(problem.goals).filter_map(|goal| times[goal]);
            let bounds = costs.flat_map(|cost| [cost.saturating_sub(1), cost]);
            for bound in bounds.filter(|&bound| bound <= 2_880) {
                let problem = Problem { bound: bound as u16, ..problem };
                let what = format!("reasons by quarter hours{way}");
                tally.same(&what, reason(&problem), brute::reason(&problem));
            }
        }
    }
}

fn test_how_late(tally: &mut Tally) {
    test_lateness_of_p3(tally);
    test_lateness_of_chains(tally);
    test_lateness_of_nothing(tally);
    test_lateness_refusals(tally);
    test_lateness_by_sequences(tally);
    test_lateness_of_many_jobs(tally);
}

fn late(example: &Example, starts: &[u16], most: u16) -> Result<u64, Refusal> {
    how_late(&example.given(), starts, most)
}

/// When the last job of a plan is finished that starts so.
fn last_end(example: &Example, starts: &[u16]) -> u64 {
    jobs_in(starts).map(|job| finish(&example.jobs[job], starts[job]) as u64).max().unwrap_or(0)
}

/// The numbers of change request Twelve. By rule 2 and with warm released at 6 the longest chain is the same, unpack,
/// wash and drench, and the plans are those of the least bounds, as early as can be.
fn test_lateness_of_p3(tally: &mut Tally) {
    let all = jobs_u(&[2, 3, 4], 12);
    for (most, sum) in [(0, 12), (1, 15), (96, 300)] {
        tally.same("P3, how late", late(&all, &[0, 7, 4, 4], most), Ok(sum));
    }
    let released = all.released(&[0, 0, 6, 0]);
    for example in [all.clone(), all.under_rule_2(), released.clone(), released.under_rule_2()] {
        let example = Example { bound: 2_880, ..example };
        let (least, starts) = least_of(&example).expect("P3 has a plan");
        for most in 0..=96 {
            let sum = least as u64 + 3 * most as u64;
            tally.same("P3 at its least bound", late(&example, &starts, most), Ok(sum));
        }
    }
}

/// Jobs one behind the other, each bound to the one before alone: the run in which each goes over as far as it may is
/// finished just at the sum. How much later the plan itself starts its jobs makes no difference.
fn test_lateness_of_chains(tally: &mut Tally) {
    for (length, deleting) in (1..=24).flat_map(|length| [(length, false), (length, true)]) {
        let plain = chain(length, deleting).released(&[5]);
        for (example, gap) in [(plain.under_rule_2(), 1), (plain, 0)] {
            let mut end = 5 - gap;
            let place = |job: &Job| {
                end += gap + job.duration;
                end - job.duration
            };
            let starts: Vec<u16> = example.jobs.iter().map(place).collect();
            let later: Vec<u16> = starts.iter().zip(0..).map(|(&start, place)| start + 3 * place).collect();
            for most in [0, 1, 50, 96] {
                let sum = end as u64 + length * most as u64;
                tally.same("a chain, how late", late(&example, &starts, most), Ok(sum));
                tally.same("a chain with slack", late(&example, &later, most), Ok(sum));
                let given = example.given();
                let worked = overrunning(&given, &later, most).expect("the plan is valid");
                let run = last_finish(&worked, &vec![most; starts.len()]);
                tally.same("each job over as far as it may", run as u64, sum);
            }
        }
    }
}

/// The empty plan is finished at 0, whatever might run over.
fn test_lateness_of_nothing(tally: &mut Tally) {
    let none = Example { jobs: vec![], atoms: 2, opening: 1, goals: 0, bound: 9 };
    for most in 0..=96 {
        tally.same("all jobs out", late(&jobs_u(&[0], 9).released(&[7; 4]), &[OUT; 4], most), Ok(0));
        tally.same("no jobs", late(&none.under_rule_2(), &[], most), Ok(0));
    }
    tally.same("no jobs, 97", late(&none, &[], 97), refused(34, 0));
}

/// The plan is looked at before the overrun.
fn test_lateness_refusals(tally: &mut Tally) {
    let good = jobs_u(&[2, 3, 4], 12);
    let plan = [0, 7, 4, 4];
    let mut spoilt: Vec<(u64, Example, [u16; 4])> = vec![(9, Example { bound: 2_881, ..good.clone() }, plan)];
    spoilt.push((4, Example { atoms: 65, ..good.clone() }, plan));
    spoilt.push((7, Example { opening: 1 << 5, ..good.clone() }, plan));
    spoilt.push((20, good.released(&[0, 2_881]), plan));
    spoilt.push((11, Example { bound: 11, ..good.clone() }, plan));
    spoilt.push((21, good.released(&[0, 8]), plan));
    spoilt.push((12, good.clone(), [0, 6, 4, 4]));
    spoilt.push((12, good.under_rule_2(), plan));
    spoilt.push((13, good.clone(), [0, 7, 3, 4]));
    spoilt.push((14, good.clone(), [0, OUT, 4, 4]));
    let warm = good.jobs[2];
    let both_ways = Job { deletions: warm.additions, ..warm };
    for (number, job) in [(6, Job { duration: 961, ..both_ways }), (8, both_ways)] {
        let jobs = [&good.jobs[..2], &[job], &good.jobs[3..]].concat();
        spoilt.push((number, Example { jobs, ..good.clone() }, plan));
    }
    for most in [0, 1, 96, 97, 255, 256, 65_535] {
        for (number, example, starts) in &spoilt {
            let found = late(example, starts, most).map(|_| ());
            tally.same("refused as an offered plan", found, offer(example, starts));
            tally.same("its number", found.map_err(|refusal| refusal.number), Err(*number));
        }
        tally.same("short starts", late(&good, &plan[..3], most), refused(3, 0));
        let many = Example { jobs: vec![good.jobs[1]; 25], ..good.clone() };
        tally.same("25 jobs", late(&many, &[OUT; 25], most), refused(5, 0));
    }
    for most in [97, 98, 128, 255, 256, 352, 65_535] {
        tally.same("over 96", late(&good, &plan, most), refused(34, 0));
    }
}

/// When all is finished at the least starts of these jobs that keep these pairs.
fn settled_end(example: &Example, set: u64, pairs: &[u8]) -> Result<u64, Refusal> {
    let mut starts = vec![0; example.jobs.len()];
    let result = settle(&example.given(), set, pairs.len() as u64 / 2, pairs, &mut starts);
    result.map(|_| last_end(example, &starts))
}

/// Drawn plans of few jobs, with longest chains of none to four jobs and more.
fn test_lateness_by_sequences(tally: &mut Tally) {
    let mut dice = Dice(0x12e1_a7e5_0f5e_9e0c);
    let mut met = [0; 5];
    for number in 0..500 {
        let (jobs, bound) = if number % 4 == 0 { (5, 9) } else { (4, 12) };
        let table = Example { bound, ..dice.table_with_goals(jobs, 6, 2, 0, 2 + number % 3) };
        for (way, example) in dice.in_every_way(&table, 5) {
            let (example, starts) = drawn_plan(&mut dice, &example);
            let what = format!("how late by sequences{way}");
            met[check_by_longest(tally, &mut dice, &what, &example, &starts).min(4)] += 1;
        }
    }
    tally.check(&format!("longest chains of 0 to 4 jobs: {met:?}"), met.iter().all(|&count| count > 20));
}

/// The settled finish is found by start vectors and by settling, the longest chain among all sequences of jobs. Gives
/// how many jobs that one has.
fn check_by_longest(
    tally: &mut Tally,
    dice: &mut Dice,
    what: &str,
    example: &Example,
    starts: &[u16],
) -> usize {
    let given = example.given();
    let worked = overrunning(&given, starts, 0).expect("the plan is valid");
    let (set, pairs) = settling_of(&worked.problem, starts);
    let settled = brute::settled(&worked.problem, set, &pairs).expect("the plan keeps its pairs");
    let (end, longest) = (last_end(example, &settled), brute::longest_sequence(&worked));
    tally.same(what, settled_end(example, set, &pairs), Ok(end));
    for most in [0, 1, 2, dice.below(97) as u16, 96] {
        let sum = end + most as u64 * longest as u64;
        tally.same(what, late(example, starts, most), Ok(sum));
        check_runs(tally, dice, what, &worked, most, sum);
    }
    longest
}

/// Runs with overruns of up to `most`, all of them where they are few, looked at quarter hour by quarter hour: each is
/// finished by the sum, and where nothing may run over just then.
fn check_runs(tally: &mut Tally, dice: &mut Dice, what: &str, worked: &Worked, most: u16, sum: u64) {
    let jobs = worked.starts.len();
    let runs = match most {
        0..=2 if jobs < 5 => brute::every_overrun(jobs, most),
        _ => [vec![0; jobs], vec![most; jobs], dice.overruns(jobs, most), dice.overruns(jobs, most)].to_vec(),
    };
    for overruns in runs {
        let ends = finishes(worked, &overruns);
        tally.check(&format!("{what}: a run with {overruns:?}"), brute::is_run(worked, &overruns, &ends));
        let last = jobs_in(worked.starts).map(|job| ends[job]).max().unwrap_or(0);
        tally.same(&format!("{what}: its end"), last_finish(worked, &overruns), last);
        let in_time = if most == 0 { last as u64 == sum } else { last as u64 <= sum };
        tally.check(&format!("{what}: finished at {last} with {overruns:?}, {sum} told"), in_time);
    }
}

/// Drawn plans of up to 24 jobs.
fn test_lateness_of_many_jobs(tally: &mut Tally) {
    let mut dice = Dice(0x0240_1a7e_c4a1_2511);
    for number in 0..150 {
        let table = Example { bound: 2_880, ..dice.table(24, 30, 1 + number % 40, 0) };
        let opening = table.opening | dice.facts(40, table.atoms);
        for (way, example) in dice.in_every_way(&Example { opening, ..table }, 60) {
            let (example, starts) = drawn_plan(&mut dice, &example);
            check_by_units(tally, &mut dice, &format!("how late of many jobs{way}"), &example, &starts);
        }
    }
}

/// The longest chain has as many jobs as settling gives quarter hours if each job takes one, no gap is kept and none
/// has a release.
fn check_by_units(tally: &mut Tally, dice: &mut Dice, what: &str, example: &Example, starts: &[u16]) {
    let given = example.given();
    let worked = overrunning(&given, starts, 0).expect("the plan is valid");
    let (set, pairs) = settling_of(&worked.problem, starts);
    let jobs = example.jobs.iter().map(|job| Job { duration: 1, release: 0, ..*job }).collect();
    let units = Example { jobs, atoms: example.atoms % 128, ..example.clone() };
    let ends = [settled_end(example, set, &pairs), settled_end(&units, set, &pairs)];
    let [end, longest] = ends.map(|end| end.expect("the plan keeps its pairs"));
    for most in [0, 1 + dice.below(96) as u16] {
        let sum = end + most as u64 * longest;
        tally.same(what, late(example, starts, most), Ok(sum));
        check_runs(tally, dice, what, &worked, most, sum);
    }
}

/// What every call on an offered plan, its estimates, its settling and its reasons say.
fn all_answers(example: &Example, starts: &[u16], pairs: &[u8]) -> impl PartialEq + std::fmt::Debug {
    let given = example.given();
    let (mut supported, mut bound) = (vec![0; 64 * (starts.len() + 1)], vec![0; 552]);
    let (mut estimated, mut settled) = (vec![0; starts.len()], vec![0; starts.len()]);
    let (set, pair_count) = ((1 << starts.len()) - 1, pairs.len() as u64 / 2);
    let mut chain = vec![99; starts.len()];
    let answers = (
        offer(example, starts),
        supports(&given, starts, &mut supported),
        binding_pairs(&given, starts, &mut bound),
        estimates(&given, &mut estimated),
        settle(&given, set, pair_count, pairs, &mut settled),
        why_start(&given, set, pair_count, pairs, starts.len() as u8 / 2, &mut chain),
        why_no_plan(&given),
    );
    (answers, supported, bound, estimated, settled, chain)
}

/// The house groups as the scope lists them, b where the wash bay is held.
const HOUSE_GROUPS: &str =
    "4; 4 3b; 6 3b 8; 4 12; 8 3b 16; 4 3b 8 24; 12; 6 2b 12 3b; 4 8 16 32; 8 3b 24 3b 48; 4 2b 8 2b 16 32; 96";

/// How long each stage of a group is, and whether it holds the bay.
type Stages = Vec<(u16, bool)>;

fn house_groups() -> Vec<Stages> {
    let stage = |word: &str| (word.trim_end_matches('b').parse().expect("a number"), word.ends_with('b'));
    HOUSE_GROUPS.split(';').map(|group| group.split_whitespace().map(stage).collect()).collect()
}

/// Every list of up to four house groups.
fn lists_of_groups() -> Vec<Vec<u8>> {
    let mut lists = vec![vec![]];
    let mut longest = 0..1;
    for _ in 0..4 {
        let longer: Vec<Vec<u8>> = lists[longest]
            .iter()
            .flat_map(|list: &Vec<u8>| (0..12).map(|group| [&list[..], &[group]].concat()))
            .collect();
        longest = lists.len()..lists.len() + longer.len();
        lists.extend(longer);
    }
    lists
}

/// Each list of up to four groups against the sentences of change request Thirteen; least bounds; refusals.
fn test_batches(tally: &mut Tally) {
    let (groups, lists) = (house_groups(), lists_of_groups());
    tally.same("lists of up to four groups", lists.len(), 22_621);
    for list in lists {
        let batches: Vec<Stages> = list.iter().map(|&group| groups[group as usize].clone()).collect();
        check_list(tally, &list, &batches);
    }
    test_least_bounds_of_batches(tally);
    test_unknown_groups(tally);
    test_records_for_batches(tally);
}

/// A stage is a job, and so is the clearing behind each stage that holds the bay: over 24 of these are refused.
fn check_list(tally: &mut Tally, list: &[u8], batches: &[Stages]) {
    let stages = batches.iter().flatten();
    let count: usize = stages.clone().map(|&(_, held)| 1 + held as usize).sum();
    let found = expand(list);
    let says =
        |tally: &mut Tally, what: &str, holds| tally.check(&format!("batches {list:?}: {what}"), holds);
    says(tally, "over 24 jobs", found.is_err() == (count > 24));
    match found {
        Err(refusal) => tally.same("batches over 24 jobs", Err(refusal), refused::<()>(30, 0)),
        Ok(table) => {
            says(tally, "jobs", table.jobs.len() == count);
            says(tally, "facts", table.atoms == 1 + stages.count() as u64);
            says(tally, "the bay alone is open", table.opening == word(&[0]));
            says(tally, "stages", stages_hold(&table, batches));
            says(tally, "clearing jobs", clearings_hold(&table, batches));
            says(tally, "goals", table.goals == word(&last_facts(batches)));
            says(tally, "one batch each", each_from_one(&table, list));
        }
    }
}

/// The done facts batch by batch: from 1 on, one a stage.
fn done_facts(batches: &[Stages]) -> Vec<std::ops::Range<u64>> {
    let mut next = 1;
    let mut facts = |batch: &Stages| {
        let first = next;
        next += batch.len() as u64;
        first..next
    };
    batches.iter().map(|batch| facts(batch)).collect()
}

fn last_facts(batches: &[Stages]) -> Vec<u64> {
    done_facts(batches).into_iter().map(|facts| facts.end - 1).collect()
}

/// The jobs that add a fact.
fn adders(table: &Expanded, fact: u64) -> Vec<usize> {
    (0..table.jobs.len()).filter(|&job| table.jobs[job].additions >> fact & 1 == 1).collect()
}

/// Whether each done fact has one job that adds it, which is its stage, needs the stage before it in its batch and, where
/// the bay is held, needs and deletes the bay; these jobs stand in the order of their facts, and there are no other facts.
fn stages_hold(table: &Expanded, batches: &[Stages]) -> bool {
    let holds = |first: u64, fact: u64, (duration, held): (u16, bool)| {
        let bay: Vec<u64> = held.then_some(0).into_iter().collect();
        let before: Vec<u64> = (first..fact).last().into_iter().collect();
        let wanted = job(&[before, bay.clone()].concat(), &[fact], &bay, duration);
        matches!(adders(table, fact)[..], [only] if table.jobs[only] == wanted)
    };
    let mut batches = batches.iter().zip(done_facts(batches));
    let all = batches.all(|(stages, facts)| {
        stages.iter().zip(facts.clone()).all(|(&stage, fact)| holds(facts.start, fact, stage))
    });
    let places: Vec<usize> = (1..table.atoms).flat_map(|fact| adders(table, fact)).collect();
    let used = table.jobs.iter().fold(1, |facts, job| facts | job.conditions | job.additions | job.deletions);
    all && places.is_sorted() && used == (1 << table.atoms) - 1
}

/// Whether the jobs that add the bay are just those right behind the stages that hold it: one quarter hour long, needing
/// that stage done, deleting nothing.
fn clearings_hold(table: &Expanded, batches: &[Stages]) -> bool {
    let stages = batches.iter().flatten().zip(1..);
    let held: Vec<u64> = stages.filter(|((_, held), _)| *held).map(|(_, fact)| fact).collect();
    let behind: Vec<usize> =
        held.iter().flat_map(|&fact| adders(table, fact)).map(|stage| stage + 1).collect();
    let clears =
        |(&fact, &number): (&u64, &usize)| table.jobs.get(number) == Some(&job(&[fact], &[0], &[], 1));
    adders(table, 0) == behind && held.iter().zip(&behind).all(clears)
}

/// Whether the table falls into one piece a batch, each that of its group alone with the done facts moved up.
fn each_from_one(table: &Expanded, list: &[u8]) -> bool {
    let (mut jobs, mut facts) = (Vec::new(), 0);
    for &group in list {
        let alone = expand(&[group]).expect("one batch is never too large");
        let moved = |word: u64| word & 1 | (word & !1) << facts;
        jobs.extend(alone.jobs.iter().map(|job| Job {
            conditions: moved(job.conditions),
            additions: moved(job.additions),
            deletions: moved(job.deletions),
            ..*job
        }));
        facts += alone.atoms - 1;
    }
    table.jobs == jobs && table.atoms == 1 + facts
}

/// The least bounds of the outside problems that are such batches.
fn test_least_bounds_of_batches(tally: &mut Tally) {
    let known: [(&[u8], u16); 10] = [
        (&[], 0),
        (&[10], 64),
        (&[11], 96),
        (&[7, 7], 27),
        (&[10, 7], 64),
        (&[1, 7, 7], 27),
        (&[2, 4, 9], 86),
        (&[0, 1, 2, 3], 17),
        (&[7, 7, 7, 7], 35),
        (&[9, 9, 7, 1], 90),
    ];
    for (list, least) in known {
        let found = least_of(&house(list)).map(|(least, _)| least);
        tally.same(&format!("least bound of batches {list:?}"), found, Ok(least));
    }
}

/// The lowest batch of a group that there is not, wherever it stands and however many batches there are; then more than four.
fn test_unknown_groups(tally: &mut Tally) {
    for (place, group) in (0..4).flat_map(|place| (12..=255).map(move |group| (place, group))) {
        let mut list = [7, 10, 10, 10];
        list[place] = group;
        tally.same("unknown group", expand(&list), refused(28, place as u64));
        let more = [&list[..], &[255]].concat();
        tally.same("the lowest of two, of five batches", expand(&more), refused(28, place as u64));
    }
    for length in 5..70 {
        tally.same("more than four", expand(&vec![length as u8 % 12; length]), refused(29, 4));
        for place in [0, 3, 4, length - 1] {
            let mut list = vec![10; length];
            list[place] = 12;
            tally.same("unknown before too many", expand(&list), refused(28, place as u64));
        }
    }
    for (place, told) in [(65_534, 65_534), (65_535, 65_535), (65_536, 65_535), (70_000, 65_535)] {
        let mut list = vec![0; 70_001];
        list[place] = 200;
        tally.same("unknown far behind", expand(&list), refused(28, told));
    }
}

/// Records enough, one too few and more than enough, and what is refused before that.
fn test_records_for_batches(tally: &mut Tally) {
    let filled = |list: &[u8], length: usize| {
        let mut lent = vec![all_facts(); length];
        let result = enter(list, &mut lent).map(|table| table.jobs);
        let used = result.as_ref().map_or(0, |jobs| jobs.len());
        as_lent(&lent, used).then_some((result, lent[..used].to_vec()))
    };
    for list in [&[][..], &[0], &[7, 7, 1], &[7, 7, 7, 7], &[10, 10, 10], &[9, 9, 9, 1]] {
        let jobs = expand(list).expect("at most 24 jobs").jobs;
        for more in [0, 1, 40] {
            let wanted = Some((Ok(jobs.clone()), jobs.clone()));
            tally.same("records for batches", filled(list, jobs.len() + more), wanted);
        }
        for length in 0..jobs.len() {
            tally.same("too few records", filled(list, length), Some((refused(3, 0), vec![])));
        }
    }
    for (list, refusal) in [
        (&[10, 10, 10, 0][..], refused(30, 0)),
        (&[0; 5], refused(29, 4)),
        (&[0, 0, 0, 0, 0, 12], refused(28, 5)),
    ] {
        for length in [0, 24, 40] {
            tally.same("before the records", filled(list, length), Some((refusal.clone(), vec![])));
        }
    }
}

/// Whether the records from a place on are as they were lent.
fn as_lent(lent: &[Job], from: usize) -> bool {
    lent[from..].iter().all(|job| *job == all_facts())
}

/// P3's plan as it is written, with its names.
const P3_TEXT: &str =
    "0.000: (unpack) [4.000]\n4.000: (warm) [8.000]\n4.000: (wash) [3.000]\n7.000: (drench) [2.000]\n";
const P3_NAMES: [&str; 4] = ["unpack", "drench", "warm", "wash"];
const P3_STARTS: [u16; 4] = [0, 7, 4, 4];

fn p3() -> Example {
    jobs_u(&[2, 3, 4], 12)
}

/// The name table of these names.
fn table_of_names(names: &[impl AsRef<str>]) -> Vec<u8> {
    let entry = |name: &str| {
        let mut bytes = name.as_bytes().to_vec();
        bytes.resize(16, 0);
        bytes
    };
    names.iter().flat_map(|name| entry(name.as_ref())).collect()
}

/// What is read, one start lent a job.
fn read_of(example: &Example, names: &[u8], text: &[u8]) -> Result<Vec<u16>, Refusal> {
    let mut starts = vec![7; example.jobs.len()];
    let result = read_text(&example.given(), names, text, &mut starts);
    if result.is_err() && starts.iter().any(|&start| start != 7) {
        return refused(0, 0);
    }
    result.map(|_| starts)
}

/// What is written, 39 bytes lent a job.
fn written_of(example: &Example, names: &[u8], starts: &[u16]) -> Result<Vec<u8>, Refusal> {
    let mut text = vec![165; 39 * example.jobs.len()];
    match write_text(&example.given(), names, starts, &mut text) {
        Ok(length) => {
            let behind = text.split_off(length as usize);
            behind.iter().all(|&byte| byte == 165).then_some(text).ok_or(Refusal {
                number: 0,
                second: 0,
                place: 0,
            })
        }
        Err(_) if text.iter().any(|&byte| byte != 165) => refused(0, 0),
        Err(refusal) => Err(refusal),
    }
}

/// A byte a character, so that any bytes can be looked at as text.
fn as_text(bytes: &[u8]) -> String {
    bytes.iter().map(|&byte| byte as char).collect()
}

/// A number read another way: cut at its point.
fn number_of(text: &str) -> Option<u16> {
    let (whole, zeros) = text.split_once('.').unwrap_or((text, "0"));
    let only =
        |text: &str, wanted: &str| !text.is_empty() && text.chars().all(|letter| wanted.contains(letter));
    (only(zeros, "0") && only(whole, "0123456789") && whole.len() <= 4)
        .then(|| whole.parse().expect("digits"))
}

/// A line read another way: cut at what stands between its parts.
fn parts_of(line: &str) -> Option<(u16, &str, u16)> {
    let (start, behind) = line.split_once(": (")?;
    let (name, behind) = behind.split_once(") [")?;
    let (start, duration) = (number_of(start)?, number_of(behind.strip_suffix(']')?)?);
    let allowed = |letter| "abcdefghijklmnopqrstuvwxyz0123456789-".contains(letter);
    let named = (1..17).contains(&name.len()) && name.chars().all(allowed);
    (named && start < 2_881).then_some((start, name, duration))
}

/// The whole read another way: every line is cut first, each gets the numbers of all that is wrong with it, and what a job
/// starts at is looked up in the end.
fn read_by_parts(example: &Example, names: &[&str], text: &[u8]) -> Result<Vec<u16>, Refusal> {
    let text = as_text(text);
    let mut lines: Vec<&str> = text.split('\n').collect();
    let unended = lines.pop().filter(|last| !last.is_empty());
    let steps: Vec<Option<(u16, &str, u16)>> =
        lines.into_iter().map(parts_of).chain(unended.map(|_| None)).collect();
    for (number, step) in steps.iter().enumerate() {
        let known = |&(_, name, _): &(u16, &str, u16)| names.iter().position(|&other| other == name);
        let again =
            |&(_, name, _): &(u16, &str, u16)| steps[..number].iter().flatten().any(|step| step.1 == name);
        let job = step.as_ref().and_then(known);
        let wrong = [
            (23, step.is_none()),
            (24, job.is_none()),
            (25, step.as_ref().is_some_and(again)),
            (26, job.is_some_and(|job| step.is_some_and(|step| step.2 != example.jobs[job].duration))),
        ];
        if let Some((number_of_refusal, _)) = wrong.into_iter().find(|&(_, holds)| holds) {
            return refused(number_of_refusal, number as u64);
        }
    }
    let start_of =
        |name: &&str| steps.iter().flatten().find(|step| step.1 == *name).map_or(OUT, |step| step.0);
    Ok(names.iter().map(start_of).collect())
}

/// Plans as text: the numbers and examples of change request Eight, then damages and drawn plans against the other reader.
fn test_texts(tally: &mut Tally) {
    test_text_of_p3(tally);
    test_number_forms(tally);
    test_lines(tally);
    test_damaged_texts(tally);
    test_name_tables(tally);
    test_text_orders(tally);
    test_drawn_texts(tally);
    test_text_refusals(tally);
    test_lent_for_texts(tally);
    test_long_texts(tally);
}

/// Reads one text both ways.
fn check_reading(tally: &mut Tally, example: &Example, names: &[&str], text: &[u8]) {
    let found = read_of(example, &table_of_names(names), text);
    tally.same(&format!("text {:?}", as_text(text)), found, read_by_parts(example, names, text));
}

fn test_text_of_p3(tally: &mut Tally) {
    let names = table_of_names(&P3_NAMES);
    tally.same("P3 has 92 bytes", P3_TEXT.len(), 92);
    tally.same("P3 as text", written_of(&p3(), &names, &P3_STARTS), Ok(P3_TEXT.as_bytes().to_vec()));
    tally.same("P3 read", read_of(&p3(), &names, P3_TEXT.as_bytes()), Ok(P3_STARTS.to_vec()));
    tally.same("nothing read", read_of(&p3(), &names, b""), Ok(vec![OUT; 4]));
    let none = jobs_u(&[0], 0);
    tally.same("nothing written", written_of(&none, &names, &[OUT; 4]), Ok(vec![]));
    let no_jobs = Example { jobs: vec![], atoms: 2, opening: 1, goals: 0, bound: 0 };
    tally.same("no jobs written", written_of(&no_jobs, &[], &[]), Ok(vec![]));
    tally.same("no jobs read", read_of(&no_jobs, &[], b""), Ok(vec![]));
    tally.same("a line for no job", read_of(&no_jobs, &[], P3_TEXT.as_bytes()), refused(24, 0));
}

/// Numbers in the form and outside it, as a start and as a duration.
fn test_number_forms(tally: &mut Tally) {
    let zeros = format!("4.{}", "0".repeat(5_000));
    let fours = ["4", "04", "004", "0004", "4.0", "04.00", "0004.000", "4.000000", &zeros];
    let others = [
        "", "00004", "4.", ".0", ".", "4.01", "4.10", "4.0.0", "4..0", "4,0", "+4", "-4", " 4", "4 ", "4e0",
        "4.0 ", "4. 0", "0x4", "four", "12345", "99999", "4\0", "4.0\0",
    ];
    let names = table_of_names(&P3_NAMES);
    let read = |text: String| read_of(&p3(), &names, text.as_bytes());
    for four in fours {
        let [start, duration] =
            [read(format!("{four}: (warm) [8]\n")), read(format!("9: (unpack) [{four}]\n"))];
        tally.same(four, start, Ok(vec![OUT, OUT, 4, OUT]));
        tally.same(four, duration, Ok(vec![9, OUT, OUT, OUT]));
    }
    for other in others {
        tally.same(other, read(format!("{other}: (warm) [8]\n")), refused(23, 0));
        tally.same(other, read(format!("0: (wash) [3]\n9: (unpack) [{other}]\n")), refused(23, 1));
    }
    for start in 0..10_000u16 {
        let wanted = if start <= 2_880 { Ok(vec![start, OUT, OUT, OUT]) } else { refused(23, 0) };
        tally.same("every start", read(format!("{start}: (unpack) [4]\n")), wanted);
        let wanted = if start == 4 { Ok(vec![5, OUT, OUT, OUT]) } else { refused(26, 0) };
        tally.same("every duration", read(format!("5: (unpack) [{start}.0]\n")), wanted);
    }
}

/// Lines by the readings of the request: names, ends, a job twice; the lowest number of a line, the first bad line.
fn test_lines(tally: &mut Tally) {
    let sixteen = "abcdefghij-01234";
    let example = Example { jobs: vec![job(&[], &[0], &[], 4); 2], atoms: 1, opening: 0, goals: 0, bound: 9 };
    let names = table_of_names(&[sixteen, "-"]);
    let cases = [
        ("0: (abcdefghij-01234) [4]\n", Ok(vec![0, OUT])),
        ("0: (abcdefghij-0123) [4]\n", refused(24, 0)),
        ("0: (abcdefghij-012345) [4]\n", refused(23, 0)),
        ("0: (Abcdefghij-01234) [4]\n", refused(23, 0)),
        ("0: () [4]\n", refused(23, 0)),
        ("0: (a_b) [4]\n", refused(23, 0)),
        ("0: (-) [4]", refused(23, 0)),
        ("0: (-) [4]\n\n", refused(23, 1)),
        ("\n0: (-) [4]\n", refused(23, 0)),
        ("0: (-) [4]\r\n", refused(23, 0)),
        (" 0: (-) [4]\n", refused(23, 0)),
        ("0: (-) [4]\n0: (-) [4]\n", refused(25, 1)),
        ("0: (-) [4]\n9: (-) [4]\n", refused(25, 1)),
        ("0: (-) [4]\n9: (-) [5]\n", refused(25, 1)),
        ("0: (-) [961]\n", refused(26, 0)),
        ("0: (-) [0]\n", refused(26, 0)),
        ("2881: (b) [5]\n", refused(23, 0)),
        ("2880: (b) [5]\n", refused(24, 0)),
        ("2880: (-) [5]\n", refused(26, 0)),
        ("1: (-) [5]\n1: (b) [4]\n2881: (-) [4]\n", refused(26, 0)),
        ("1: (b) [4]\nx", refused(24, 0)),
        ("1: (-) [4]\n9: (abcdefghij-01234) [4]\n", Ok(vec![9, 1])),
    ];
    for (text, wanted) in cases {
        tally.same(text, read_of(&example, &names, text.as_bytes()), wanted);
    }
}

/// Every byte of P3's text replaced by every other, dropped, doubled, and every byte put in at every place; cut anywhere.
fn test_damaged_texts(tally: &mut Tally) {
    let text = P3_TEXT.as_bytes();
    for place in 0..text.len() {
        let (before, behind) = text.split_at(place);
        check_reading(tally, &p3(), &P3_NAMES, before);
        check_reading(tally, &p3(), &P3_NAMES, &[before, &behind[1..]].concat());
        for byte in 0..=255 {
            check_reading(tally, &p3(), &P3_NAMES, &[before, &[byte], &behind[1..]].concat());
            check_reading(tally, &p3(), &P3_NAMES, &[before, &[byte], behind].concat());
        }
    }
}

/// The lowest job whose name is bad, looked at as text without the zeros at its end.
fn bad_name(table: &[u8], jobs: usize) -> Option<usize> {
    let names: Vec<String> =
        table.chunks(16).take(jobs).map(|entry| as_text(entry).trim_end_matches('\0').to_string()).collect();
    let allowed = |letter: char| letter == '-' || letter.is_ascii_digit() || letter.is_ascii_lowercase();
    let alike = |name: &String| names.iter().filter(|&other| other == name).count() != 1;
    names.iter().position(|name| name.is_empty() || !name.chars().all(allowed) || alike(name))
}

/// Every byte of two name tables replaced by every other; every two jobs alike; what stands behind the names.
fn test_name_tables(tally: &mut Tally) {
    let check = |tally: &mut Tally, example: &Example, starts: &[u16], table: &[u8]| {
        let bad = bad_name(table, example.jobs.len());
        let wanted = bad.map_or(Ok(()), |job| refused(33, job as u64));
        let read = read_of(example, table, b"").map(|_| ());
        tally.same("name table in reading", read, wanted);
        tally.same(
            "name table before a line",
            read_of(example, table, b"x").err().map(|r| r.number),
            Some(if bad.is_some() { 33 } else { 23 }),
        );
        tally.same("name table in writing", written_of(example, table, starts).map(|_| ()), wanted);
    };
    for names in [P3_NAMES, ["a", "aa", "abcdefghijklmnop", "abcdefghijklmnoq"]] {
        let table = table_of_names(&names);
        for (place, byte) in (0..table.len()).flat_map(|place| (0..=255).map(move |byte| (place, byte))) {
            let mut other = table.clone();
            other[place] = byte;
            check(tally, &p3(), &P3_STARTS, &other);
        }
    }
    let many = Example { jobs: vec![job(&[], &[0], &[], 1); 24], atoms: 1, opening: 0, goals: 0, bound: 0 };
    let names: Vec<String> = (0..24).map(|job| format!("job-{job}")).collect();
    for (one, other) in (0..24).flat_map(|one| (0..one).map(move |other| (one, other))) {
        let mut names = names.clone();
        names[one] = names[other].clone();
        let table = table_of_names(&names);
        tally.same("two alike", read_of(&many, &table, b""), refused(33, other as u64));
        check(tally, &many, &[OUT; 24], &table);
    }
    let behind = [table_of_names(&P3_NAMES), table_of_names(&["wash", "", "WASH"]), vec![1; 7]].concat();
    tally.same("names behind", read_of(&p3(), &behind, P3_TEXT.as_bytes()), Ok(P3_STARTS.to_vec()));
}

/// All orders of P3's lines give the same plan, and the first two alone that of two jobs.
fn test_text_orders(tally: &mut Tally) {
    let lines: Vec<&str> = P3_TEXT.split_inclusive('\n').collect();
    let names = table_of_names(&P3_NAMES);
    let mut orders = 0;
    for code in 0..256 {
        let order = [code & 3, code >> 2 & 3, code >> 4 & 3, code >> 6 & 3];
        let text: String = order.iter().map(|&line| lines[line]).collect();
        let again = (1..4).find(|&line| order[..line].contains(&order[line]));
        let wanted = again.map_or(Ok(P3_STARTS.to_vec()), |line| refused(25, line as u64));
        orders += again.is_none() as u64;
        tally.same("lines in any order", read_of(&p3(), &names, text.as_bytes()), wanted);
    }
    tally.same("orders of four lines", orders, 24);
    let two = read_of(&p3(), &names, lines[..2].concat().as_bytes());
    tally.same("two lines", two, Ok(vec![0, OUT, 4, OUT]));
}

/// Different names of one to sixteen letters.
fn drawn_names(dice: &mut Dice, count: usize) -> Vec<String> {
    let letters = "abcdefghijklmnopqrstuvwxyz0123456789-".as_bytes();
    let mut names: Vec<String> = Vec::new();
    while names.len() < count {
        let length = 1 + dice.below(16);
        let name: String = (0..length).map(|_| letters[dice.below(37) as usize] as char).collect();
        if !names.contains(&name) {
            names.push(name);
        }
    }
    names
}

/// Drawn plans written: the lines are those of the jobs that are in, by start, then job; read back, also mixed and with
/// other zeros, they give the plan; damaged they are read as the other reader does.
fn test_drawn_texts(tally: &mut Tally) {
    let mut dice = Dice(0x0e18_2025_7e87_0711);
    for round in 0..300 {
        let (jobs, longest) = ([3, 9, 24][round % 3], [9, 120, 960][round / 3 % 3]);
        let example = Example { bound: 2_880, goals: 0, ..dice.table(jobs, 40, longest, 0) };
        for (what, example) in dice.in_every_way(&example, 700) {
            let problem = check_bounded_table(&example.given()).expect("a table in order");
            let starts = dice.plan(&problem);
            let names = drawn_names(&mut dice, starts.len());
            let names: Vec<&str> = names.iter().map(|name| &name[..]).collect();
            check_drawn_text(tally, &mut dice, what, &example, &names, &starts);
        }
    }
}

fn check_drawn_text(
    tally: &mut Tally,
    dice: &mut Dice,
    what: &str,
    example: &Example,
    names: &[&str],
    starts: &[u16],
) {
    let table = table_of_names(names);
    let written = written_of(example, &table, starts).expect("a valid plan");
    let mut inside: Vec<usize> = jobs_in(starts).collect();
    let steps: Vec<(u16, usize)> = as_text(&written)
        .lines()
        .map(|line| {
            let (start, name, _) = parts_of(line).expect("a line in the form");
            (start, names.iter().position(|&other| other == name).expect("a known name"))
        })
        .collect();
    tally.check(&format!("by start, then job{what}"), steps.is_sorted());
    inside.sort_by_key(|&job| (starts[job], job));
    tally.same(
        "just the jobs that are in",
        steps.into_iter().map(|(_, job)| job).collect::<Vec<_>>(),
        inside,
    );
    tally.same("read back", read_of(example, &table, &written), Ok(starts.to_vec()));
    let mut lines: Vec<String> =
        as_text(&written).split_inclusive('\n').map(|line| line.to_string()).collect();
    for place in (1..lines.len()).rev() {
        lines.swap(place, dice.below(place as u64 + 1) as usize);
    }
    let zeros = [".000", "", ".0", ".00000"][dice.below(4) as usize];
    let mixed = lines.concat().replace(".000", zeros);
    tally.same("read back, mixed", read_of(example, &table, mixed.as_bytes()), Ok(starts.to_vec()));
    for _ in 0..6 {
        let mut damaged = mixed.clone().into_bytes();
        for _ in 0..=dice.below(2) {
            let place = dice.below(damaged.len() as u64 + 1) as usize;
            let byte = DAMAGES[dice.below(DAMAGES.len() as u64) as usize];
            match (damaged.get_mut(place), dice.below(3)) {
                (Some(old), 0) => *old = byte,
                (Some(_), 1) => drop(damaged.remove(place)),
                _ => damaged.insert(place, byte),
            }
        }
        check_reading(tally, example, names, &damaged);
    }
}

/// The bytes that texts are damaged with.
const DAMAGES: &[u8] = b"0123456789.: ()[]abcZ-\n\0\xff";

/// What is refused before the names, and what behind them.
fn test_text_refusals(tally: &mut Tally) {
    let (good, bad) = (table_of_names(&P3_NAMES), table_of_names(&["a", "b", "a", "b"]));
    let moved = |job: usize, start: u16| {
        let mut starts = P3_STARTS;
        starts[job] = start;
        starts
    };
    let plans: [(Example, [u16; 4], Result<Vec<u8>, Refusal>); 6] = [
        (jobs_u(&[2, 3, 4], 11), P3_STARTS, refused(11, 2)),
        (p3().released(&[0, 0, 5, 0]), P3_STARTS, refused(21, 2)),
        (p3(), moved(1, 6), overlapping(1, 2)),
        (p3(), moved(0, OUT), refused(13, 1)),
        (p3(), moved(3, OUT), refused(14, 4)),
        (p3().under_rule_2(), P3_STARTS, overlapping(1, 2)),
    ];
    for (example, starts, wanted) in plans {
        for names in [&good, &bad] {
            tally.same("a plan that is not valid", written_of(&example, names, &starts), wanted.clone());
        }
        let text = "0: (wash) [3]\n";
        tally.same(
            "reading looks at no plan",
            read_of(&example, &good, text.as_bytes()),
            Ok(vec![OUT, OUT, OUT, 0]),
        );
    }
    tally.same("33 behind a valid plan", written_of(&p3(), &bad, &P3_STARTS), refused(33, 0));
    let late = Example { bound: 2_881, ..p3() };
    tally.same("9 in writing", written_of(&late, &bad, &P3_STARTS), refused(9, 0));
    tally.same("no 9 in reading", read_of(&late, &good, P3_TEXT.as_bytes()), Ok(P3_STARTS.to_vec()));
    let last = Example { bound: 65_535, ..p3() };
    tally.same("no bound at all", read_of(&last, &good, P3_TEXT.as_bytes()), Ok(P3_STARTS.to_vec()));
    let mut tables = vec![
        (p3().released(&[2_881]), 20, 0),
        (Example { atoms: 0, ..p3() }, 4, 0),
        (Example { atoms: 65, ..p3() }, 4, 0),
    ];
    tables.extend([(Example { atoms: 4, ..p3() }, 7, 3), (Example { opening: 32, ..p3() }, 7, 24)]);
    for (field, number) in [(0, 6), (961, 6)] {
        let mut example = p3();
        example.jobs[1].duration = field;
        tables.push((example, number, 1));
    }
    let mut both = p3();
    both.jobs[2].deletions = both.jobs[2].additions;
    tables.push((both, 8, 2));
    for (example, number, place) in tables {
        tally.same("33 behind the table", read_of(&example, &bad, b"x"), refused(number, place));
        tally.same("33 behind the table", written_of(&example, &bad, &P3_STARTS), refused(number, place));
    }
}

/// One byte too few of each thing that is lent, just enough, and more; counts that nothing serves; 25 jobs.
fn test_lent_for_texts(tally: &mut Tally) {
    let names = table_of_names(&P3_NAMES);
    let example = p3();
    for (records, lent, starts, room) in
        [(4, 64, 4, 156), (3, 64, 4, 156), (4, 63, 4, 156), (4, 64, 3, 156), (4, 64, 4, 155), (4, 0, 4, 156)]
    {
        let given = Given { records: &example.jobs[..records], ..example.given() };
        let whole = (records, lent, starts, room) == (4, 64, 4, 156);
        let (mut table, mut text) = (vec![9; starts], vec![165; room]);
        let read = read_text(&given, &names[..lent], P3_TEXT.as_bytes(), &mut table);
        tally.same("lent for reading", read, if whole || room == 155 { Ok(()) } else { refused(3, 0) });
        let written = write_text(&given, &names[..lent], &P3_STARTS[..starts], &mut text);
        tally.same("lent for writing", written, if whole { Ok(92) } else { refused(3, 0) });
    }
    let (mut table, mut text) = ([9; 6], [165; 200]);
    tally.same(
        "more lent",
        read_text(&example.given(), &[&names[..], &[1; 33]].concat(), P3_TEXT.as_bytes(), &mut table),
        Ok(()),
    );
    tally.same("places behind", table, [0, 7, 4, 4, 9, 9]);
    tally.same(
        "more lent",
        write_text(&example.given(), &[&names[..], &[1; 33]].concat(), &[0, 7, 4, 4, 1], &mut text),
        Ok(92),
    );
    tally.check("bytes behind", text[92..].iter().all(|&byte| byte == 165));
    for count in [5, 1 << 60, 1 << 61, 1 << 63, u64::MAX] {
        let given = Given { count, ..example.given() };
        tally.same("huge count", read_text(&given, &names, b"x", &mut [9; 9]), refused(3, 0));
        tally.same("huge count", write_text(&given, &names, &[OUT; 9], &mut [9; 400]), refused(3, 0));
    }
    let many = Example { jobs: vec![job(&[], &[0], &[], 1); 25], atoms: 1, opening: 0, goals: 0, bound: 0 };
    tally.same("25 jobs read", read_of(&many, &[0; 400], b"x"), refused(5, 0));
    tally.same("25 jobs written", written_of(&many, &[0; 400], &[OUT; 25]), refused(5, 0));
}

/// Lines as long as can be written; texts with more lines than jobs; very long texts.
fn test_long_texts(tally: &mut Tally) {
    let names: Vec<String> = (0..24).map(|job| format!("name-of-letter-{}", (b'a' + job) as char)).collect();
    let table = table_of_names(&names);
    let example =
        Example { jobs: vec![job(&[], &[0], &[], 100); 24], atoms: 1, opening: 0, goals: 1, bound: 2_880 };
    let starts: Vec<u16> = (0..24).map(|job| 2_780 - job).collect();
    let written = written_of(&example, &table, &starts).expect("a valid plan");
    tally.same("39 bytes a line", written.len(), 24 * 39);
    tally.same("read back", read_of(&example, &table, &written), Ok(starts));
    let first = written[..39].to_vec();
    tally.same(
        "a line too many",
        read_of(&example, &table, &[&written[..], &first].concat()),
        refused(25, 24),
    );
    let strange = [&written[..], b"0: (other) [100]\n"].concat();
    tally.same("a strange line too many", read_of(&example, &table, &strange), refused(24, 24));
    let zeros = "0".repeat(70_000);
    let long = |text: String| read_of(&p3(), &table_of_names(&P3_NAMES), text.as_bytes());
    tally.same("70,000 zeros", long(format!("4.{zeros}: (warm) [8.{zeros}]\n")), Ok(vec![OUT, OUT, 4, OUT]));
    tally.same("70,000 zeros and a one", long(format!("4.{zeros}1: (warm) [8]\n")), refused(23, 0));
    tally.same("70,000 digits", long(format!("{zeros}4: (warm) [8]\n")), refused(23, 0));
    tally.same("70,000 letters", long(format!("4: ({zeros}) [8]\n")), refused(23, 0));
    tally.same("70,000 bytes without an end", long(format!("{P3_TEXT}{zeros}")), refused(23, 4));
}

/// The right table of these jobs: each two of them looked at, fact by fact.
fn right_table(atoms: u8, jobs: &[Job]) -> OpenTable {
    let mut table = OpenTable { atoms, count: jobs.len() as u64, ..OpenTable::default() };
    table.jobs[..jobs.len()].copy_from_slice(jobs);
    for (one, row) in table.rows[..jobs.len()].iter_mut().enumerate() {
        let clashing = |&other: &usize| other != one && brute::clash(&jobs[one], &jobs[other]) != Clash::None;
        *row = (0..jobs.len()).filter(clashing).map(|other| 1 << other).sum();
    }
    table
}

/// A table of any bits, with a count that a table may have.
fn any_table(dice: &mut Dice) -> OpenTable {
    let mut table = OpenTable { atoms: dice.next() as u8, count: dice.below(25), ..OpenTable::default() };
    table.jobs = table.jobs.map(|_| Job {
        conditions: dice.next(),
        additions: dice.next(),
        deletions: dice.next(),
        duration: dice.next() as u16,
        release: dice.next() as u16,
    });
    table.rows = table.rows.map(|_| dice.next() as u32);
    table
}

/// Jobs in order, of few facts, so that many clash.
fn some_jobs(dice: &mut Dice, count: usize, atoms: u64) -> Vec<Job> {
    let mut draw = || {
        let additions = dice.facts(2, atoms);
        let (conditions, deletions) = (dice.facts(2, atoms), dice.facts(3, atoms) & !additions);
        Job {
            conditions,
            additions,
            deletions,
            duration: 1 + dice.below(960) as u16,
            release: dice.below(2_881) as u16,
        }
    };
    (0..count).map(|_| draw()).collect()
}

fn test_open_tables(tally: &mut Tally) {
    test_rows_of_p3(tally);
    test_begun_tables(tally);
    test_lists_of_jobs(tally);
    test_bits_that_stay(tally);
    test_edit_refusals(tally);
    test_counts_of_open_tables(tally);
    test_plans_of_open_tables(tally);
}

/// P3's jobs added: drench and wash clash, unpack and a second unpack too; then a job replaced and some removed.
fn test_rows_of_p3(tally: &mut Tally) {
    let jobs = p3().jobs;
    let mut table = OpenTable::default();
    tally.same("begin", table.begin(5), Ok(0));
    for (number, job) in jobs.iter().enumerate() {
        tally.same("the number of a job", table.add(*job), Ok(number as u64));
    }
    tally.same("rows of P3", table.rows[..5].to_vec(), vec![0, 8, 0, 2, 0]);
    tally.same("wash that undoes nothing", table.replace(3, Job { deletions: 0, ..jobs[3] }), Ok(0));
    tally.same("no clash", table.rows, [0; 24]);
    tally.same("another unpack", table.add(jobs[0]), Ok(4));
    tally.same("it clashes", table.rows[..5].to_vec(), vec![16, 0, 0, 0, 1]);
    tally.same("drench removed", table.remove(1), Ok(0));
    tally.same("moved down", table.rows[..5].to_vec(), vec![8, 0, 0, 1, 0]);
    tally.same("the jobs left", table.jobs[1].duration, 8);
    tally.same("unpack removed", table.remove(0), Ok(0));
    tally.same("none left", (table.count, table.rows), (3, [0; 24]));
    tally.same("no fourth", table.remove(3), refused(22, 3));
}

/// Every byte as an atom count, over any bits.
fn test_begun_tables(tally: &mut Tally) {
    let mut dice = Dice(0x06e2_2025_0be6_0101);
    for byte in 0..=255 {
        let before = any_table(&mut dice);
        let mut table = before;
        let taken = (1..=64).contains(&byte) || (129..=192).contains(&byte);
        tally.same("begin", table.begin(byte), if taken { Ok(0) } else { refused(4, 0) });
        tally.same("begun", table, if taken { right_table(byte, &[]) } else { before });
    }
}

/// Long runs of edits beside a list of jobs that is pushed to, written to and taken from: after each edit the table is
/// the right one of the list.
fn test_lists_of_jobs(tally: &mut Tally) {
    let mut dice = Dice(0x06e2_2025_0be6_0202);
    for round in 0..60 {
        let (atoms, mut jobs) = ([2, 5, 30, 64][round % 4], Vec::new());
        let byte = atoms as u8 + if round % 8 < 4 { 0 } else { 128 };
        let mut table = any_table(&mut dice);
        tally.same("begin", table.begin(byte), Ok(0));
        for _ in 0..70 {
            let number = dice.below(jobs.len() as u64 + 2) as u8;
            let job = some_jobs(&mut dice, 1, atoms)[0];
            check_list_edit(
                tally,
                &mut table,
                &mut jobs,
                [0, 0, 0, 1, 2][dice.below(5) as usize],
                number,
                job,
            );
            tally.same("the table of the list", table, right_table(byte, &jobs));
        }
    }
}

fn check_list_edit(
    tally: &mut Tally,
    table: &mut OpenTable,
    jobs: &mut Vec<Job>,
    what: u8,
    number: u8,
    job: Job,
) {
    let place = number as usize;
    match what {
        0 if jobs.len() == 24 => tally.same("25 jobs", table.add(job), refused(5, 0)),
        0 => {
            tally.same("added", table.add(job), Ok(jobs.len() as u64));
            jobs.push(job);
        }
        1 if place < jobs.len() => {
            tally.same("replaced", table.replace(number, job), Ok(0));
            jobs[place] = job;
        }
        2 if place < jobs.len() => {
            tally.same("removed", table.remove(number), Ok(0));
            jobs.remove(place);
        }
        1 => tally.same("none to replace", table.replace(number, job), refused(22, number as u64)),
        _ => tally.same("none to remove", table.remove(number), refused(22, number as u64)),
    }
}

fn bit(table: &OpenTable, row: usize, column: usize) -> bool {
    row < 24 && column < 32 && table.rows[row] >> column & 1 == 1
}

/// Tables whose rows are wrong and whose places behind the jobs are full: bit by bit and place by place, what an edit
/// does not speak of stays or moves.
fn test_bits_that_stay(tally: &mut Tally) {
    let mut dice = Dice(0x06e2_2025_0be6_0303);
    for round in 0..480 {
        let count = 1 + round % 23;
        let jobs = some_jobs(&mut dice, count, 5);
        let mut table = OpenTable { atoms: 5, count: count as u64, ..any_table(&mut dice) };
        table.jobs[..count].copy_from_slice(&jobs);
        let (place, job) = (dice.below(count as u64) as usize, some_jobs(&mut dice, 1, 5)[0]);
        let mut added = table;
        tally.same("added to any", added.add(job), Ok(count as u64));
        check_worked_out(tally, &table, &added, count, job, count + 1);
        let mut replaced = table;
        tally.same("replaced in any", replaced.replace(place as u8, job), Ok(0));
        check_worked_out(tally, &table, &replaced, place, job, count);
        let mut removed = table;
        tally.same("removed from any", removed.remove(place as u8), Ok(0));
        check_moved(tally, &table, &removed, place);
    }
}

/// Beside one record and the count, just the bits of one row and of one column may be others, and these are the clashes.
fn check_worked_out(
    tally: &mut Tally,
    before: &OpenTable,
    behind: &OpenTable,
    place: usize,
    job: Job,
    count: usize,
) {
    let mut jobs = before.jobs;
    jobs[place] = job;
    tally.same("one record", (behind.atoms, behind.count, behind.jobs), (before.atoms, count as u64, jobs));
    let right = right_table(behind.atoms, &jobs[..count]);
    let crossed = |row: usize, column: usize| if row == place || column == place { &right } else { before };
    let cells = (0..24).flat_map(|row| (0..32).map(move |column| (row, column)));
    let held = |(row, column)| bit(behind, row, column) == bit(crossed(row, column), row, column);
    tally.check("one row and one column", cells.into_iter().all(held));
}

/// Every place and every bit is the one that was above it, or its own below the place removed.
fn check_moved(tally: &mut Tally, before: &OpenTable, behind: &OpenTable, place: usize) {
    let above = |at: usize| if at < place { at } else { at + 1 };
    tally.same("one job less", (behind.atoms, behind.count), (before.atoms, before.count - 1));
    for row in 0..24 {
        let wanted = before.jobs.get(above(row)).copied().unwrap_or_default();
        tally.same("the record above", behind.jobs[row], wanted);
        let held = |column: usize| bit(behind, row, column) == bit(before, above(row), above(column));
        tally.check("the bits above", (0..32).all(held));
    }
}

/// All that is wrong with a table, as (order, number, place); the least of it is told.
fn first_wrong(table: &OpenTable) -> Result<(), Refusal> {
    let atoms = table.atoms as u64 % 128;
    let mut wrong = Vec::new();
    if !(1..=64).contains(&atoms) {
        wrong.push((0, 0, 4));
    }
    if table.count > 24 {
        wrong.push((1, 0, 5));
    }
    for (place, job) in table.jobs.iter().enumerate().take(table.count.min(24) as usize) {
        let facts = job.conditions | job.additions | job.deletions;
        let faults = [
            (6, !(1..=960).contains(&job.duration)),
            (20, job.release > 2_880),
            (7, (atoms..64).any(|fact| facts >> fact & 1 == 1)),
            (8, job.additions & job.deletions != 0),
        ];
        wrong.extend(
            (2..).zip(faults).filter(|fault| fault.1 .1).map(|(order, (number, _))| (order, place, number)),
        );
    }
    wrong.into_iter().min().map_or(Ok(()), |(_, place, number)| refused(number, place as u64))
}

/// A table of some faults, in the atom count, the job count and the jobs.
fn faulty_table(dice: &mut Dice) -> OpenTable {
    let count = dice.below(24) as usize + 1;
    let mut table = right_table(30, &some_jobs(dice, count, 30));
    for _ in 0..dice.below(4) {
        let job = &mut table.jobs[dice.below(count as u64) as usize];
        match dice.below(12) {
            0 => table.atoms = [0, 65, 127, 128, 193, 255][dice.below(6) as usize],
            1 => table.count = [25, 26, 255, 1 << 32, u64::MAX][dice.below(5) as usize],
            2..=3 => job.duration = [0, 961, 65_535][dice.below(3) as usize],
            4..=5 => job.release = [2_881, 65_535][dice.below(2) as usize],
            6..=8 => job.conditions |= 1 << [30, 63][dice.below(2) as usize],
            _ => (job.additions, job.deletions) = (job.additions | 1, job.deletions | 1),
        }
    }
    table
}

/// Tables with faults in any of their jobs or in the new record: each edit is refused by what is wrong with the table that it
/// makes, a removal by what is wrong with the one that stands, and leaves all as it was.
fn test_edit_refusals(tally: &mut Tally) {
    let mut dice = Dice(0x06e2_2025_0be6_0404);
    for _ in 0..6_000 {
        let (table, other) = (faulty_table(&mut dice), faulty_table(&mut dice));
        let (job, number) = (other.jobs[0], dice.below(26) as u8);
        let absent = number as u64 >= table.count;
        let mut longer = OpenTable { count: table.count.min(24) + 1, ..table };
        longer.jobs.iter_mut().skip(table.count.min(24) as usize).take(1).for_each(|place| *place = job);
        check_edit(tally, &table, |table| table.add(job), first_wrong(&longer));
        let mut changed = table;
        changed.jobs.iter_mut().skip(number as usize).take(1).for_each(|place| *place = job);
        let wanted = if absent { refused(22, number as u64) } else { first_wrong(&changed) };
        check_edit(tally, &table, |table| table.replace(number, job), wanted);
        let wanted = if absent { refused(22, number as u64) } else { first_wrong(&table) };
        check_edit(tally, &table, |table| table.remove(number), wanted);
    }
}

fn check_edit(
    tally: &mut Tally,
    before: &OpenTable,
    edit: impl Fn(&mut OpenTable) -> Result<u64, Refusal>,
    wanted: Result<(), Refusal>,
) {
    let mut table = *before;
    tally.same("edit of a faulty table", edit(&mut table).map(|_| ()), wanted);
    tally.check("as it was where refused", wanted.is_ok() || table == *before);
}

/// Counts at the edges, with jobs at the edges of a byte and of the table.
fn test_counts_of_open_tables(tally: &mut Tally) {
    let jobs = some_jobs(&mut Dice(0x06e2_2025_0be6_0505), 24, 5);
    for count in [0, 1, 23, 24, 25, 255, 256, 1 << 32, u64::MAX - 1, u64::MAX] {
        for number in [0, 22, 23, 24, 25, 254, 255] {
            let table = OpenTable { count, ..right_table(5, &jobs) };
            let wanted = match (number as u64 >= count, count > 24) {
                (true, _) => refused(22, number as u64),
                (_, true) => refused(5, 0),
                _ => Ok(()),
            };
            check_edit(tally, &table, |table| table.replace(number, jobs[0]), wanted);
            check_edit(tally, &table, |table| table.remove(number), wanted);
            let room = if count < 24 { Ok(()) } else { refused(5, 0) };
            check_edit(tally, &table, |table| table.add(jobs[0]), room);
            let bare = OpenTable { atoms: 65, ..table };
            check_edit(tally, &bare, |table| table.add(jobs[0]), refused(4, 0));
        }
    }
}

/// Plans of an open table are those of its jobs lent, whatever its rows and the records behind them.
fn test_plans_of_open_tables(tally: &mut Tally) {
    let mut dice = Dice(0x06e2_2025_0be6_0606);
    for _ in 0..150 {
        let drawn = dice.table_with_goals(5, 8, 6, 12, 1);
        for (what, example) in dice.in_every_way(&drawn, 6) {
            let mut table = any_table(&mut dice);
            (table.atoms, table.count) = (example.atoms as u8, example.jobs.len() as u64);
            table.jobs[..example.jobs.len()].copy_from_slice(&example.jobs);
            let wanted = wanted_of(&example);
            let mut starts = vec![7; example.jobs.len()];
            let found = table.plan(&wanted, &mut starts).map(|_| starts.clone());
            tally.same(&format!("plan of an open table{what}"), found, plan_of(&example));
            let found = table.least(&wanted, &mut starts).map(|least| (least, starts.clone()));
            tally.same(&format!("least bound of an open table{what}"), found, least_of(&example));
        }
    }
    let (table, wanted) = (right_table(5, &p3().jobs), wanted_of(&p3()));
    tally.same("three starts", table.plan(&wanted, &mut [0; 3]), refused(3, 0));
    tally.same("three starts", table.least(&wanted, &mut [0; 3]), refused(3, 0));
    let stray = Wanted { goals: 32, bound: 2_881, ..wanted };
    tally.same("a goal behind the facts", table.plan(&stray, &mut [0; 4]), refused(7, 24));
    tally.same("too late", table.least(&Wanted { bound: 2_881, ..wanted }, &mut [0; 4]), refused(9, 0));
    for (count, lent, atoms, number) in [
        (25, 24, 5, 3),
        (25, 25, 5, 5),
        (25, 25, 0, 4),
        (256, 255, 5, 3),
        (256, 256, 5, 5),
        (u64::MAX, 900, 0, 3),
    ] {
        let table = OpenTable { count, atoms, ..table };
        tally.same("too many to plan", table.plan(&wanted, &mut vec![0; lent]), refused(number, 0));
        tally.same("too many to plan", table.least(&wanted, &mut vec![0; lent]), refused(number, 0));
    }
}

fn wanted_of(example: &Example) -> Wanted {
    Wanted { opening: example.opening, goals: example.goals, bound: example.bound as u16 }
}

/// The gap in other words: under rule 2 all is answered as under rule 1 with each job and the bound a quarter hour
/// longer. The plans are the first ones, some with a job moved, and any at all.
fn test_gap_as_length(tally: &mut Tally) {
    let mut dice = Dice(0x9a95_1e57_0f11_e5a1);
    let mut overruns = Dice(0x0e22_0b07_1a7e_9a95);
    for number in 0..6_000 {
        let example = dice.table_with_goals(6, 6, 4, 24, 1 + number % 4);
        let example = dice.with_releases(&example, 9).under_rule_2();
        let mut longer = Example { atoms: example.atoms - 128, bound: example.bound + 1, ..example.clone() };
        longer.jobs.iter_mut().for_each(|job| job.duration += 1);
        let jobs = example.jobs.len() as u64;
        let any_starts = (0..jobs).map(|_| dice.below(example.bound + 2) as u16).collect();
        let mut starts = plan_of(&example).unwrap_or(any_starts);
        if let Some(start) = starts.get_mut(dice.below(jobs + 2) as usize) {
            *start = start.saturating_sub(1);
        }
        let pairs: Vec<u8> = (0..2 * dice.below(jobs + 1)).map(|_| dice.below(jobs.max(1)) as u8).collect();
        let found = all_answers(&example, &starts, &pairs);
        tally.same("longer jobs instead of gaps", found, all_answers(&longer, &starts, &pairs));
        // Behind the job that is finished last there is no gap.
        let behind = jobs_in(&starts).count().min(1) as u64;
        let most = overruns.below(98) as u16;
        let found = late(&example, &starts, most).map(|sum| sum + behind);
        tally.same("longer jobs, how late", found, late(&longer, &starts, most));
    }
}

/// Refusals 3 to 9 in the order of the numbers, and 20 between 6 and 7, each with its place.
fn test_table_checks(tally: &mut Tally) {
    let mut example = jobs_u(&[2], 2_881);
    tally.same("9", plan_of(&example), refused(9, 0));
    example.jobs[3].deletions |= word(&[4]);
    example.jobs[2].deletions |= word(&[3]);
    tally.same("8", plan_of(&example), refused(8, 2));
    example.goals |= word(&[5]);
    tally.same("7 in the goals", plan_of(&example), refused(7, 24));
    example.jobs[3].conditions |= word(&[63]);
    tally.same("7", plan_of(&example), refused(7, 3));
    example.jobs[2].release = 2_880;
    tally.same("the last release that is taken", plan_of(&example), refused(7, 3));
    example.jobs[3].release = 65_535;
    tally.same("20, far over", plan_of(&example), refused(20, 3));
    example.jobs[2].release = 2_881;
    tally.same("20", plan_of(&example), refused(20, 2));
    example.jobs[1].duration = 0;
    tally.same("6", plan_of(&example), refused(6, 1));
    example.jobs.resize(25, Job::default());
    tally.same("5", plan_of(&example), refused(5, 0));
    example.atoms = 65;
    tally.same("4", plan_of(&example), refused(4, 0));
    example.atoms = 0;
    tally.same("4 with none", plan_of(&example), refused(4, 0));
    let short = Given { count: 26, ..example.given() };
    tally.same("3", plan_within(&short, &mut [0; 30]), refused(3, 0));
    let endless = Given { count: u64::MAX, ..example.given() };
    tally.same("3 with any count", plan_within(&endless, &mut [0; 30]), refused(3, 0));
}

/// The mark of rule 2 is taken off before the atom count is looked at, by check 4 and by check 7.
fn test_rule_marks(tally: &mut Tally) {
    let adding = |fact, atoms| {
        let jobs = vec![job(&[], &[fact], &[], 1)];
        plan_of(&Example { jobs, atoms, opening: 0, goals: word(&[fact]), bound: 1 })
    };
    for atoms in [0, 65, 127, 128, 193, 255, 257, 261] {
        tally.same(&format!("{atoms} atoms"), adding(0, atoms), refused(4, 0));
    }
    for (fact, atoms) in [(0, 1), (63, 64), (0, 129), (63, 192), (4, 133)] {
        tally.same(&format!("fact {fact} with {atoms} atoms"), adding(fact, atoms), Ok(vec![0]));
    }
    for (fact, atoms) in [(1, 1), (1, 129), (63, 129), (5, 133), (63, 191)] {
        tally.same(&format!("fact {fact} with {atoms} atoms"), adding(fact, atoms), refused(7, 0));
    }
    let beside = Example { goals: word(&[5]), ..jobs_u(&[], 9).under_rule_2() };
    tally.same("7 in the goals under rule 2", plan_of(&beside), refused(7, 24));
}

fn test_lent_tables(tally: &mut Tally) {
    let all = jobs_u(&[2, 3, 4], 12);
    let given = all.given();
    let starts = [0, 7, 4, 4];
    tally.same("short starts", plan_within(&given, &mut [0; 3]), refused(3, 0));
    tally.same("short starts at the least bound", least_bound(&given, &mut [0; 3]), refused(3, 0));
    tally.same("short estimates", estimates(&given, &mut [0; 3]), refused(3, 0));
    tally.same("short offered plan", check_offered(&given, &starts[..3]).map(|_| ()), refused(3, 0));
    tally.same("short supports", supports(&given, &starts, &mut [0; 319]), refused(3, 0));
    tally.same("short pairs", binding_pairs(&given, &starts, &mut [0; 551]), refused(3, 0));
    let mut table = [6; 7];
    tally.same("long starts", least_bound(&given, &mut table), Ok(12));
    tally.same("what is not filled", table, [0, 7, 4, 4, 6, 6, 6]);
    let tight = Given { bound: 11, ..given };
    let mut table = [6; 7];
    tally.same("no plan", least_bound(&tight, &mut table), refused(10, 0));
    tally.same("nothing changed", table, [6; 7]);
}

fn saved_of(example: &Example) -> Saved {
    Saved {
        opening: example.opening,
        goals: example.goals,
        bound: example.bound as u16,
        jobs: example.jobs.len() as u8,
        atoms: example.atoms as u8,
    }
}

/// A file of one save.
fn file_of(example: &Example) -> Vec<u8> {
    let mut file = vec![0; 32 * example.jobs.len() + 24];
    write_file(&example.given(), &mut file, 0).expect("the example can be saved");
    file
}

fn test_files(tally: &mut Tally) {
    let mut dice = Dice(4_242);
    for _ in 0..2_000 {
        check_round_trip(tally, &mut dice);
    }
    test_reader(tally);
    test_writer(tally);
    test_tidying(tally);
}

/// Older bytes before, a save, bytes behind in the buffer; then notes between records and trailer.
fn check_round_trip(tally: &mut Tally, dice: &mut Dice) {
    let example = dice.table(24, 64, 960, 2_880);
    let example = dice.with_releases(&example, 2_880);
    let example = if dice.below(2) == 0 { example } else { example.under_rule_2() };
    let used = dice.below(200) as usize;
    let length = used + 32 * example.jobs.len() + 24;
    let before: Vec<u8> = (0..length + dice.below(40) as usize).map(|_| dice.next() as u8).collect();
    let mut buffer = before.clone();
    tally.same("new length", write_file(&example.given(), &mut buffer, used as u64), Ok(length as u64));
    tally.check("no other byte", buffer[..used] == before[..used] && buffer[length..] == before[length..]);
    let mut lent = vec![Job::default(); example.jobs.len() + 1];
    tally.same("read back", read_file(&buffer[..length], &mut lent), Ok(saved_of(&example)));
    tally.check("jobs read back", lent[..example.jobs.len()] == example.jobs[..]);
    let notes = dice.below(50) as usize;
    let mut noted = buffer[..length - 24].to_vec();
    noted.extend((0..notes).map(|_| dice.next() as u8));
    noted.extend(&buffer[length - 24..length - 4]);
    noted.extend(((32 * example.jobs.len() + notes) as u32).to_le_bytes());
    tally.same("read with notes", read_file(&noted, &mut lent), Ok(saved_of(&example)));
    tally.check("jobs read with notes", lent[..example.jobs.len()] == example.jobs[..]);
    check_tidying(tally, &noted, used, &buffer[length..]);
}

/// A save behind so many older bytes: tidied, each byte is where it must be, and tidied again it is the same.
fn check_tidying(tally: &mut Tally, file: &[u8], older: usize, behind: &[u8]) {
    let save = file.len() - older;
    let mut buffer = [file, behind].concat();
    tally.same("tidied length", tidy(&mut buffer, file.len() as u64), Ok(save as u64));
    let right = |(place, &byte): (usize, &u8)| {
        byte == if place < save { file[older + place] } else if place < file.len() { 0 } else { behind[place - file.len()] }
    };
    tally.check("every byte", buffer.len() == file.len() + behind.len() && buffer.iter().enumerate().all(right));
    let read = |file: &[u8]| {
        let mut lent = [Job::default(); 24];
        (read_file(file, &mut lent), lent)
    };
    tally.check("read as before", read(&buffer[..save]) == read(file));
    let once = buffer.clone();
    tally.same("tidied again", tidy(&mut buffer, save as u64), Ok(save as u64));
    tally.check("nothing changed", buffer == once);
}

fn test_tidying(tally: &mut Tally) {
    let file = file_of(&jobs_u(&[2, 3], 12));
    let tidied = |file: &[u8], used: u64| {
        let mut buffer = file.to_vec();
        let result = tidy(&mut buffer, used);
        (result, buffer == file)
    };
    let long = [vec![1; 65_536 - file.len()], file.clone(), vec![7; 2]].concat();
    tally.same("tidy, one save", tidied(&file, 152), (Ok(152), true));
    tally.same("tidy, the longest file", tidied(&long, 65_536), (Ok(152), false));
    tally.same("tidy 1", tidied(&long, 65_537), (refused(1, 0), true));
    tally.same("tidy 1 before 3", tidied(&file, 65_537), (refused(1, 0), true));
    tally.same("tidy 1, any use", tidied(&file, u64::MAX), (refused(1, 0), true));
    tally.same("tidy 3", tidied(&file, 153), (refused(3, 0), true));
    tally.same("tidy 3 before 2", tidied(&[], 1), (refused(3, 0), true));
    tally.same("tidy 2", tidied(&file, 151), (refused(2, 0), true));
    tally.same("tidy 2, nothing in use", tidied(&file, 0), (refused(2, 0), true));
    tally.same("tidy 5", tidied(&file_of_many(255, 0), 255 * 32 + 24), (refused(5, 0), true));
    tally.same("tidy, no jobs", tidied(&file_of_many(0, 0), 24), (Ok(24), true));
}

fn test_reader(tally: &mut Tally) {
    let example = jobs_u(&[2, 3], 12);
    let file = file_of(&example);
    let read = |file: &[u8]| read_file(file, &mut [Job::default(); 255]);
    let changed = |places: &[(usize, u8)]| {
        let mut other = file.clone();
        places.iter().for_each(|&(place, byte)| other[place] = byte);
        read(&other)
    };
    let trailer = file.len() - 24;
    tally.same("reader", read(&file), Ok(saved_of(&example)));
    tally.same(
        "longest file",
        read(&[vec![1; 65_536 - file.len()], file.clone()].concat()),
        Ok(saved_of(&example)),
    );
    tally.same("reader 1", read(&[vec![1; 65_537 - file.len()], file.clone()].concat()), refused(1, 0));
    tally.same("reader 2, short", read(&file[..23]), refused(2, 0));
    tally.same("reader 2, near", changed(&[(trailer + 20, 127)]), refused(2, 0));
    tally.same("reader 2, far", changed(&[(trailer + 20, 129)]), refused(2, 0));
    tally.same("reader 2, very far", changed(&[(trailer + 23, 255)]), refused(2, 0));
    for byte in 28..32 {
        tally.same("reader 2, four bytes", changed(&[(3 * 32 + byte, 1), (trailer + 19, 65)]), refused(2, 0));
    }
    tally.same("reader 3", read_file(&file, &mut [Job::default(); 3]), refused(3, 0));
    for atoms in [0, 65, 127, 128, 193, 255] {
        tally.same("reader 4", changed(&[(trailer + 19, atoms)]), refused(4, 0));
    }
    tally.same("reader, rule 2", changed(&[(trailer + 19, 133)]), Ok(saved_of(&example.under_rule_2())));
    tally.same("reader 7, rule 2", changed(&[(trailer + 19, 131)]), refused(7, 2));
    tally.same("reader 6", changed(&[(32 + 24, 0)]), refused(6, 1));
    tally.same("reader 7", changed(&[(64, 32)]), refused(7, 2));
    tally.same("reader, release 2,880", changed(&[(58, 0x40), (59, 0x0b)]), Ok(saved_of(&example)));
    tally.same("reader 20", changed(&[(58, 0x41), (59, 0x0b)]), refused(20, 1));
    tally.same("reader 20 before 7", changed(&[(64, 32), (91, 255)]), refused(20, 2));
    tally.same("reader 6 before 20", changed(&[(32 + 24, 0), (27, 255)]), refused(6, 1));
    tally.same("reader 7, opening", changed(&[(trailer + 7, 128)]), refused(7, 24));
    tally.same("reader 8", changed(&[(64 + 16, 8)]), refused(8, 2));
    tally.same("reader 9", changed(&[(trailer + 17, 255)]), refused(9, 0));
    tally.same("reader 5", read(&file_of_many(25, 0)), refused(5, 0));
    tally.same("reader 2 before 5", read(&file_of_many(255, 1)), refused(2, 0));
}

/// A file of more jobs than allowed, with the last byte of its last record as given.
fn file_of_many(count: u8, last: u8) -> Vec<u8> {
    let mut file: Vec<u8> =
        (0..count).flat_map(|_| [job_bytes(&job(&[], &[0], &[], 1)), vec![0; 4]].concat()).collect();
    file.last_mut().into_iter().for_each(|byte| *byte = last);
    file.extend([0; 16]);
    file.extend([9, 0, count, 1]);
    file.extend((32 * count as u32).to_le_bytes());
    file
}

fn test_writer(tally: &mut Tally) {
    let example = jobs_u(&[2, 3], 12);
    let write = |given: &Given, length: usize, used: u64| {
        let mut buffer = vec![5; length];
        let result = write_file(given, &mut buffer, used);
        (result, result.is_err() && buffer != vec![5; length])
    };
    let given = example.given();
    tally.same("writer to the last byte", write(&given, 65_536, 65_536 - 152).0, Ok(65_536));
    tally.same("writer 1", write(&given, 70_000, 65_536 - 151), (refused(1, 0), false));
    tally.same("writer 1, any use", write(&given, 70_000, u64::MAX), (refused(1, 0), false));
    tally.same(
        "writer 1, any count",
        write(&Given { count: u64::MAX, ..given }, 152, 0),
        (refused(1, 0), false),
    );
    tally.same(
        "writer 1, 3000 jobs",
        write(&Given { count: 3_000, ..given }, 152, 0),
        (refused(1, 0), false),
    );
    tally.same("writer 3", write(&given, 151, 0), (refused(3, 0), false));
    tally.same("writer 3, use beyond the buffer", write(&given, 10, 20), (refused(3, 0), false));
    tally.same("writer 3, records", write(&Given { count: 5, ..given }, 900, 0), (refused(3, 0), false));
    for atoms in [0, 128, 193] {
        tally.same("writer 4", write(&Given { atoms, ..given }, 900, 0), (refused(4, 0), false));
    }
    tally.same("writer, rule 2", file_of(&example.under_rule_2())[147], 133);
    let late = example.released(&[0, 0, 2_881]);
    tally.same("writer 20", write(&late.given(), 900, 0), (refused(20, 2), false));
    tally.same("writer 9", write(&Given { bound: 2_881, ..given }, 900, 0), (refused(9, 0), false));
    tally.same("writer, no jobs", write(&Given { count: 0, ..given }, 24, 0).0, Ok(24));
}

/// Whole numbers of any size, least word first, for the slow way to the tenths.
type Big = Vec<u32>;

fn big_shifted(value: u64, places: usize) -> Big {
    let mut big = vec![0; places / 32];
    let wide = (value as u128) << (places % 32);
    big.extend((0..4).map(|word| (wide >> (32 * word)) as u32));
    big.resize(40, 0);
    big
}

fn big_times(big: &Big, factor: u32) -> Big {
    let mut carry = 0u64;
    big.iter()
        .map(|&word| {
            carry += word as u64 * factor as u64;
            let low = carry as u32;
            carry >>= 32;
            low
        })
        .collect()
}

fn big_at_most(a: &Big, b: &Big) -> bool {
    a.iter().rev().le(b.iter().rev())
}

/// Counts whole tenths over the parts of which 2^1074 make one, then holds what is left to a half.
fn slow_tenths(bits: u64) -> i32 {
    let exponent = (bits >> 52 & 0x7ff) as usize;
    let fraction = bits & ((1 << 52) - 1);
    let parts = match exponent {
        0 => big_shifted(fraction, 0),
        _ => big_shifted(fraction | 1 << 52, exponent - 1),
    };
    let ten = big_times(&parts, 10);
    let one = big_shifted(1, 1_074);
    // The number of whole ones in ten times the size, by halving.
    let (mut low, mut high) = (0, 1_001);
    while high - low > 1 {
        let middle = (low + high) / 2;
        match big_at_most(&big_times(&one, middle), &ten) {
            true => low = middle,
            false => high = middle,
        }
    }
    let twenty = big_times(&parts, 20);
    let and_a_half = big_times(&one, 2 * low + 1);
    match bits >> 63 {
        0 => low as i32 + big_at_most(&and_a_half, &twenty) as i32,
        _ => -(low as i32) - !big_at_most(&twenty, &and_a_half) as i32,
    }
}

fn test_tenths(tally: &mut Tally) {
    for twentieth in -2_000i32..=2_000 {
        let nearest: f64 = format!("{}e-2", 5 * twentieth).parse().expect("a number");
        for bits in [nearest.to_bits() - (twentieth != 0) as u64, nearest.to_bits(), nearest.to_bits() + 1] {
            if bits & !(1 << 63) <= 100f64.to_bits() {
                tally.same("tenths near a twentieth", tenths(bits), slow_tenths(bits));
            }
        }
    }
    let mut dice = Dice(31_337);
    let common = 0.01f64.to_bits();
    for _ in 0..5_000 {
        let bits = dice.next() & 1 << 63 | dice.below(100f64.to_bits() + 1);
        tally.same("tenths of any float", tenths(bits), slow_tenths(bits));
        let near = dice.next() & 1 << 63 | (common + dice.below(100f64.to_bits() - common + 1));
        tally.same("tenths of a common float", tenths(near), slow_tenths(near));
    }
    for bits in [
        0,
        1,
        2,
        (1 << 52) - 1,
        1 << 52,
        (1 << 52) + 1,
        0.1f64.to_bits(),
        0.3f64.to_bits(),
        99.99f64.to_bits(),
    ] {
        for sign in [0, 1 << 63] {
            tally.same("tenths of a special float", tenths(bits | sign), slow_tenths(bits | sign));
        }
    }
}

fn test_marks(tally: &mut Tally) {
    let facts = |temperature: f64, humidity: f64, marks: &[(u8, i16, u8)]| {
        let channels: Vec<u8> = marks.iter().map(|mark| mark.0).collect();
        let levels: Vec<i16> = marks.iter().map(|mark| mark.1).collect();
        let places: Vec<u8> = marks.iter().map(|mark| mark.2).collect();
        let reading = Reading { temperature: temperature.to_bits(), humidity: humidity.to_bits() };
        let marks = Marks { count: marks.len() as u64, channels: &channels, levels: &levels, facts: &places };
        opening_facts(0b1010, reading, &marks)
    };
    tally.same("no marks", facts(20.0, 50.0, &[]), Ok(0b1010));
    tally.same("reached", facts(24.000000000000004, 50.0, &[(0, 240, 0), (1, 501, 1)]), Ok(0b1001));
    tally.same("all of both", facts(24.0, 50.0, &[(0, 240, 0), (1, 501, 0), (1, 500, 2)]), Ok(0b1110));
    tally.same("missed", facts(23.949999999999996, 50.0, &[(0, 240, 3), (0, 239, 63)]), Ok(0b0010 | 1 << 63));
    tally.same("ends of the range", facts(-100.0, 100.0, &[(0, -1_000, 0), (1, 1_000, 2)]), Ok(0b1111));
    let above = f64::from_bits(100f64.to_bits() + 1);
    for strange in [f64::NAN, f64::INFINITY, -f64::INFINITY, above, -above, f64::MAX] {
        tally.same("temperature", facts(strange, strange, &[(9, 0, 0)]), refused(17, 0));
        tally.same("humidity", facts(0.0, strange, &[(9, 0, 0)]), refused(17, 1));
    }
    tally.same("17 marks", facts(0.0, 0.0, &[(9, 0, 0); 17]), refused(18, 16));
    tally.same("16 marks", facts(0.0, 0.0, &[(0, 0, 0); 16]), Ok(0b1011));
    for bad in [(2, 0, 0), (0, 1_001, 0), (0, -1_001, 0), (0, 0, 64)] {
        tally.same("lowest mark", facts(0.0, 0.0, &[(1, 0, 0), bad, bad]), refused(18, 1));
    }
    let reading = Reading { temperature: u64::MAX, humidity: 0 };
    let short = Marks { count: 2, channels: &[0, 0], levels: &[0], facts: &[0, 0] };
    tally.same("short marks", opening_facts(0, reading, &short), refused(3, 0));
}

fn test_bench(tally: &mut Tally) {
    let text = "least 12\n0 4 0\n4 12 2\n4 7 3\n7 9 1\n0 before 1\n0 before 2\n0 before 3\n3 before 1\n";
    tally.same("bench P3", bench::text(&file_of(&jobs_u(&[2, 3, 4], 12))).as_str(), text);
    let text = "least 14\n0 4 0\n4 7 3\n6 14 2\n7 9 1\n0 before 1\n0 before 2\n0 before 3\n3 before 1\n";
    let late = jobs_u(&[2, 3, 4], 2_880).released(&[0, 0, 6, 0]);
    tally.same("bench of the late crate", bench::text(&file_of(&late)).as_str(), text);
    let text = "least 13\n0 4 0\n5 13 2\n5 8 3\n9 11 1\n0 before 1\n0 before 2\n0 before 3\n3 before 1\n";
    let hygiene = jobs_u(&[2, 3, 4], 13).under_rule_2();
    tally.same("bench P3 under rule 2", bench::text(&file_of(&hygiene)).as_str(), text);
    tally.same("bench P2", bench::text(&file_of(&jobs_u(&[2, 3], 11))).as_str(), "refused 10 0\n");
    tally.same("bench P5", bench::text(&file_of(&jobs_u(&[0], 2_880))).as_str(), "least 0\n");
    tally.same("bench of nothing", bench::text(&[]).as_str(), "refused 2 0\n");
    tally.same("bench of 25 jobs", bench::text(&file_of_many(25, 0)).as_str(), "refused 5 0\n");
    tally.same("bench of 255 jobs", bench::text(&file_of_many(255, 0)).as_str(), "refused 5 0\n");
    tally.same("bench of a long file", bench::text(&[0; 65_537]).as_str(), "refused 1 0\n");
}

/// A call with jobs U, as the stream has it.
fn call_bytes(head: [u64; 16], records: &[Job], table: &[u8]) -> Vec<u8> {
    let mut bytes: Vec<u8> = head.iter().flat_map(|word| word.to_le_bytes()).collect();
    bytes.extend(records.iter().flat_map(|job| [job_bytes(job), vec![7; 4]].concat()));
    bytes.extend(table);
    bytes
}

/// Records as an answer has them.
fn hex_of(records: &[Job]) -> String {
    records.iter().flat_map(job_bytes).map(|byte| format!("{byte:02x}")).collect()
}

/// An edit as it stands in a call.
fn edit_bytes(what: u8, number: u8, [bound, lent]: [u16; 2], behind: &[u8]) -> Vec<u8> {
    let mut bytes = vec![what, number];
    bytes.extend([bound, lent].iter().flat_map(|half| half.to_le_bytes()));
    bytes.resize(8, 7);
    bytes.extend(behind);
    bytes.resize(40, 7);
    bytes
}

/// Two calls on an open table of P3's jobs: drench replaced, planned, wash removed, one that is not there, and begun anew;
/// and one in which a byte of the last edit is missing.
fn edits_of_p3() -> Vec<u8> {
    let table = right_table(5, &p3().jobs);
    let wanted: Vec<u8> = [1u64, 0b11000].iter().flat_map(|word| word.to_le_bytes()).collect();
    let mut given: Vec<u8> = table.rows.iter().flat_map(|row| row.to_le_bytes()).collect();
    given.extend(edit_bytes(2, 1, [0, 0], &job_bytes(&table.jobs[0])));
    given.extend(edit_bytes(4, 0, [13, 5], &wanted));
    given.extend(edit_bytes(5, 0, [2_880, 3], &wanted));
    given.extend(edit_bytes(3, 0, [0, 0], &[]));
    given.extend(edit_bytes(3, 3, [0, 0], &[]));
    given.extend(edit_bytes(1, 0, [0, 0], &job_bytes(&table.jobs[1])));
    given.extend(edit_bytes(0, 130, [0, 0], &[]));
    let mut head = [0; 16];
    (head[0], head[1], head[2], head[8], head[9], head[11]) = (20, 4, 5, 24, given.len() as u64, 0x2d);
    let whole = call_bytes(head, &table.jobs, &given);
    head[9] -= 1;
    [whole, call_bytes(head, &table.jobs, &given[1..])].concat()
}

/// What is told of the first of them.
fn told_edits_of_p3() -> String {
    let jobs = p3().jobs;
    let [unpack, drench, warm, wash] = [0, 1, 2, 3].map(|number| jobs[number]);
    let hex = |bytes: &[u8]| bytes.iter().map(|byte| format!("{byte:02x}")).collect::<String>();
    let table = |atoms: u8, jobs: &[Job]| {
        let table = right_table(atoms, jobs);
        let rows = table.rows.iter().flat_map(|row| row.to_le_bytes());
        let numbers = [&[table.atoms][..], &table.count.to_le_bytes()].concat();
        hex(&numbers) + &hex_of(&table.jobs) + &hex(&rows.collect::<Vec<u8>>())
    };
    let twice = table(5, &[unpack, unpack, warm, wash]);
    let left = table(5, &[unpack, warm, wash]);
    [
        format!("0 0 0 0 {twice}"),
        format!("0 0 0 0 {twice} ffff000004000400{}", "2d".repeat(18)),
        format!("3 0 0 65535 {twice} {}", "2d".repeat(22)),
        format!("0 0 0 0 {left}"),
        format!("22 0 3 0 {left}"),
        format!("0 0 0 3 {}", table(5, &[unpack, warm, wash, drench])),
        format!("0 0 0 0 {}", table(130, &[])),
    ]
    .join("; ")
}

fn test_calls(tally: &mut Tally) {
    let jobs = jobs_u(&[], 0).jobs;
    let starts = [0, 0, 7, 0, 4, 0, 4, 0];
    let head = |op, h6, h7, h9, h10, h11| [op, 4, 5, 1, 0b11100, 12, h6, h7, 4, h9, h10, h11, 0, 0, 0, 0];
    let mut stream = Vec::new();
    stream.extend(call_bytes(head(1, 0, 0, 8, 0, 0), &jobs, &starts));
    stream.extend(call_bytes(head(2, 0, 0, 0, 5, 0xab), &jobs, &[]));
    let late = jobs_u(&[], 0).released(&[0, 8, 2_881, 0]).jobs;
    stream.extend(call_bytes(head(1, 0, 0, 8, 0, 0), &late, &starts));
    stream.extend(call_bytes([1, 2, 5, 1, 0, 12, 0, 0, 4, 8, 0, 0, 0, 0, 0, 0], &late, &starts));
    stream.extend(call_bytes(head(3, 0, 0, 0, 4, 0), &jobs, &[]));
    stream.extend(call_bytes(head(3, 0, 0, 0, 3, 0), &jobs, &[]));
    stream.extend(call_bytes([3, 4, 133, 1, 0b11100, 13, 0, 0, 4, 0, 4, 0, 0, 0, 0, 0], &jobs, &[]));
    stream.extend(call_bytes(head(4, 0, 0, 8, 2, 1), &jobs, &starts));
    stream.extend(call_bytes(head(6, 0, 0, 0, 4, 0), &jobs, &[]));
    stream.extend(call_bytes(head(7, 3, 1, 2, 4, 0), &jobs, &[0, 1]));
    stream.extend(call_bytes(head(8, 0, 0, 3, 0, 0), &jobs[..], &[1, 2, 3]));
    let mut readings = head(10, 24f64.to_bits(), 1, 1, 1, 1);
    readings[12] = 50f64.to_bits();
    stream.extend(call_bytes(readings, &jobs, &[0, 240, 0, 6]));
    stream.extend(call_bytes(head(1, 0, 0, 8, 0, 0), &jobs, &[0, 0, 6, 0, 4, 0, 4, 0]));
    let own = job(&[1, 40], &[], &[40, 63], 1);
    for records in [vec![jobs[1], jobs[3]], vec![own, own], vec![own, jobs[0]], vec![own], vec![own; 3]] {
        let mut clashing = [11; 16];
        (clashing[8], clashing[9]) = (records.len() as u64, 0);
        stream.extend(call_bytes(clashing, &records, &[]));
    }
    for (finished, event, job) in [(1, 1, 3), (1, 0, 1), (1 << 63, 0, 2)] {
        let mut following = head(13, 0b1001, finished, 8, 0, 0);
        (following[12], following[13]) = (event, job);
        stream.extend(call_bytes(following, &jobs, &starts));
    }
    for (room, job) in [(5, 1), (4, 255), (3, 1)] {
        let mut explaining = head(14, 0b1011, 3, 7, room, 0xcd);
        explaining[13] = job;
        stream.extend(call_bytes(explaining, &jobs, &[0, 1, 0, 3, 3, 1, 7]));
    }
    for (goals, bound) in [(0b11100, 11), (0b11100, 12), (0b100000, 0), (0, 2_881)] {
        let mut reasoning = head(15, 0, 0, 0, 0, 0);
        (reasoning[2], reasoning[4], reasoning[5]) = (6, goals, bound);
        stream.extend(call_bytes(reasoning, &jobs, &[]));
    }
    for (groups, lent) in [(&[1][..], 4), (&[1], 2), (&[0, 12], 0), (&[], 1)] {
        let mut entering = [9; 16];
        (entering[0], entering[8], entering[9]) = (17, lent as u64, groups.len() as u64);
        stream.extend(call_bytes(entering, &vec![own; lent], groups));
    }
    let names = table_of_names(&P3_NAMES);
    let text = [&names[..], P3_TEXT.as_bytes()].concat();
    for (named, room) in [(64, 5), (63, 4), (64, 3)] {
        stream.extend(call_bytes(head(18, named, 0, text.len() as u64, room, 0xab), &jobs, &text));
    }
    let plan = [&names[..], &starts].concat();
    for (named, room) in [(64, 157), (64, 155), (62, 156)] {
        stream.extend(call_bytes(head(19, named, 0, 72, room, 0x2d), &jobs, &plan));
    }
    stream.extend(edits_of_p3());
    for (most, bound) in [(0, 12), (1, 12), (96, 12), (97, 12), (65_535, 12), (97, 11)] {
        let mut asking = head(16, 0, 0, 8, 0, 0);
        (asking[5], asking[12]) = (bound, most);
        stream.extend(call_bytes(asking, &jobs, &starts));
    }
    // The jobs of a batch of group 1.
    let (stage, washing, clearing) =
        (job(&[], &[1], &[], 4), job(&[0, 1], &[2], &[0], 3), job(&[2], &[0], &[], 1));
    let mut output = Vec::new();
    let whole = calls::run(&mut std::io::BufReader::new(&stream[..]), &mut output).is_ok();
    let expected = [
        "0 0 0 0",
        "0 0 0 0 0000070004000400abab",
        "20 0 2 0",
        "21 0 1 0",
        "0 0 0 12 0000070004000400",
        "3 0 0 65535 000000000000",
        "0 0 0 13 0000090005000500",
        "3 0 0 0 0101",
        "0 0 0 0 0000040004000400",
        "0 0 0 0 00000400ffffffff",
        &format!("2 0 0 0 0 0 0 0 {}", hex_of(&jobs)),
        "0 0 0 65",
        "12 2 1 0",
        "2 2",
        "1 40",
        "0 64",
        "unknown",
        "unknown",
        "0 0 0 0 9 9 18 6",
        "19 0 1 0 9 1 0 0",
        "19 0 65535 0 9 9223372036854775808 0 0",
        "0 0 0 3 000301cdcd",
        "27 0 255 0 cdcdcdcd",
        "3 0 0 0 cdcdcd",
        "0 0 0 0 2 3",
        "0 0 0 0 3 64",
        "0 0 0 0 1 5",
        "9 0 0 0 0 64",
        &format!("0 0 0 1 4 3 3 {}", hex_of(&[stage, washing, clearing, own])),
        &format!("3 0 0 0 0 0 0 {}", hex_of(&[own, own])),
        "28 0 1 0 0 0 0 ",
        &format!("0 0 0 1 0 0 1 {}", hex_of(&[own])),
        "0 0 0 0 0000070004000400abab",
        "3 0 0 0 abababababababab",
        "3 0 0 0 abababababab",
        &format!(
            "0 0 0 92 {}{}",
            P3_TEXT.bytes().map(|byte| format!("{byte:02x}")).collect::<String>(),
            "2d".repeat(65)
        ),
        &format!("3 0 0 0 {}", "2d".repeat(155)),
        &format!("3 0 0 0 {}", "2d".repeat(156)),
        &told_edits_of_p3(),
        "unknown",
        "0 0 0 12",
        "0 0 0 15",
        "0 0 0 300",
        "34 0 0 0",
        "34 0 0 0",
        "11 0 2 0",
    ];
    tally.same(
        "stream of calls",
        String::from_utf8_lossy(&output).lines().collect::<Vec<_>>(),
        expected.to_vec(),
    );
    tally.check("whole stream", whole);
    let cut = calls::run(&mut std::io::BufReader::new(&stream[..200]), &mut Vec::new());
    tally.check("a stream that ends within a call", cut.is_err());
    test_runs(tally, &stream, expected.len());
}

/// Of these calls the first three of the last six ask how late P3 can get and are not refused: what runs there is within
/// what is told.
fn test_runs(tally: &mut Tally, stream: &[u8], calls: usize) {
    let mut output = Vec::new();
    let whole = calls::run_over(&mut std::io::BufReader::new(stream), &mut output).is_ok();
    let output = String::from_utf8_lossy(&output);
    let lines: Vec<&str> = output.lines().collect();
    tally.check("whole stream of runs", whole && lines.len() == calls);
    let asked = calls - 6..calls - 3;
    let told_none = |at: usize| asked.contains(&at) || lines[at] == "none";
    tally.check("no runs, or refused", (0..calls).all(told_none));
    let ends: Vec<u64> = lines[asked].iter().filter_map(|line| line.parse().ok()).collect();
    let within = ends.iter().zip([12..=12, 12 + 1..=15, 12 + 96..=300]).all(|(end, told)| told.contains(end));
    tally.check(&format!("runs within what is told: {ends:?}"), ends.len() == 3 && within);
}
