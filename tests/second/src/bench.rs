//! The text of the program bench-plan.

use crate::files::{given_of, read_file};
use crate::plan::least_bound;
use crate::rules::{check_offered, finish, is_in, pairs_of, Job, Refusal, OUT};

/// Records enough for any count a file can name, so a long table is refused as such.
const RECORDS: usize = 255;

/// The least bound, the plan's jobs by start then number, the binding pairs.
fn answer(file: &[u8]) -> Result<String, Refusal> {
    let mut records = [Job::default(); RECORDS];
    let saved = read_file(file, &mut records)?;
    let given = given_of(&saved, &records);
    let mut starts = vec![OUT; saved.jobs as usize];
    let least = least_bound(&given, &mut starts)?;
    let (problem, starts) = check_offered(&given, &starts)?;
    let mut jobs: Vec<usize> = (0..starts.len()).filter(|&job| is_in(starts[job])).collect();
    jobs.sort_by_key(|&job| (starts[job], job));
    let mut text = format!("least {least}\n");
    for job in jobs {
        text += &format!("{} {} {}\n", starts[job], finish(&problem.jobs[job], starts[job]), job);
    }
    for (first, second) in pairs_of(&problem, starts) {
        text += &format!("{first} before {second}\n");
    }
    Ok(text)
}

/// What bench-plan prints for a job file.
pub fn text(file: &[u8]) -> String {
    answer(file).unwrap_or_else(|refusal| format!("refused {} {}\n", refusal.number, refusal.place))
}
