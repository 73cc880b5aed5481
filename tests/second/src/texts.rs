//! Plans as text, a line a step, with names from a lent table: `4.000: (warm) [8.000]` and a newline.

use crate::rules::{check_lent, check_offered, check_table, jobs_in, refuse, Given, Job, Refusal, OUT};

/// The bytes of a name in the table, and the most of a line that is written.
const NAME: usize = 16;
const LINE: usize = 39;

const MOST_DIGITS: usize = 4;
const LAST_START: u16 = 2_880;

// Names.

fn may_stand_in_name(byte: u8) -> bool {
    matches!(byte, b'a'..=b'z' | b'0'..=b'9' | b'-')
}

/// The name in an entry of the table: all up to the first zero. None where it is empty, has a byte that may not stand in
/// it, or has anything but zeros behind it.
fn name_in(entry: &[u8]) -> Option<&[u8]> {
    let length = entry.iter().position(|&byte| byte == 0).unwrap_or(NAME);
    let (name, behind) = entry.split_at(length);
    let allowed = name.iter().all(|&byte| may_stand_in_name(byte));
    let in_form = length > 0 && allowed && behind.iter().all(|&byte| byte == 0);
    in_form.then_some(name)
}

/// Refusal 3 where the table has fewer entries than there are jobs.
fn check_names_lent(names: &[u8], count: u64) -> Result<(), Refusal> {
    check_lent(names.len() / NAME, count)
}

/// The names of so many jobs, or 33 at the lowest job whose entry has no name or is the same as that of another job.
fn names_of<'a>(names: &'a [u8], jobs: usize) -> Result<Vec<&'a [u8]>, Refusal> {
    let entries: Vec<&'a [u8]> = names.chunks_exact(NAME).take(jobs).collect();
    let alike = |entry: &[u8]| entries.iter().filter(|&&other| other == entry).count() > 1;
    let named = |(job, &entry): (usize, &&'a [u8])| match name_in(entry) {
        Some(name) if !alike(entry) => Ok(name),
        _ => refuse(33, job as u64),
    };
    entries.iter().enumerate().map(named).collect()
}

// Reading.

/// What a line says.
struct Step<'a> {
    start: u16,
    name: &'a [u8],
    duration: u16,
}

/// What is left of a line that is read from its front.
struct Rest<'a>(&'a [u8]);

impl<'a> Rest<'a> {
    /// As many bytes as fit, which may be none.
    fn take_while(&mut self, fits: impl Fn(u8) -> bool) -> &'a [u8] {
        let length = self.0.iter().position(|&byte| !fits(byte)).unwrap_or(self.0.len());
        let (taken, rest) = self.0.split_at(length);
        self.0 = rest;
        taken
    }

    /// Just this text.
    fn skip(&mut self, text: &[u8]) -> Option<()> {
        self.0 = self.0.strip_prefix(text)?;
        Some(())
    }

    /// One to four digits, and behind them nothing, or a point and at least one zero.
    fn number(&mut self) -> Option<u16> {
        let digits = self.take_while(|byte| byte.is_ascii_digit());
        if digits.is_empty() || digits.len() > MOST_DIGITS {
            return None;
        }
        if self.skip(b".").is_some() && self.take_while(|byte| byte == b'0').is_empty() {
            return None;
        }
        Some(digits.iter().fold(0, |value, digit| 10 * value + (digit - b'0') as u16))
    }

    fn name(&mut self) -> Option<&'a [u8]> {
        let name = self.take_while(may_stand_in_name);
        (1..=NAME).contains(&name.len()).then_some(name)
    }
}

/// A line with its newline; None where it is outside the form.
fn step_in(line: &[u8]) -> Option<Step<'_>> {
    let mut rest = Rest(line);
    let start = rest.number()?;
    rest.skip(b": (")?;
    let name = rest.name()?;
    rest.skip(b") [")?;
    let duration = rest.number()?;
    rest.skip(b"]\n")?;
    rest.0.is_empty().then_some(Step { start, name, duration })
}

/// The starts after one line more: refusals 23 to 26 at this line, in that order.
fn take_line(
    starts: &mut [u16],
    jobs: &[Job],
    names: &[&[u8]],
    number: usize,
    line: &[u8],
) -> Result<(), Refusal> {
    let place = number as u64;
    let Some(step) = step_in(line).filter(|step| step.start <= LAST_START) else {
        return refuse(23, place);
    };
    let Some(job) = names.iter().position(|&name| name == step.name) else {
        return refuse(24, place);
    };
    if starts[job] != OUT {
        return refuse(25, place);
    }
    if step.duration != jobs[job].duration {
        return refuse(26, place);
    }
    starts[job] = step.start;
    Ok(())
}

/// Fills one start a job from the lines, out for a job without one. There is no bound here, so no refusal 9; then 33, then
/// what the first bad line is refused with.
pub fn read_text(given: &Given, names: &[u8], text: &[u8], table: &mut [u16]) -> Result<(), Refusal> {
    check_lent(table.len(), given.count)?;
    check_names_lent(names, given.count)?;
    let problem = check_table(given)?;
    let names = names_of(names, problem.jobs.len())?;
    let mut starts = vec![OUT; names.len()];
    for (number, line) in text.split_inclusive(|&byte| byte == b'\n').enumerate() {
        take_line(&mut starts, problem.jobs, &names, number, line)?;
    }
    table[..starts.len()].copy_from_slice(&starts);
    Ok(())
}

// Writing.

/// A line that is written: its numbers have three zeros behind the point.
fn line_of(start: u16, name: &[u8], duration: u16) -> String {
    format!("{start}.000: ({}) [{duration}.000]\n", String::from_utf8_lossy(name))
}

/// Fills the text of a valid plan, by start, then job, and gives its length: the refusals of an offered plan, then 33.
pub fn write_text(given: &Given, names: &[u8], starts: &[u16], text: &mut [u8]) -> Result<u64, Refusal> {
    check_lent(text.len() / LINE, given.count)?;
    check_names_lent(names, given.count)?;
    let (problem, starts) = check_offered(given, starts)?;
    let names = names_of(names, starts.len())?;
    let mut jobs: Vec<usize> = jobs_in(starts).collect();
    jobs.sort_by_key(|&job| (starts[job], job));
    let lines = jobs.into_iter().map(|job| line_of(starts[job], names[job], problem.jobs[job].duration));
    let written = lines.collect::<String>().into_bytes();
    text[..written.len()].copy_from_slice(&written);
    Ok(written.len() as u64)
}
