//! Reading, writing and tidying job files.

use crate::rules::{check_bounded_table, check_lent, refuse, Given, Job, Refusal};

const LONGEST_FILE: u64 = 65_536;
const RECORD: usize = 32;
const TRAILER: usize = 24;

/// What a file holds besides its records.
#[derive(Clone, Copy, PartialEq, Eq, Debug, Default)]
pub struct Saved {
    pub opening: u64,
    pub goals: u64,
    pub bound: u16,
    pub jobs: u8,
    pub atoms: u8,
}

/// The little-endian number in some bytes.
pub fn number(bytes: &[u8]) -> u64 {
    bytes.iter().rev().fold(0, |value, &byte| value << 8 | byte as u64)
}

/// A record's three words, its duration and its release; the four bytes behind are the caller's business.
pub fn job_from(record: &[u8]) -> Job {
    Job {
        conditions: number(&record[0..8]),
        additions: number(&record[8..16]),
        deletions: number(&record[16..24]),
        duration: number(&record[24..26]) as u16,
        release: number(&record[26..28]) as u16,
    }
}

/// The 28 bytes of a job.
pub fn job_bytes(job: &Job) -> Vec<u8> {
    let mut bytes = Vec::new();
    for word in [job.conditions, job.additions, job.deletions] {
        bytes.extend(word.to_le_bytes());
    }
    bytes.extend(job.duration.to_le_bytes());
    bytes.extend(job.release.to_le_bytes());
    bytes
}

/// The trailer's numbers and the bytes of the records, or refusal 2.
fn take_apart(file: &[u8]) -> Result<(Saved, &[u8]), Refusal> {
    if file.len() < TRAILER {
        return refuse(2, 0);
    }
    let (front, trailer) = file.split_at(file.len() - TRAILER);
    let saved = Saved {
        opening: number(&trailer[0..8]),
        goals: number(&trailer[8..16]),
        bound: number(&trailer[16..18]) as u16,
        jobs: trailer[18],
        atoms: trailer[19],
    };
    let distance = number(&trailer[20..24]) as usize;
    let length = RECORD * saved.jobs as usize;
    if distance < length || distance > front.len() {
        return refuse(2, 0);
    }
    let first = front.len() - distance;
    let records = &front[first..first + length];
    if records.chunks_exact(RECORD).any(|record| record[28..].iter().any(|&byte| byte != 0)) {
        return refuse(2, 0);
    }
    Ok((saved, records))
}

/// Fills one lent record a job and gives the rest.
pub fn read_file(file: &[u8], lent: &mut [Job]) -> Result<Saved, Refusal> {
    if file.len() as u64 > LONGEST_FILE {
        return refuse(1, 0);
    }
    let (saved, bytes) = take_apart(file)?;
    check_lent(lent.len(), saved.jobs as u64)?;
    let records: Vec<Job> = bytes.chunks_exact(RECORD).map(job_from).collect();
    check_bounded_table(&given_of(&saved, &records))?;
    lent[..records.len()].copy_from_slice(&records);
    Ok(saved)
}

/// What was saved, as a caller hands it in.
pub fn given_of<'a>(saved: &Saved, records: &'a [Job]) -> Given<'a> {
    Given {
        records,
        count: saved.jobs as u64,
        atoms: saved.atoms as u64,
        opening: saved.opening,
        goals: saved.goals,
        bound: saved.bound as u64,
    }
}

/// The bytes of a save: records, then trailer.
fn save_bytes(given: &Given) -> Vec<u8> {
    let count = given.count as usize;
    let mut bytes = Vec::new();
    for job in &given.records[..count] {
        bytes.extend(job_bytes(job));
        bytes.extend([0; 4]);
    }
    bytes.extend(given.opening.to_le_bytes());
    bytes.extend(given.goals.to_le_bytes());
    bytes.extend((given.bound as u16).to_le_bytes());
    bytes.extend([given.count as u8, given.atoms as u8]);
    bytes.extend(((RECORD * count) as u32).to_le_bytes());
    bytes
}

/// Appends a save behind the bytes in use and gives the new length.
pub fn write_file(given: &Given, buffer: &mut [u8], used: u64) -> Result<u64, Refusal> {
    let save = given.count.saturating_mul(RECORD as u64).saturating_add(TRAILER as u64);
    let length = used.saturating_add(save);
    if length > LONGEST_FILE {
        return refuse(1, 0);
    }
    check_lent(buffer.len(), length)?;
    check_bounded_table(given)?;
    buffer[used as usize..length as usize].copy_from_slice(&save_bytes(given));
    Ok(length)
}

/// Lets the bytes in use keep their last save alone, its notes too, with zeros where the rest stood, and gives its length.
pub fn tidy(buffer: &mut [u8], used: u64) -> Result<u64, Refusal> {
    if used > LONGEST_FILE {
        return refuse(1, 0);
    }
    check_lent(buffer.len(), used)?;
    let used = used as usize;
    let mut file = buffer[..used].to_vec();
    read_file(&file, &mut [Job::default(); 255])?;
    let save = number(&file[used - 4..]) as usize + TRAILER;
    file.drain(..used - save);
    file.resize(used, 0);
    buffer[..used].copy_from_slice(&file);
    Ok(save as u64)
}
