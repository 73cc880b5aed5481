//! A stream of calls: a header of 16 words, the lent records, the given tables; one line of answer a call.

use crate::batches::{enter, Expanded};
use crate::examples::Dice;
use crate::files::{job_bytes, job_from, number, read_file, tidy, write_file, Saved};
use crate::following::{follow, Watch};
use crate::lateness::{how_late, last_finish, overrunning};
use crate::open::{OpenTable, Wanted};
use crate::plan::{least_bound, plan_within};
use crate::readings::{opening_facts, Marks, Reading};
use crate::reasons::{why_no_plan, why_start, Reason};
use crate::rules::{
    binding_pairs, check_offered, clash, estimates, settle, supports, Clash, Given, Job, Refusal, FACTS,
    MOST_JOBS, OUT,
};
use crate::texts::{read_text, write_text};
use std::io::{self, BufRead, Read, Write};

const WORDS: usize = 16;
const RECORD: usize = 32;

/// The bytes of an open table's rows, and of an edit; the places behind the starts lent to an edit that are told too.
const ROWS: usize = 4 * MOST_JOBS;
const EDIT: usize = 40;
const BEHIND: usize = 8;

/// How many runs of a plan have drawn overruns, and where the throws begin.
const DRAWN_RUNS: usize = 24;
const RUNS_SEED: u64 = 0x0ae2_2025_1a7e_0511;

/// One call as it stands in the stream.
struct Call {
    head: [u64; WORDS],
    records: Vec<Job>,
    table: Vec<u8>,
}

fn exactly(input: &mut impl Read, length: u64) -> io::Result<Vec<u8>> {
    let mut bytes = Vec::new();
    input.take(length).read_to_end(&mut bytes)?;
    if (bytes.len() as u64) < length {
        return Err(io::Error::new(io::ErrorKind::UnexpectedEof, "the stream ends within a call"));
    }
    Ok(bytes)
}

/// The bytes of the given tables: one table, or the three mark tables in a row.
fn table_length(head: &[u64; WORDS]) -> u64 {
    match head[0] {
        10 => head[9].saturating_add(head[10].saturating_mul(2)).saturating_add(head[11]),
        _ => head[9],
    }
}

/// The next call, or nothing at the end of the stream.
fn next_call(input: &mut impl BufRead) -> io::Result<Option<Call>> {
    if input.fill_buf()?.is_empty() {
        return Ok(None);
    }
    let mut head = [0; WORDS];
    for (word, bytes) in head.iter_mut().zip(exactly(input, 8 * WORDS as u64)?.chunks_exact(8)) {
        *word = number(bytes);
    }
    let records = exactly(input, head[8].saturating_mul(RECORD as u64))?;
    let table = exactly(input, table_length(&head))?;
    Ok(Some(Call { head, records: records.chunks_exact(RECORD).map(job_from).collect(), table }))
}

fn halves(bytes: &[u8]) -> Vec<u16> {
    bytes.chunks_exact(2).map(|pair| u16::from_le_bytes([pair[0], pair[1]])).collect()
}

fn hex(bytes: impl IntoIterator<Item = u8>) -> String {
    bytes.into_iter().map(|byte| format!("{byte:02x}")).collect()
}

fn hex_of_halves(table: &[u16]) -> String {
    hex(table.iter().flat_map(|half| half.to_le_bytes()))
}

/// Number, second number, place and value; on refusal the value is the one kept for it.
fn told<T: ToString>(result: &Result<T, Refusal>, on_refusal: T) -> String {
    match result {
        Ok(value) => format!("0 0 0 {}", value.to_string()),
        Err(Refusal { number, second, place }) => {
            format!("{number} {second} {place} {}", on_refusal.to_string())
        }
    }
}

fn told_file(result: &Result<Saved, Refusal>) -> String {
    let line = |saved: &Saved| {
        format!("{} {} {} {} {}", saved.opening, saved.goals, saved.bound, saved.jobs, saved.atoms)
    };
    told(&result.as_ref().map(line).map_err(|refusal| *refusal), line(&Saved::default()))
}

fn told_batches(result: &Result<Expanded, Refusal>) -> String {
    let line = |e: &Expanded| format!("{} {} {} {}", e.opening, e.goals, e.jobs.len(), e.atoms);
    told(&result.as_ref().map(line).map_err(|refusal| *refusal), "0 0 0 0".to_string())
}

/// Every field of an open table: the atom count, the job count, the records and the rows.
fn hex_of_table(table: &OpenTable) -> String {
    let mut bytes = vec![table.atoms];
    bytes.extend(table.count.to_le_bytes());
    bytes.extend(table.jobs.iter().flat_map(job_bytes));
    bytes.extend(table.rows.iter().flat_map(|row| row.to_le_bytes()));
    hex(bytes)
}

/// What is said to a call that there is not.
fn unknown() -> String {
    "unknown".to_string()
}

/// The number of the kind and the fact, 64 for none.
fn told_clash(clash: Clash) -> String {
    let kind = match clash {
        Clash::None => 0,
        Clash::Condition(_) => 1,
        Clash::Addition(_) => 2,
    };
    format!("{kind} {}", clash.fact().unwrap_or(FACTS))
}

/// The number of the kind and the fact, 64 for neither; on refusal there is no reason.
fn told_reason(reason: Option<Reason>) -> String {
    let (kind, fact) = match reason {
        None => (0, FACTS),
        Some(Reason::Never(fact)) => (1, fact),
        Some(Reason::TooDear(fact)) => (2, fact),
        Some(Reason::Neither) => (3, FACTS),
    };
    format!("{kind} {fact}")
}

impl Call {
    fn given(&self) -> Given<'_> {
        Given {
            records: &self.records,
            count: self.head[1],
            atoms: self.head[2],
            opening: self.head[3],
            goals: self.head[4],
            bound: self.head[5],
        }
    }

    fn lent_bytes(&self) -> Vec<u8> {
        vec![self.head[11] as u8; self.head[10] as usize]
    }

    fn lent_halves(&self) -> Vec<u16> {
        vec![u16::from_le_bytes([self.head[11] as u8; 2]); self.head[10] as usize]
    }

    /// The name table, and what is given behind it.
    fn names_and_rest(&self) -> (&[u8], &[u8]) {
        self.table.split_at((self.head[6] as usize).min(self.table.len()))
    }

    fn most_overrun(&self) -> u16 {
        self.head[12] as u16
    }

    /// The line that answers the call.
    fn answer(&self) -> String {
        match self.head[0] {
            1 => told(&check_offered(&self.given(), &halves(&self.table)).map(|_| 0), 0),
            2 => self.answer_in_halves(|table| plan_within(&self.given(), table).map(|_| 0), 0),
            3 => self.answer_in_halves(|table| least_bound(&self.given(), table), OUT),
            4 => {
                self.answer_in_bytes(|table| supports(&self.given(), &halves(&self.table), table).map(|_| 0))
            }
            5 => self.answer_in_bytes(|table| binding_pairs(&self.given(), &halves(&self.table), table)),
            6 => self.answer_in_halves(|table| estimates(&self.given(), table).map(|_| 0), 0),
            7 => self.answer_in_halves(
                |table| settle(&self.given(), self.head[6], self.head[7], &self.table, table).map(|_| 0),
                0,
            ),
            8 => self.answer_in_records(|lent| told_file(&read_file(&self.table, lent))),
            9 => self.answer_in_buffer(|buffer| write_file(&self.given(), buffer, self.head[6])),
            10 => self.answer_readings(),
            11 => self.answer_clash(),
            12 => self.answer_in_buffer(|buffer| tidy(buffer, self.head[6])),
            13 => self.answer_following(),
            14 => self.answer_in_bytes(|table| {
                let [set, pair_count, job] = [6, 7, 13].map(|word| self.head[word]);
                why_start(&self.given(), set, pair_count, &self.table, job as u8, table)
            }),
            15 => self.answer_no_plan(),
            16 => told(&how_late(&self.given(), &halves(&self.table), self.most_overrun()), 0),
            17 => self.answer_in_records(|lent| told_batches(&enter(&self.table, lent))),
            18 => self.answer_in_halves(
                |table| {
                    let (names, text) = self.names_and_rest();
                    read_text(&self.given(), names, text, table).map(|_| 0)
                },
                0,
            ),
            19 => self.answer_in_bytes(|table| {
                let (names, starts) = self.names_and_rest();
                write_text(&self.given(), names, &halves(starts), table)
            }),
            20 => self.answer_edits(),
            _ => unknown(),
        }
    }

    fn answer_in_halves(
        &self,
        call: impl FnOnce(&mut [u16]) -> Result<u16, Refusal>,
        on_refusal: u16,
    ) -> String {
        let mut table = self.lent_halves();
        let result = call(&mut table);
        format!("{} {}", told(&result, on_refusal), hex_of_halves(&table))
    }

    fn answer_in_bytes(&self, call: impl FnOnce(&mut [u8]) -> Result<u64, Refusal>) -> String {
        let mut table = self.lent_bytes();
        let result = call(&mut table);
        format!("{} {}", told(&result, 0), hex(table))
    }

    fn answer_in_records(&self, call: impl FnOnce(&mut [Job]) -> String) -> String {
        let mut lent = self.records.clone();
        let answer = call(&mut lent);
        format!("{answer} {}", hex(lent.iter().flat_map(job_bytes)))
    }

    fn answer_in_buffer(&self, call: impl FnOnce(&mut [u8]) -> Result<u64, Refusal>) -> String {
        let mut buffer = self.table.clone();
        let result = call(&mut buffer);
        format!("{} {}", told(&result, 0), hex(buffer))
    }

    fn answer_readings(&self) -> String {
        let (channels, rest) = self.table.split_at(self.head[9] as usize);
        let (levels, facts) = rest.split_at(2 * self.head[10] as usize);
        let levels: Vec<i16> = halves(levels).into_iter().map(|half| half as i16).collect();
        let marks = Marks { count: self.head[7], channels, levels: &levels, facts };
        let reading = Reading { temperature: self.head[6], humidity: self.head[12] };
        told(&opening_facts(self.head[3], reading, &marks), self.head[3])
    }

    fn answer_clash(&self) -> String {
        match &self.records[..] {
            [one, other] => told_clash(clash(one, other)),
            _ => unknown(),
        }
    }

    /// The answer, then the screen.
    fn answer_following(&self) -> String {
        let [started, finished, event, job] = [6, 7, 12, 13].map(|word| self.head[word]);
        let watch = Watch { started, finished, event: event as u8, job: job as u8 };
        let (result, screen) = follow(&self.given(), &halves(&self.table), &watch);
        let words = [screen.started, screen.finished, screen.facts, screen.may_start];
        format!("{} {}", told(&result, 0), words.map(|word| word.to_string()).join(" "))
    }

    /// The answer, then the reason.
    fn answer_no_plan(&self) -> String {
        let reason = why_no_plan(&self.given());
        format!("{} {}", told(&reason.map(|_| 0), 0), told_reason(reason.ok()))
    }

    /// The open table that stands in a call; none where the records are not as many or the rows are not whole.
    fn open_table(&self) -> Option<OpenTable> {
        let mut rows = [0; MOST_JOBS];
        for (row, bytes) in rows.iter_mut().zip(self.table.get(..ROWS)?.chunks_exact(4)) {
            *row = u32::from_le_bytes(bytes.try_into().ok()?);
        }
        let jobs = self.records.clone().try_into().ok()?;
        Some(OpenTable { atoms: self.head[2] as u8, count: self.head[1], jobs, rows })
    }

    /// The answer to each edit, with the table behind it.
    fn answer_edits(&self) -> String {
        match self.open_table() {
            Some(mut table) if (self.table.len() - ROWS) % EDIT == 0 => {
                let edits = self.table[ROWS..].chunks_exact(EDIT);
                edits.map(|edit| self.answer_edit(&mut table, edit)).collect::<Vec<_>>().join("; ")
            }
            _ => unknown(),
        }
    }

    fn answer_edit(&self, table: &mut OpenTable, edit: &[u8]) -> String {
        let (job, record) = (edit[1], job_from(&edit[8..]));
        let answer = match edit[0] {
            0 => told(&table.begin(edit[1]), 0),
            1 => told(&table.add(record), 0),
            2 => told(&table.replace(job, record), 0),
            3 => told(&table.remove(job), 0),
            4 | 5 => return self.answer_wanted(table, edit),
            _ => unknown(),
        };
        format!("{answer} {}", hex_of_table(table))
    }

    /// A plan of the table, or its least bound, with the table, the starts lent and what stands behind them.
    fn answer_wanted(&self, table: &OpenTable, edit: &[u8]) -> String {
        let [bound, lent] = [2, 4].map(|place| halves(&edit[place..place + 2])[0]);
        let wanted = Wanted { opening: number(&edit[8..16]), goals: number(&edit[16..24]), bound };
        let mut starts = vec![u16::from_le_bytes([self.head[11] as u8; 2]); lent as usize + BEHIND];
        let answer = match edit[0] {
            4 => told(&table.plan(&wanted, &mut starts[..lent as usize]).map(|_| 0), 0),
            _ => told(&table.least(&wanted, &mut starts[..lent as usize]), OUT),
        };
        format!("{answer} {} {}", hex_of_table(table), hex_of_halves(&starts))
    }

    /// When the last of some runs of the plan is finished, if the call asks how late it can get and is not refused: those
    /// in which no job runs over and in which every job does as far as it may, and drawn ones, by the same throws in
    /// every call.
    fn latest_run(&self) -> Option<u32> {
        let (given, starts, most) = (self.given(), halves(&self.table), self.most_overrun());
        let worked = overrunning(&given, &starts, most).ok().filter(|_| self.head[0] == 16)?;
        let jobs = worked.starts.len();
        let mut dice = Dice(RUNS_SEED);
        let drawn = (0..DRAWN_RUNS).map(|_| dice.overruns(jobs, most));
        let runs = [vec![0; jobs], vec![most; jobs]].into_iter().chain(drawn);
        runs.map(|overruns| last_finish(&worked, &overruns)).max()
    }

    /// The line that tells of these runs.
    fn told_runs(&self) -> String {
        self.latest_run().map_or("none".to_string(), |finish| finish.to_string())
    }
}

/// Writes a line for every call of the stream. What is written goes out as soon as no further call waits to be read.
fn write_lines(
    input: &mut io::BufReader<impl Read>,
    output: &mut impl Write,
    line: impl Fn(&Call) -> String,
) -> io::Result<()> {
    while let Some(call) = next_call(input)? {
        writeln!(output, "{}", line(&call))?;
        if input.buffer().is_empty() {
            output.flush()?;
        }
    }
    output.flush()
}

/// Answers every call of the stream.
pub fn run(input: &mut io::BufReader<impl Read>, output: &mut impl Write) -> io::Result<()> {
    write_lines(input, output, Call::answer)
}

/// Runs the plan of every call of the stream that asks how late it can get.
pub fn run_over(input: &mut io::BufReader<impl Read>, output: &mut impl Write) -> io::Result<()> {
    write_lines(input, output, Call::told_runs)
}
